#!/usr/bin/env python3
"""signs.py > signs.svg: the signs of the gamma function along the axis.

Every value and sign in the picture is an answer of the proved program: tgamma (kind 1) and
lgamma_r (kind 2) are asked through bin/answers at each point, and in f32 tgammaf (kind 18) and
lgammaf_r (kind 17) at some.
"""
import math
import pathlib
import struct
import subprocess

ROOT = pathlib.Path(__file__).resolve().parent.parent
LEFT, RIGHT, STEP = -6.0, 4.0, 1 / 128
SCALE, MIDDLE, MOST = 80, 230, 5.5  # pixels for 1 along the axis, the axis, the largest size that is drawn
UNIT = 30  # pixels for 1 across it
PLUS, MINUS = "#1b6ca8", "#c0392b"


def ask(points, kinds=(1, 2), letter="d"):
    """The value of the gamma function and the sign that the log-gamma reports, at each point: f64 (d) or f32 (f)."""
    requests = b"".join(bytes([kind]) + struct.pack("<" + letter, x) for x in points for kind in kinds)
    said = subprocess.run([ROOT / "bin/answers"], input=requests, stdout=subprocess.PIPE, check=True).stdout
    shape = struct.Struct(f"<B{letter}B{letter}B")
    assert len(said) == shape.size * len(points) + 2 and said[-2:] == b"\xff\x00"
    answers = []
    for head, value, _, _, sign in shape.iter_unpack(said[:-2]):
        assert head == 128 + kinds[0]
        answers.append((value, {1: 1, 255: -1}[sign]))
    return answers


def minus(value):
    """Whether the sign bit is set."""
    return struct.pack(">d", value)[0] >= 128


def x_of(x):
    return 100 + (x - LEFT) * SCALE


def text(x, y, words, anchor="middle", colour="black", size=13):
    return f'<text x="{x:.1f}" y="{y:.1f}" text-anchor="{anchor}" fill="{colour}" font-size="{size}">{words}</text>'


def curve(points, answers):
    """A polyline for each run of points without a pole between."""
    runs, run = [], []
    for x, (value, _) in zip(points, answers):
        if x <= 0 and x == int(x) or abs(value) > MOST:
            runs.append(run)
            run = []
            continue
        run.append((x, value))
    for run in filter(None, runs + [run]):
        colour = MINUS if minus(run[0][1]) else PLUS
        places = " ".join(f"{x_of(x):.1f},{MIDDLE - v * UNIT:.1f}" for x, v in run)
        yield f'<polyline points="{places}" fill="none" stroke="{colour}" stroke-width="2"/>'


def band(y, words, spans):
    yield text(92, y + 15, words, "end", size=11)
    for begin, end, colour, label in spans:
        yield f'<rect x="{x_of(begin):.1f}" y="{y}" width="{(end - begin) * SCALE - 1:.1f}" height="20" fill="{colour}" fill-opacity="0.25"/>'
        yield text(x_of((begin + end) / 2), y + 15, label, size=13)


def far(y, name, points, what, **asked):
    """Where the answers vanish or overflow, and keep their sign."""
    words = []
    for x, (value, sign) in zip(points, ask(points, **asked)):
        assert value in (0, -math.inf) and minus(value) == (sign < 0) == (int(-x) % 2 == 0)
        shown = x if x == round(x, 1) else f"-2^{round(math.log2(-x))}"
        words.append(f"{name}({shown}) = {'-' if minus(value) else '+'}{0 if value == 0 else 'inf'}")
    yield text(x_of((LEFT + RIGHT) / 2), y, ", ".join(words) + ": " + what, size=12)


def picture():
    count = int((RIGHT - LEFT) / STEP)
    points = [LEFT + i * STEP for i in range(count + 1)]
    answers = ask(points)
    for x, (value, sign) in zip(points, answers):
        if x < 0 and x == int(x):
            assert value != value and sign == 1
        else:
            assert minus(value) == (sign < 0) == (struct.pack(">d", x)[0] >= 128 and int(-x) % 2 == 0)
    bottom = MIDDLE + MOST * UNIT + 10
    width = x_of(RIGHT) + 20
    yield f'<svg xmlns="http://www.w3.org/2000/svg" width="{width:.0f}" height="{bottom + 152:.0f}" font-family="sans-serif">'
    yield '<rect width="100%" height="100%" fill="white"/>'
    for n in range(int(LEFT), int(RIGHT) + 1):
        dash = ' stroke-dasharray="4 4"' if n <= 0 else ""
        yield f'<line x1="{x_of(n):.1f}" y1="{MIDDLE - MOST * UNIT:.1f}" x2="{x_of(n):.1f}" y2="{MIDDLE + MOST * UNIT:.1f}" stroke="#ccc"{dash}/>'
        yield text(x_of(n) + 4, MIDDLE + 14, n, "start", "#555", 11)
    yield f'<line x1="{x_of(LEFT):.1f}" y1="{MIDDLE}" x2="{x_of(RIGHT):.1f}" y2="{MIDDLE}" stroke="black"/>'
    yield text(x_of((LEFT + RIGHT) / 2), 24, "tgamma(x): its sign bit is set exactly where lgamma_r reports -1", size=15)
    yield from curve(points, answers)
    middles = [n + 0.5 for n in range(int(LEFT), int(RIGHT))]
    signs = [sign for _, sign in ask(middles)]
    spans = [(m - 0.5, m + 0.5, PLUS if s > 0 else MINUS, "+" if s > 0 else "−") for m, s in zip(middles, signs)]
    yield from band(bottom + 10, "lgamma_r", spans)
    parts = [(m - 0.5, m + 0.5, "#999", f"{int(abs(m))}") for m in middles]
    yield from band(bottom + 38, "whole part", parts)
    yield text(x_of((LEFT + RIGHT) / 2), bottom + 82, "minus: x carries a minus sign, and the whole part of its size is even", size=13)
    yield from far(bottom + 106, "tgamma", [-184.5, -185.5, -186.5], "a zero keeps its sign")
    single = {"kinds": (18, 17), "letter": "f"}
    yield from far(bottom + 128, "tgammaf", [-40.5, -41.5, -(2.0**-130)], "so does what f32 has no room for", **single)
    yield "</svg>"


print("\n".join(picture()))
