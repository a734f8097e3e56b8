#!/usr/bin/env python3
"""Turns a crate's proofs that walk the code by hand into answers to its goals.

usage: python3 tools/answers.py NAME..      at the top of the repository, each crate once, those below it proved

For each proofs/F/Proof.antt over the generated module Tie it writes proofs/F/Answers.antt: each goal under today's name and each fact by today's path,
both from the list that `rt check --generated DIR --old-names` writes. Goals that only search are left out, since the check tries that by itself.
It goes by text: rt check decides. Loops (Inv-, μ-) become Invariants.antt, to be finished by hand.
"""
import json
import os
import re
import subprocess
import sys
import tempfile


def norm(s):
    return s.replace("_", "-").replace("·", "-")


def blocks(text):
    """The file's parts: each a comment, a use line or a declaration with its clauses, as a list of lines."""
    out, now = [], []
    for line in text.split("\n"):
        if line and not line.startswith((" ", ")")):
            if now:
                out.append(now)
            now = [line]
        elif not line.strip():
            now.append(line)
        else:
            now.append(line)
    if now:
        out.append(now)
    return out


def names_of(crate):
    folder = tempfile.mkdtemp()
    subprocess.run(["rt", "check", "--generated", folder, "--old-names"], cwd=f"crates/{crate}", stdout=subprocess.PIPE, stderr=subprocess.STDOUT)
    with open(os.path.join(folder, "names.json"), encoding="utf-8") as f:
        return json.load(f)


def answers(path, crate, inner, of):
    text = open(path, encoding="utf-8").read()
    goals = {}
    for old, new in of["needs"]:
        goals.setdefault(norm(old), new)
    later = {}
    for old, new in of["needs"]:
        later.setdefault(norm(new), new)
    settled = {norm(s) for s in of["settled"]}
    steps, places = {}, {}
    for (old, parent, step, callee, _), new in zip(of["places"], of["places_by_name"]):
        places[norm(old)] = new
        if step and step[0]:
            steps[norm(step[0])] = step[1]

    def goal(key):
        k = norm(key)
        short = re.sub(r"^overflow-", "", k)
        for each in (k, short):
            if each in goals:
                return goals[each]
        return later.get(k) or later.get(short)

    loops = {norm(old): new for (old, new), _ in of["loops"]}
    ours = re.compile(r"\s+\(?(?:invariant|decreases)-loop(?:-\d+)?\)?(?=[\s)→,]|$)")
    types = re.compile(r"((?:tie|goal)\.[^\s)→,]+)((?:(?: +|\n +)(?:invariant|decreases)-loop(?:-\d+)?)+)")

    def path_of(m):
        parts = [p for p in m[0].split(".")]
        head, rest = parts[0], [p for p in parts[1:] if p != "before"]
        out = [head]
        for i, p in enumerate(rest):
            if i == 0 and norm(p) in steps:
                p = steps[norm(p)]
            p = {"well-formed": "well_formed", "inv": "invariant", "type-inv": "type_inv"}.get(p, p)
            out.append(p)
        return ".".join(out)

    kept, left, invariants = [], [], []
    head = []
    text = types.sub(lambda m: m[1], re.sub(r"(?<=: )\(\n\s*tie|(?<=:)\n\s+tie", lambda m: m[0].replace("\n", " ").replace("    ", ""), text))
    parts = re.split(r"\n(?=\S)", text)
    goals_here = {}
    for part in parts:
        m = re.match(r"([^\s:]+)\s*:\s*tie\.Need-(\S+)", part)
        if m:
            new = goal(m[2].rstrip(")"))
            goals_here[m[1]] = new
            if new is None:
                left.append(m[2])
    before = next((i for i, part in enumerate(parts) if not part.startswith("--")), 0)
    spec = re.compile(r"pub \S+[-_]spec\b|\S+[-_]spec\s")
    for part in parts:
        first = part.split("\n", 1)[0]
        if first.startswith("use "):
            if re.search(r"\.Statement\.\{statement\}|\.Tie as tie", first):
                continue
            head.append(part.rstrip("\n"))
            continue
        if spec.match(part):
            continue
        m = re.match(r"(?:abbrev )?((?:invariant|decreases)-(loop(?:-\d+)?))(?=\s)", part)
        if m:
            new = m[1].split("-")[0] + "-" + loops.get(norm(m[2]), m[2])
            if part.startswith("abbrev"):
                invariants.append(f"abbrev pub {new} : goal.{new}")
            else:
                front, body = part.split("=", 1)
                for q in front.split()[1:]:
                    now = "l.initial." + q[:-1] if q.endswith("₀") else "l." + q
                    body = re.sub(rf"(?<![\w.'₀·-]){re.escape(q)}(?![\w'₀·-])", now, body)
                invariants.append(f"{new} l ={body.rstrip()}")
            continue
        name = re.match(r"(?:abbrev |pub |unfoldable )*([^\s:]+)", part)
        name = name[1] if name else ""
        kept.append((name, part.rstrip("\n")))
    # what only searches goes
    bodies = {}
    for name, part in kept:
        if name in goals_here and not re.match(r"[^\s:]+\s*:", part) and not part.startswith("unfolding"):
            body = part.split("=", 1)[1].strip() if "=" in part else ""
            bodies[name] = body
    gone = {n for n, b in bodies.items() if b in ("search rules", "search needs") or goals_here[n] is None and norm(n) in settled}
    out = []
    comment = []
    drop_unfolding = False
    intro = []
    while kept and kept[0][1].startswith("--") and len(intro) < before:
        intro.append(kept.pop(0)[1])
    for name, part in kept:
        if part.startswith("--"):
            comment.append(part)
            continue
        if part.startswith("unfolding"):
            if not drop_unfolding:
                out.append(part)
            continue
        if name in gone:
            drop_unfolding = True
            comment = []
            continue
        drop_unfolding = False
        signature = bool(re.match(r"(?:abbrev |pub |unfoldable )*[^\s:=]+(?: \{[^}]*\})?\s*:", part))
        if name in goals_here and goals_here[name]:
            new = goals_here[name]
            if signature:
                part = f"pub {new} : goal.{new}"
            else:
                part = re.sub(r"^\S+ c(?: κs)?", f"{new} c", part)
        part = re.sub(r"tie\.Need-(\S+)", lambda m: "goal." + (goal(m[1]) or m[1]), part)
        part = re.sub(r"tie\.([A-Za-z][^\s)→,]*)", lambda m: "goal." + places.get(norm(m[1]), m[1]), part)
        part = re.sub(r"(?<![\w.'-])[a-z]\w*(?:\.[^\s(){}\[\].,;]+)+", path_of, part)
        if signature and out and (comment or out[-1] != ""):
            out.append("")
        out += comment
        comment = []
        out.append(part)
    body = "\n".join(out).strip("\n")
    given = None
    if invariants:
        text = ""
        for it in invariants:
            text += ("\n" if it.startswith("abbrev") else "") + it + "\n"
        given = "\n".join(intro + head) + f"\nuse Rattle.{crate}.proofs.{inner}.Given as goal\n" + text
    if not [1 for n, g in goals_here.items() if n not in gone]:
        return None, left, given
    lines = intro + head + [f"use Rattle.{crate}.proofs.{inner}.Goals as goal", "", body.strip("\n"), ""]
    return "\n".join(lines).lstrip("\n"), left, given


def main(argv):
    for crate in argv:
        names = names_of(crate)
        for module, of in names.items():
            if not module.endswith(".Lts"):
                continue
            inner = module.split(".", 1)[1][: -len(".Lts")]
            folder = os.path.join("crates", crate, "proofs", *inner.split("."))
            path = os.path.join(folder, "Proof.antt")
            if not os.path.exists(path):
                continue
            text, left, given = answers(path, crate, inner, of)
            if given:
                with open(os.path.join(folder, "Invariants.antt"), "w", encoding="utf-8") as f:
                    f.write(given)
            if left:
                print(path, "left:", " ".join(left))
            if text is None:
                subprocess.run(["git", "rm", "-q", "-f", path])
                continue
            with open(os.path.join(folder, "Answers.antt"), "w", encoding="utf-8") as f:
                f.write(text)
            subprocess.run(["git", "rm", "-q", "-f", path])


main(sys.argv[1:])
