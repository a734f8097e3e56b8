#!/usr/bin/env python3
"""Brings the repository's own names to the spelling of the Rattle that it is proved with: words in snake case, and no crate named as a library of the kit.

usage: python3 tools/rename.py [--dry]      at the top of the repository, once, after port.py

What is renamed: each definition, lemma, field and constructor of crates/*/specs and crates/*/proofs whose name has a dash between words, a hump, or
a middle dot between words (`bits-of-nan`, `hornerS`, `CP·H`), wherever an .antt file, a contract or a must-fail edit names it. What keeps its name:
types and facts, names that begin with one (`Le-flip`), numerals (`0·25`), operators, names of a library, and the names that Rattle makes for goals.
The crates hex and log are hexadecimal and logarithm.
"""
import collections
import glob
import os
import re
import subprocess
import sys

CRATES = {"hex": "hexadecimal", "log": "logarithm"}
# names that would fall together with another, and a fact that began with a small letter
OWN = {
    "finiteEnds": "are_ends_finite",
    "hiOk": "is_hi_ok",
    "highOk": "is_high_ok",
    "loOk": "is_lo_ok",
    "lowOk": "is_low_ok",
    "is-nan": "nan_is",
    "stopsOr": "StopsOr",
    "below_one": "below_one_holds",
    "answer-length": "length_answer",
    "head-of": "head_of_is",
    "line-of": "line_of_is",
    "sign-of": "sign_of_is",
    "turn-of": "turn_of_is",
    "turnf-of": "turnf_of_is",
}
SEPARATORS = r"\s(){}\[\].,;\"⦃⦄"
TOKEN = re.compile("[^" + SEPARATORS + "]+")
HEAD = re.compile(r"^((?:(?:abbrev|unfoldable|pub|data|record|ruleset)\s+)*)([^\s:(){}.,;]+)(?=\s|$)")
NOT_NAMES = {"use", "unfolding", "mod", "pub", "where", "let", "in", "open", "→", ":", "--", "|", "mutual", "abbrev", "data", "record", "unfoldable", "ruleset"}
GOAL = re.compile(r": goal\.|\b(?:tie|[\w-]*-?lts|lts)\.Need-|Measures |In 1 |kinds\.ps")
FRONT = re.compile(r"^(?:use|ghost use|pub use)\s+([^\s;{]+?)(?:\.\{([^}]*)\})?\s*(?:as\s+(\S+?))?;?\s*$", re.S)


def spelled(name):
    """The name in today's spelling."""
    if name in OWN:
        return OWN[name]
    if not re.match(r"[a-zA-Zμ⊞]", name) or "→" in name or name.endswith("-") or re.match(r"(?:invariant|decreases)-", name):
        return name
    if re.match(r"[A-Z]", name):
        name = re.sub(r"·(?=[A-Za-z])", "_", name)
        if "-" not in name:
            return name
        head, tail = name.split("-", 1)
        return head + "-" + spelled(tail)
    if name.startswith("μ"):
        return name
    parts = re.split(r"(?<!\^)-", name)
    done = [p if re.match(r"[A-Z]", p) else p[:1] + re.sub(r"[A-Z]", lambda m: "_" + m[0].lower(), p[1:]) for p in parts]
    out = done[0]
    for before, after in zip(done, done[1:]):
        # a dash joins a type or a fact to a name
        out += ("-" if re.match(r"[A-Z]", before) or re.match(r"[A-Z]", after) else "_") + after
    return re.sub(r"(?<=[a-z])·(?=[a-z])", "_", out)


def antt_files():
    return sorted(f for f in glob.glob("crates/*/*/**/*.antt", recursive=True) if "/out/" not in f)


def declared(text, made):
    """The names that a file declares: top ones, fields and constructors. `made` says whether it is a proof by hand, whose goals Rattle named."""
    names = set()
    goals = set()
    lines = text.split("\n")
    levels = [0]  # how far declarations are indented here, and in the modules around
    inside = False
    for i, line in enumerate(lines):
        if not line.strip() or line.lstrip().startswith("--"):
            continue
        indent = len(line) - len(line.lstrip())
        while indent < levels[-1]:
            levels.pop()
        if indent == levels[-1]:
            line = line[indent:]
            inside = bool(re.match(r"(?:pub\s+)?(?:data|record)\s", line))
            if line.startswith("module "):
                levels.append(indent + 2)
            m = HEAD.match(line)
            if not m or m[2] in NOT_NAMES or m[2] == "module":
                continue
            signature = line
            j = i + 1
            while j < len(lines) and lines[j].startswith(" " * (indent + 1)):
                signature += " " + lines[j].strip()
                j += 1
            if made and (GOAL.search(signature) or m[2].endswith("-spec") or m[2].endswith("_spec")):
                goals.add(m[2])
            names.add(m[2])
        elif inside:
            m = re.match(r"\s+(?:pub\s+)?((?:[^\s:(){}.,;]+\s+)+):\s", line)
            if m:
                names.update(m[1].split())
    return names - goals - {"pub", "constructor"}


def imports(text):
    """From a file's use lines: each name or alias, with the module that it is of."""
    found = {}
    for m in re.finditer(r"(?m)^(?:ghost\s+|pub\s+)*use\s+([^\s;{]+?)(?:\.\{([^}]*)\})?(?:\s+as\s+([^\s;]+))?;?\s*$", text):
        if m[2] is None:
            found[(m[3] or m[1].rsplit(".", 1)[-1])] = m[1]
        else:
            for item in m[2].split(","):
                item = item.strip()
                if item:
                    found[item.split(" as ")[-1].strip()] = m[1]
    return found


def own_module(module, crates):
    parts = module.split(".")
    return parts[0] == "Rattle" and len(parts) > 1 and parts[1] in crates


def main():
    dry = "--dry" in sys.argv[1:]
    crates = set(os.listdir("crates")) | set(CRATES.values())
    texts = {f: open(f, encoding="utf-8").read() for f in antt_files()}
    own = collections.defaultdict(set)
    for f, t in texts.items():
        for n in declared(t, f.endswith(("/Proof.antt", "/Answers.antt", "/Invariants.antt"))):
            own[n].add(f)
    table = {n: spelled(n) for n in own if spelled(n) != n}
    # names that fall together, in one file or with an import of a library
    bad = 0
    for f, t in texts.items():
        here = declared(t, f.endswith(("/Proof.antt", "/Answers.antt", "/Invariants.antt")))
        after = collections.defaultdict(set)
        brought = imports(t)
        for n in here | set(brought):
            after[n if n in brought and not own_module(brought[n], crates) else table.get(n, n)].add(n)
        for n, who in after.items():
            if len(who) > 1:
                print("together:", f, n, who)
                bad += 1
        for n, module in brought.items():
            if not own_module(module, crates) and n in table and n in here:
                print("library's and own:", f, n, module)
                bad += 1
    print(len(table), "names", bad, "to look at")
    if "--show" in sys.argv[1:]:
        for n in sorted(table):
            print(n, table[n])
    if dry:
        return
    rename(texts, table, crates)


def turned(text, table, keep=()):
    return TOKEN.sub(lambda m: table.get(m[0], m[0]) if m[0] not in keep else m[0], text)


def paths(text):
    for old, new in CRATES.items():
        text = re.sub(rf"\bRattle\.{old}\.", f"Rattle.{new}.", text)
    return text


def code(text):
    for old, new in CRATES.items():
        text = re.sub(rf"(?<![\w:]){old}::", f"{new}::", text)
    return text


def rename(texts, table, crates):
    for f, t in texts.items():
        keep = {n for n, m in imports(t).items() if not own_module(m, crates)}
        new = "\n".join(l if l.lstrip().startswith("use ") and not re.match(r"\s*use Rattle\.(%s)\." % "|".join(sorted(crates)), l) else turned(l, table, keep) for l in t.split("\n"))
        write(f, t, paths(new))
    for f in sorted(glob.glob("crates/*/src/**/*.rt", recursive=True)):
        t = open(f, encoding="utf-8").read()
        write(f, t, code(paths(turned(t, table))))
    for f in sorted(glob.glob("crates/*/must-fail/*.edit")):
        t = open(f, encoding="utf-8").read()
        write(f, t, code(paths(turned(t, table))))
    t = open("crates.txt", encoding="utf-8").read()
    write("crates.txt", t, "\n".join(line if line.startswith("#") else re.sub(r"[a-z0-9_]+", lambda m: CRATES.get(m[0], m[0]), line) for line in t.split("\n")))
    for old, new in CRATES.items():
        if os.path.isdir(f"crates/{old}"):
            subprocess.run(["git", "mv", f"crates/{old}", f"crates/{new}"], check=True)


def write(f, old, new):
    if new != old:
        with open(f, "w", encoding="utf-8") as it:
            it.write(new)


main()
