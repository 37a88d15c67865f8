#!/usr/bin/env python3
"""Brings this repository's own definitions and lemmas to the spelling of today's Rattle: words in snake case.

usage: python3 tools/respell.py [--list] [KIT]      once, at the top of the repository, after port.py

A name that is declared in specs/ or proofs/ and begins small loses its capitals: ofWindow -> of_window. A dash that joins two names stays.
The names of the goals of a function's proof, the names that the kit (the folder KIT, else /opt/rattle) has too, and
those that would fall together with another name stay. With --list the names are printed and nothing is written.
"""

import os
import re
import sys

args = [a for a in sys.argv[1:] if a != "--list"]
ONLY_LIST = "--list" in sys.argv
KIT = args[0] if args else "/opt/rattle"

# A token of antt: what stands between blanks, brackets and dots.
TOKEN = re.compile(r"[^\s(){}.;,@\"«»\[\]\\`]+")
DECLARED = re.compile(r"^\s*(?:(?:pub|abbrev|unfoldable|data|record|mutual)\s+)*([^\s(){}.;,@\"«»\[\]\\`:]+)((?:\s+[^\s(){}.;,@\"«»\[\]\\`:]+)*)\s*(?:[({][^:]*:[^)}]*[)}]\s*)*:\s")


def files(top, ends):
    for folder, dirs, names in os.walk(top):
        dirs[:] = sorted(d for d in dirs if d not in ("out", ".git", "target"))
        for name in sorted(names):
            if name.endswith(ends):
                yield os.path.join(folder, name)


def read(path):
    with open(path, encoding="utf-8") as it:
        return it.read()


def snake(name):
    it = re.sub(r"(?<=[a-z0-9₀-₉])([A-Z])", lambda m: "_" + m.group(1).lower(), name)
    it = re.sub(r"(?<=[A-Z])([A-Z])(?=[a-z])", lambda m: "_" + m.group(1).lower(), it)
    # a dash between two words; one beside an operator stays
    return it


antt = {p: read(p) for p in files("crates", ".antt")}
rt = {p: read(p) for p in files("crates", ".rt")}
kit = set()
for p in files(os.path.join(KIT, "rattle"), (".antt", ".rt")):
    try:
        kit.update(TOKEN.findall(read(p)))
    except (OSError, UnicodeDecodeError):
        pass
# what a name could fall together with: a bare name of antt (behind a dot it is a field or a part of a path), a parameter or a field of Rattle
everywhere = set()
for t in antt.values():
    everywhere.update(m.group(0) for m in TOKEN.finditer(t) if t[m.start() - 1 : m.start()] != ".")
for t in rt.values():
    everywhere.update(re.findall(r"\b(\w+)\s*:(?!:)", t))

goals = set()
declared = set()
for path, text in antt.items():
    for line in text.split("\n"):
        m = DECLARED.match(line)
        if not m:
            continue
        names = [m.group(1)] + m.group(2).split()
        if re.search(r":\s*(tie|goal)\.", line):
            goals.update(names)
            continue
        declared.update(names)
# These would fall together with a lemma.
OTHERS = {"cellAs": "cell_read_as", "eventAt": "event_found_at", "noProgram": "no_program_there", "ownPair": "own_pair_of", "rowsIn": "rows_within"}
turned = {}
stay = []
for name in sorted(declared):
    if not re.match(r"[a-zµ]", name):
        continue
    new = OTHERS.get(name) or snake(name)
    if new == name:
        continue
    # what Rattle names after a function: its proof, what its calls require
    if name in goals or name in kit:
        stay.append(name)
        continue
    if new in everywhere or new in turned.values():
        stay.append(name)
        continue
    turned[name] = new

if ONLY_LIST:
    for name, new in turned.items():
        print(name, new)
    print("stay:", " ".join(stay))
    raise SystemExit(0)


def turn(text):
    return TOKEN.sub(lambda m: turned.get(m.group(0), m.group(0)), text)


def turn_antt(text):
    out = []
    for line in text.split("\n"):
        m = re.match(r"^((?:[^-\"]|-(?!-)|\"[^\"]*\")*?)(--\s.*)?$", line)
        code, note = (m.group(1), m.group(2) or "") if m else (line, "")
        note = re.sub(r"`([^`]*)`", lambda q: "`" + turn(q.group(1)) + "`", note)
        out.append(turn(code) + note)
    return "\n".join(out)


CLAUSE = re.compile(r"(?m)^(\s*)(?:requires|ensures|ghost)\b[^\n{]*\{|^\s*ghost use ")


def turn_rt(text):
    out, at = [], 0
    for m in CLAUSE.finditer(text):
        if m.start() < at:
            continue
        out.append(text[at : m.start()])
        if text[m.start() : m.end()].lstrip().startswith("ghost use"):
            end = text.index(";", m.end()) + 1
        else:
            depth, end = 1, m.end()
            while depth:
                depth += {"{": 1, "}": -1}.get(text[end], 0)
                end += 1
        out.append(turn(text[m.start() : end]))
        at = end
    return "".join(out) + text[at:]


def write(path, old, new):
    if old != new:
        with open(path, "w", encoding="utf-8") as it:
            it.write(new)


for path, text in antt.items():
    write(path, text, turn_antt(text))
for path, text in rt.items():
    write(path, text, turn_rt(text))
for path in files("crates", ".edit"):
    text = read(path)
    of_antt = re.search(r"(?m)^file: .*\.antt$", text)
    lines = []
    for line in text.split("\n"):
        if re.match(r"(old|new): ", line) and of_antt:
            line = line[:5] + turn(line[5:])
        lines.append(line)
    write(path, text, "\n".join(lines))
# the pages name definitions and theorems between backticks
for path in ["README.md", *files("docs", ".md"), "tests/README.md"]:
    text = read(path)
    write(path, text, re.sub(r"`([^`\n]*)`", lambda q: "`" + turn(q.group(1)) + "`", text))
print(len(turned), "names turned;", len(stay), "stay")
# Rattle makes a module specs.contracts, so that machine's file takes another name; and each root file asks for the tactics.
OLD, NEW = "crates/machine/specs/Contracts.antt", "crates/machine/specs/Terms.antt"
if os.path.exists(OLD):
    os.rename(OLD, NEW)
    for path in [*files("crates", (".antt", ".rt", ".edit")), "README.md", *files("docs", ".md")]:
        text = read(path)
        new = text.replace("Rattle.machine.specs.Contracts", "Rattle.machine.specs.Terms").replace(OLD, NEW)
        if path.startswith("crates/machine/specs/"):
            new = new.replace("mod Contracts", "mod Terms").replace("specs/Contracts.antt", "specs/Terms.antt")
        write(path, text, new)
for path in files("crates", ("src/lib.rt", "src/main.rt")):
    text = read(path)
    if "#![tactic(auto)]" not in text:
        head = re.match(r"(//[^\n]*\n)*", text).end()
        write(path, text, text[:head] + "#![tactic(auto)]\n" + text[head:])
