#!/usr/bin/env python3
"""Brings the names that this repository defines to the spelling of today's Rattle.

usage: python3 tools/respell.py          (once, right after port.py, at the top of the repository)
       python3 tools/respell.py --list   (prints what it would rename, and renames nothing)

A word, a lemma, a field or a local name is in snake case; a type, a fact and a constructor in camel case.
A lemma on a fact keeps its dash, as All-weaker; a name that Rattle itself makes or that its library has is
left alone. Strings, comments, files' names and the functions of src/ keep their names.
"""
import collections
import os
import re
import sys

TOKEN = re.compile(r"[\w'◌⌜⌝]+(?:-[\w'◌]+)+|[\w'◌]+")
SIGNED = re.compile(r"^\s*((?:abbrev|unfoldable|pub|private|opaque|record|data|module)\s+)*([\w']+(?:-[\w']+)+)(\s+[({][^:]*:.*|\s*:\s*(.*)|\s*=\s.*)$")
BOUND = re.compile(r"\blet\s+([\w']+(?:-[\w']+)+)\s*[:=]")
KIT = "/opt/rattle/rattle"
MADE = re.compile(r"^(invariant|decreases|measure)-")


def files(top, ends):
    for folder, dirs, names in os.walk(top):
        dirs[:] = sorted(d for d in dirs if d not in ("out", ".git"))
        for name in sorted(names):
            if name.endswith(ends):
                yield os.path.join(folder, name)


def code_of(line, mark):
    """The part of a line that is code: what stands before a comment, strings apart."""
    out, i, text = [], 0, False
    while i < len(line):
        if text:
            if line[i] == "\\":
                i += 2
                continue
            text = line[i] != '"'
        elif line[i] == '"':
            text = True
        elif line.startswith(mark, i):
            return i
        i += 1
    return len(line)


def own_names():
    """Each hyphened name that a file of specs/ or proofs/ defines, with whether it is a type."""
    found = {}
    for path in files("crates", (".antt",)):
        answers = os.path.basename(path) in ("Answers.antt", "Invariants.antt")
        for line in open(path, encoding="utf-8"):
            line = line.rstrip("\n")
            line = line[: code_of(line, "--")]
            for m in BOUND.finditer(line):
                found.setdefault(m.group(1), False)
            m = SIGNED.match(line)
            if not m:
                continue
            words, name, rest = m.group(1) or "", m.group(2), m.group(3)
            if answers and re.match(r"\s*:\s*goal\.", rest):
                continue
            if MADE.match(name) or (answers and rest.lstrip().startswith("=")):
                continue
            if rest.lstrip().startswith("=") and not words:
                continue
            is_type = "record" in words or "data" in words or bool(re.search(r"Type\s+\d\s*(where\b.*)?$", rest))
            found[name] = found.get(name, False) or is_type
    return found


def constructors():
    found = set()
    for path in files("crates", (".antt",)):
        inside = False
        for line in open(path, encoding="utf-8"):
            if re.match(r"^\s*(pub\s+)?data\s", line):
                inside = True
                continue
            if inside:
                m = re.match(r"^\s+(?:pub\s+)?([A-Z][\w']*(?:-[\w']+)+)\s*:", line)
                if m:
                    found.add(m.group(1))
                elif line.strip() and not line[0].isspace():
                    inside = False
    return found


def camel(name):
    return "".join(part[:1].upper() + part[1:] for part in name.split("-"))


def table():
    kit = set()
    for path in files(KIT, (".antt",)):
        kit.update(re.findall(r"[\w'◌]+(?:-[\w'◌]+)+", open(path, encoding="utf-8").read()))
    made = constructors()
    out, kept = {}, {}
    for name, is_type in own_names().items():
        if name[0].isupper():
            if is_type or name in made:
                out[name] = camel(name)
            else:
                kept[name] = "a lemma on a fact"
        else:
            out[name] = name.replace("-", "_")
    return out, kept, kit


def every_token():
    seen = collections.Counter()
    for path in files("crates", (".antt", ".rt")):
        seen.update(TOKEN.findall(open(path, encoding="utf-8").read()))
    return seen


def turn_line(line, mark, names):
    cut = code_of(line, mark)
    code, rest = line[:cut], line[cut:]
    parts = re.split(r'("(?:[^"\\]|\\.)*")', code)
    for i in range(0, len(parts), 2):
        parts[i] = TOKEN.sub(lambda m: names.get(m.group(), m.group()), parts[i])
    return "".join(parts) + rest


def main():
    names, kept, kit = table()
    seen = every_token()
    if "--list" in sys.argv:
        for old, new in sorted(names.items()):
            flags = []
            if new in seen:
                flags.append(f"ALSO {seen[new]}")
            if old in kit:
                flags.append("KIT")
            print(old, new, *flags)
        for old in sorted(kept):
            print("kept", old)
        return
    for path in files("crates", (".antt", ".rt", ".edit")):
        old = open(path, encoding="utf-8").read()
        mark = "--" if path.endswith(".antt") else "//"
        new = "\n".join(turn_line(line, mark, names) for line in old.split("\n"))
        if new != old:
            with open(path, "w", encoding="utf-8") as f:
                f.write(new)


main()
