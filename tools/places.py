#!/usr/bin/env python3
"""Lists the places of the code that read like older Rattle, one heading a kind, each place as FILE:LINE text.

    python3 tools/places.py [--count] [FOLDER]

FOLDER is the repository (this one if none is given). Whether a place is better as it is, is for a reader to say:
docs/DESIGN-PASS.md has the answer for each. `--count` prints the numbers alone.
"""
import collections
import pathlib
import re
import sys

ARGS = [a for a in sys.argv[1:] if a != "--count"]
ROOT = pathlib.Path(ARGS[0] if ARGS else pathlib.Path(__file__).resolve().parent.parent)
FILES = sorted(ROOT.glob("crates/*/src/**/*.rt"))
TEXTS = {f: f.read_text() for f in FILES}

# What a place looks like: a pattern over the text of a file, a place for each match.
PATTERNS = [
    ("1a errors handed on by hand", r"Err\((\w+)\) => (return )?Err\(\1\)"),
    ("1b nothing handed on by hand", r"None => (return )?None\b|else \{\s*return None;\s*\}|Err\(_\) => None"),
    ("1c an answer taken apart to be made again", r"Ok\((\w+|_)\) => Ok\(|Some\((\w+)\) => (Ok|Some)\(|Ok\(\w+\) => Some\("),
    ("1d a refusal that is no error", r"-> Option<Refusal>"),
    ("1e numbers that say nothing, as the answer of a theorem", r"-> u8\n\s+ensures (\w+ )?\{ [A-Z]"),
    ("1e numbers for variants", r"\b[A-Z]\w+::\w+( \{ \.\. \})? => \d+,|\bclass == \d"),
    ("1f a test and a return where an error is meant", r"if !has_cells\(|let Some\(\w+\) = [^;]*? else \{\s*return Err"),
    ("1g a flag in a struct", r"\n    (pub )?\w+: bool,"),
    ("3a loops over a range", r"for \w+ in [\w(][^{]*\.\.[^{]*\{"),
    ("3b loops without a list", r"\n\s+(while|loop)\b[^\n]*"),
    ("4a tests of a variant by hand", r"_ => (true|false)\b"),
    ("4b ranges tested by hand", r"\b\w+(\[\w+\])? <= \w+(\.\w+)? && \w+ <= |< 1 \|\| \w+ > |b'.' <= b"),
    ("4c conversions, printing and order by hand",
     r"fn (number|index|place|message|call_of|label_of|class_rank|kind_row|write_number|write_short|short_at|byte_at|precedes|sole_letter|is_end|write_bytes|write_line)\("),
    ("6a a slice with a number beside it", r"\w+: &(mut )?\[[\w<>]+\],?\s+(used|at|count|own_count|opp_count|place|first): usize"),
    ("6b an array with a number beside it in a struct", r"\[\w+; \d+\],\n\s+\w+: usize"),
    ("6c parallel fields of the two sides", r"\n    (pub(\(crate\))? )?(bids|offers|best_bid|best_offer): "),
    ("7a functions in a table, or boxed", r"\bdyn\b|: fn\(|Box<"),
    ("7b a kind that says which test to run", r"match (alphabet|wanted) \{"),
]


def head(text, at):
    return text.count("\n", 0, at) + 1


def clean(text):
    return re.sub(r"//[^\n]*", lambda m: " " * len(m.group()), text)


def functions():
    """Each function: file, line, name, parameters, contract."""
    for f, text in TEXTS.items():
        for m in re.finditer(r"\n([ \t]*)(pub(\(crate\))? )?(extern \"C\" )?fn (\w+)", clean(text)):
            at = text.index("(", m.end())
            depth, end = 0, at
            while True:
                depth += text[end] in "([" and 1 or text[end] in ")]" and -1 or 0
                end += 1
                if depth == 0:
                    break
            stop = re.compile(r"\n" + m.group(1) + r"\{|;\n|\n\n").search(text, end)
            contract = text[end:stop.start() if stop else len(text)]
            params = re.findall(r"(\w+): ", text[at:end])
            yield f, head(text, m.start(5)), m.group(5), params, contract


def together():
    """Pairs of parameters of three functions or more."""
    found = collections.defaultdict(list)
    for f, line, name, params, _ in functions():
        for i, a in enumerate(params):
            for b in params[i + 1:]:
                found[a, b].append(f"{f.relative_to(ROOT)}:{line} {name}")
    return {k: v for k, v in found.items() if len(v) >= 3}


def facts():
    """Facts that stand in the contracts of three functions or more, with the names of places left out."""
    found = collections.defaultdict(set)
    for f, line, name, _, contract in functions():
        for clause in re.findall(r"(?:requires|ensures)[^{]*\{(.*)\}", contract):
            for fact in re.split(r" × |\| | ↦ ", clause):
                fact = fact.strip(" ()[]")
                if re.search(r"[≡≤<]|Kept|Wrote|SameBehind", fact) and not re.match(r"^(result|elim|IfOk|IfSome)\b", fact):
                    found[re.sub(r"\s+", " ", fact)].add(f"{f.relative_to(ROOT)}:{line} {name}")
    return {k: v for k, v in found.items() if len(v) >= 3}


def twins():
    """Functions of one crate whose text is the same but for names, types and figures."""
    shapes = collections.defaultdict(list)
    for f, text in TEXTS.items():
        for m in re.finditer(r"\n(    )?(pub(\(crate\))? )?fn (\w+)[\s\S]*?\n(?(1)    )\}\n", clean(text)):
            body = m.group()
            brace = re.search(r"\n\s*\{\n", body)
            if not brace:
                continue
            body = re.sub(r"\b[A-Za-z_]\w*\b|\d+", "x", re.sub(r"\s+", " ", body[brace.start():]))
            if len(body) > 40:
                shapes[f.parts[-3], body].append(f"{f.relative_to(ROOT)}:{head(text, m.start(4))} {m.group(4)}")
    return [v for v in shapes.values() if len(v) > 1]


def show(title, rows):
    print(f"{title}: {len(rows)}")
    if "--count" not in sys.argv:
        for row in rows:
            print("    " + row)


for title, pattern in PATTERNS:
    rows = []
    for f, text in TEXTS.items():
        for m in re.finditer(pattern, clean(text)):
            rows.append(f"{f.relative_to(ROOT)}:{head(text, m.start() + (m.group()[0] == chr(10)))} {' '.join(m.group().split())[:90]}")
    show(title, rows)
groups = twins()
show("2 functions that differ in names alone, groups", [" | ".join(g) for g in groups])
show("2 functions in those groups", [x for g in groups for x in g])
show("5a pairs of parameters of three functions or more", [f"{a}, {b}: {len(v)}" for (a, b), v in sorted(together().items(), key=lambda p: -len(p[1]))])
show("5b facts in the contracts of three functions or more", [f"{len(v)}: {k[:150]}" for k, v in sorted(facts().items(), key=lambda p: -len(p[1]))])
proofs = sorted(ROOT.glob("crates/*/proofs/**/*.antt"))
show("8 files of proofs", [f"{f.relative_to(ROOT)} {len(f.read_text().splitlines())}" for f in proofs])
print("8 lines of proofs:", sum(len(f.read_text().splitlines()) for f in proofs))
