#!/usr/bin/env python3
"""Counts the places of docs/DESIGN-PASS.md in a tree: tools/design/count.py [TREE] [-v]. -v lists each place as crate:line."""
import glob
import os
import re
import sys

tree = next((a for a in sys.argv[1:] if not a.startswith("-")), ".")
verbose = "-v" in sys.argv[1:]


def crate(path):
    return os.path.relpath(path, os.path.join(tree, "crates")).split(os.sep)[0]


SOURCES = {p: open(p).read() for p in sorted(glob.glob(os.path.join(tree, "crates/*/src/*.rt")))}


def lines(pattern, skip=()):
    """Each line of the sources that has the pattern, comments left out."""
    found = []
    for path, text in SOURCES.items():
        if crate(path) in skip:
            continue
        for number, line in enumerate(text.split("\n"), 1):
            if re.search(pattern, line.split("//")[0]):
                found.append(f"{crate(path)}:{number}: {line.strip()}")
    return found


def show(point, what, found):
    print(f"{point:3} {len(found):4}  {what}")
    if verbose:
        for place in found:
            print("          ", place)


def functions():
    for path, text in SOURCES.items():
        for m in re.finditer(r'^(?:pub )?(?:extern "C" )?fn (\w+)', text, re.M):
            end = re.search(r"^\}", text[m.start():], re.M)
            body = text[m.start():m.start() + (end.end() if end else 0)]
            yield crate(path), m.group(1), body


def twins():
    """Functions whose tokens are the same but for names and numbers; entries_c repeats each entry for C."""
    groups = {}
    for name, function, body in functions():
        if name == "entries_c":
            continue
        code = body[body.index("{\n") if "{\n" in body else 0:]
        code = re.sub(r"//.*", "", code)
        code = re.sub(r"^\s*(ensures|requires).*\n", "", code, flags=re.M)
        tokens = re.findall(r"\w+|[^\w\s]", code)
        kept = {"if", "else", "while", "for", "loop", "match", "return", "let", "mut", "true", "false", "in", "break"}
        shape = " ".join(t if t in kept or not re.match(r"\w", t) else "x" for t in tokens)
        if len(tokens) >= 24:
            groups.setdefault(shape, []).append(f"{name}::{function}")
    return [" = ".join(g) for g in groups.values() if len(g) > 1]


def repeated():
    """Facts that stand in the `requires` of three or more functions."""
    facts = {}
    for path, text in SOURCES.items():
        for m in re.finditer(r"^\s*requires (?:\w+ )?\{ (.*) \}", text, re.M):
            facts.setdefault(m.group(1), []).append(crate(path))
    return [f"{len(c)} times: {f}" for f, c in facts.items() if len(c) >= 3]


def requires():
    return lines(r"^\s*requires ")


def answers():
    found = []
    for path in sorted(glob.glob(os.path.join(tree, "crates/*/proofs/*/Answers.antt"))):
        for m in re.finditer(r"^pub ([^ ]+) :", open(path).read(), re.M):
            found.append(f"{crate(path)}: {path.split(os.sep)[-2]} {m.group(1)}")
    return found


def proof_lines():
    """The lines of proofs/, of which comments and empty ones count too."""
    found = []
    for path in sorted(glob.glob(os.path.join(tree, "crates/*/proofs/**/*.antt"), recursive=True)):
        found += [crate(path)] * len(open(path).read().split("\n"))
    return found


NUMBERS = r"^(pub )?fn (\w+_number|entered|put_request|record|set_word_after)\(.*\) -> u8"
CONVERSIONS = r"fn (type|kind|flag|answer)_number"

show("1a", "a flag beside a value (a field `fits`, `allowed` or `more`)", lines(r"^\s+(pub )?(fits|allowed|more): bool,"))
show("1b", "a number beside a value (a field `number: u8`)", lines(r"^\s+(pub )?number: u8,"))
show("1c", "a function that answers the number of a refusal", [p for p in lines(NUMBERS) if not re.search(CONVERSIONS, p)])
show("1d", "a constant that is the number of a refusal", [p for p in lines(r"^pub const [A-Z_]+: u8 = [1-9][0-9]?;") if p.startswith("module_state")][:17])
show("1e", "an own enum of the shape of Option or Result", lines(r"enum (Found|Tested|Line|Answer|Stop)\b"))
show("2", "groups of functions that differ in names and numbers alone", twins())
show("3", "loops that count by hand", lines(r"^\s*(while |loop \{)|= loop \{"))
show("4a", "newtypes compared by their fields", lines(r"\.0 [=!]= \*?\w[\w.]*\.0|\.0 [=!]= \w+\.0"))
show("4b", "arms of a match that answer a bool", lines(r"=> (true|false),"))
show("4c", "a field copied to a name of its own", lines(r"^\s*let (mut )?\w+ = \w+(\.\w+)+;$"))
show("4d", "a field of a literal that repeats its name", lines(r"^\s+(\w+): \1,$"))
show("4e", "a byte widened, or a conversion, by a function of our own", lines(r"rows::wide\w*\(|fn (wide\w*|type_number|type_numbered|type_of|kind_of|kind_number|kind_numbered|phase_byte|phase_from|flag_number)\("))
show("4f", "a chain of tests that answer false", lines(r"^\s+return false;$"))
show("5a", "facts in the contracts of three or more functions", repeated())
show("5b", "clauses `requires` in all", requires())
show("6", "an array with its count beside it", lines(r"^\s+(pub )?(count|kept|length): usize,$"))
show("7", "a switch on which step to run", lines(r"match (step|which_step|kind_of_step)"))
show("8a", "answers", answers())
lines_of_proofs = proof_lines()
print(f"8b  {len(lines_of_proofs):5}  lines of proofs")
