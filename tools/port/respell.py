#!/usr/bin/env python3
"""Brings the repository's own words to the spelling of today's Rattle, after port.py: run once, at the top.

Definitions and lemmas that were written in lower camel case get snake case, in the sources, the edits and the pages. A lemma that would
then have its definition's name keeps the dash that it had. Two facts that had a word's spelling get a type's. Functions of src/, exported
names, strings, inputs and outputs have no lower camel case, and keep their names.
"""
import os
import re
import sys

CAMEL = re.compile(r"(?<![A-Za-z0-9_'/.:])[a-z][a-z0-9_]*[A-Z][A-Za-z0-9_']*|(?<=[.:/])(?<!//)[a-z][a-z0-9]*[A-Z][A-Za-z0-9_']*")
# port.py took their dash, and a definition has that name now
DASHED = ["count_at", "held_bytes", "name_in", "no_words", "one_more", "one_value", "owned_at", "owner_at", "part_bytes", "row_number",
          "same_bytes", "store_bytes", "store_in"]
# facts of one file each, spelled as words
FACTS = {"crates/message_fields_write/proofs/Rules.antt": {"answer": "IsAnswer", "content": "IsContent"}}
PART = r"(?<![\w'→-])%s(?![\w'→-])"


def snake(word):
    # a camel-case type inside a name, as in `all_Known`, keeps its capital
    return re.sub(r"(?<=[a-z0-9])([A-Z])", lambda m: "_" + m.group(1).lower(), word)


def texts(folder, endings):
    for at, folders, files in os.walk(folder):
        folders[:] = sorted(f for f in folders if f not in ("out", "target", "build", ".git"))
        for f in sorted(files):
            if f.endswith(endings):
                yield os.path.join(at, f)


def write(path, old, new):
    if old != new:
        with open(path, "w", encoding="utf-8") as f:
            f.write(new)


# std's set of laws was `needs`, and is `rules` now, as each crate's own is
STD_RULES = re.compile(r"(use (?:Rattle\.std\.proofs\.Common|borrow\.Author\.Rules)\.\{(?:[^}]*[ ,{])?)rules([,}])")


def apart(text):
    turned = STD_RULES.sub(r"\1rules as std_rules\2", text)
    return text if turned == text else turned.replace("ruleset rules = (rules", "ruleset rules = (std_rules")


def own_words():
    """The words in lower camel case that a definition, a lemma, a field or a parameter of specs/ or proofs/ has."""
    words = set()
    for path in texts("crates", (".antt",)):
        with open(path, encoding="utf-8") as f:
            words |= set(CAMEL.findall(f.read()))
    return words


def main():
    if not os.path.isdir("crates"):
        sys.exit("run it at the top of the repository")
    for path in texts("crates", (".antt",)):
        text = old = open(path, encoding="utf-8").read()
        for word in DASHED:
            text = re.sub(PART % word, word.replace("_", "-"), text)
        text = apart(text)
        for word, fact in FACTS.get(path, {}).items():
            text = re.sub(PART % word, fact, text)
        write(path, old, text)
    words = own_words()
    new = {w: snake(w) for w in words}
    for path in list(texts("crates", (".antt", ".rt", ".edit"))) + list(texts("docs", (".md",))) + ["README.md"]:
        text = old = open(path, encoding="utf-8").read()
        text = CAMEL.sub(lambda m: new.get(m.group(0), m.group(0)), text)
        write(path, old, text)
    print(f"{len(words)} words respelled")


main()
