#!/usr/bin/env python3
"""Names that the port changed, brought to the pages: renamed.py COMMIT, at the top, where COMMIT has the sources in the older spelling.

A definition or a lemma of a file has today the name that is the same but for its spelling: dashes, humps, primes, an operator's places. The pages cite names
between backquotes; a row of docs/STATEMENTS.md says in which file, and elsewhere a name is changed where every file that declared it changed it so.
Prints what it changed, and the names that no file has any more.
"""
import collections
import glob
import re
import subprocess
import sys

SIGNATURE = re.compile(r"\s*(?:(?:pub|abbrev|unfoldable|instance)\s+)*((?:[^\s(){}:=,;]+\s+)+):\s")
BLOCK = re.compile(r"\s*(?:pub\s+)?(?:record|data)\s+([^\s:({]+)")
PAGES = [*sorted(glob.glob("docs/*.md")), "README.md"]


def names_of(text):
    found = []
    for line in text.split("\n"):
        if line.lstrip().startswith(("--", "use ", "mod ", "infix", "ruleset")):
            continue
        block, signature = BLOCK.match(line), SIGNATURE.match(line)
        found += [block[1]] if block else signature[1].split() if signature else []
    return found


def plain(name):
    """The name without what its spelling adds."""
    name = re.sub(r"(?<=[a-z0-9'])([A-Z])", lambda m: "_" + m[1].lower(), name.replace("′", "'"))
    return re.sub(r"^_(.+)_$", r"◌\1◌", name).replace("-", "_").lower()


def git(*words):
    return subprocess.run(["git", *words], check=True, capture_output=True, text=True).stdout


def changes(commit):
    """By file, CRATE/STEM of specs/ and of proofs/: the old names and what stands for each."""
    found, gone = collections.defaultdict(dict), []
    for path in git("ls-tree", "-r", "--name-only", commit, "crates").split("\n"):
        of = re.fullmatch(r"crates/(\w+)/(specs|proofs)/(\w+)\.antt", path)
        if not of:
            continue
        try:
            with open(path, encoding="utf-8") as it:
                today = names_of(it.read())
        except OSError:
            today = []
        new = {plain(name): name for name in reversed(today)}
        for name in names_of(git("show", f"{commit}:{path}")):
            if name in today:
                found[of[2], f"{of[1]}/{of[3]}"][name] = name
            elif plain(name) in new:
                found[of[2], f"{of[1]}/{of[3]}"][name] = new[plain(name)]
            else:
                gone.append((path, name))
    return found, gone


def row(line, found):
    """A row of sentences: its second cell cites files of specs/, its fourth files of proofs/."""
    cells = re.split(r"(?<!\\)\|", line)
    for at, folder in ((2, "specs"), (4, "proofs")):
        groups = cells[at].split(";")
        for number, group in enumerate(groups):
            place = re.match(r"\s*(\w+/\w+):", group)
            of = found.get((folder, place[1]), {}) if place else {}
            groups[number] = re.sub(r"`([^`]+)`", lambda m: f"`{of.get(m[1], m[1])}`", group)
        cells[at] = ";".join(groups)
    return "|".join(cells)


def main(commit):
    found, gone = changes(commit)
    everywhere = collections.defaultdict(set)
    for of in found.values():
        for old, new in of.items():
            everywhere[old].add(new)
    sure = {old: min(new) for old, new in everywhere.items() if len(new) == 1 and new != {old}}
    word = re.compile(r"(?<![\w'′→-])[\w◌▸'′→⇒↔-]+(?![\w'′→-])")
    for page in PAGES:
        with open(page, encoding="utf-8") as it:
            lines = it.read().split("\n")
        is_map, told = page == "docs/STATEMENTS.md", set()
        for at, line in enumerate(lines):
            new = row(line, found) if is_map and line.count("|") == 6 else line
            spans = re.compile(r"`[^`]+`")
            new = spans.sub(lambda m: word.sub(lambda w: sure.get(w[0], w[0]), m[0]), new)
            told |= set(spans.findall(line)) - set(spans.findall(new))
            lines[at] = new
        with open(page, "w", encoding="utf-8") as it:
            it.write("\n".join(lines))
        print(page, *sorted(told))
    print("gone:", *(f"{path}:{name}" for path, name in gone))


main(sys.argv[1])
