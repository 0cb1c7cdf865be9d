#!/usr/bin/env python3
"""Brings the repository's own definitions and lemmas to the spelling of today's Rattle.

Run once, at the top of the repository, after the toolchain's own port script: that one respells only the names that a
library had spelled alike. Words are in snake case; a fact, which is a type, is in upper camel case. Names that Rattle
makes (goals, steps) and names of std keep their dashes: only names that are defined in specs/, in the lemma files of
proofs/ or in the answers of one function are turned. Names of src/ stay as they are.
"""
import os
import re
import subprocess
import sys

WORD = re.compile(r"[A-Za-z_][A-Za-z0-9_'◌-]*|◌[A-Za-z0-9_'◌-]+")

# Names that would fall together with a field or a function's name of src/ in snake case, and what they are called.
APART = {
    "first-day": "first_day_of",
    "last-day": "last_day_of",
}

# Facts that begin in lower case keep their case: a definition's result says whether it is a fact, not its spelling.


def respelled(name):
    if name in APART:
        return APART[name]
    if name[0].isupper():
        parts = re.split(r"-", name)
        return "".join(part[0].upper() + part[1:] for part in parts)
    return name.replace("-", "_")


def files(ending):
    listed = subprocess.run(["git", "ls-files", "-co", "--exclude-standard", "crates"], capture_output=True, text=True, check=True)
    return [name for name in listed.stdout.split("\n") if name.endswith(ending) and os.path.exists(name)]


def answers_of_a_function(name):
    return os.path.basename(name) in ("Answers.antt", "Invariants.antt", "Proof.antt")


DEFINED = re.compile(r"^(\s*)(?:abbrev |unfoldable |pub |data |record )*([A-Za-z_◌][A-Za-z0-9_'◌-]*)\s*(?:\([^:]*\)\s*)?:\s*(.*)$")
RECORD = re.compile(r"^\s*(?:pub )?(?:record|data) ([A-Za-z][A-Za-z0-9_'-]*)")


def own_names():
    names = set()
    for name in files(".antt"):
        for line in open(name, encoding="utf-8"):
            if line.lstrip().startswith(("--", "use ")):
                continue
            found = RECORD.match(line) or None
            if found:
                names.add(found.group(1))
                continue
            found = DEFINED.match(line)
            if not found:
                continue
            word, meaning = found.group(2), found.group(3)
            if answers_of_a_function(name) and meaning.startswith("goal."):
                continue
            names.add(word)
    return {name for name in names if "-" in name}


def turned(text, spelling):
    return WORD.sub(lambda found: spelling.get(found.group(0), found.group(0)), text)


def main():
    spelling = {name: respelled(name) for name in own_names()}
    apart = {}
    for old, new in sorted(spelling.items()):
        if new in apart:
            print(f"falls together: {old}, {apart[new]}: {new}")
        apart[new] = old
    if "--list" in sys.argv:
        for old, new in sorted(spelling.items()):
            print(old, new)
        return
    for name in files(".antt") + files(".rt") + files(".edit"):
        text = open(name, encoding="utf-8").read()
        new = turned(text, spelling)
        if new != text:
            open(name, "w", encoding="utf-8").write(new)


if __name__ == "__main__":
    main()
