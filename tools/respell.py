#!/usr/bin/env python3
"""Brings the repository's own definitions and lemmas to the house spelling: facts and types in camel case, all else in snake case.

usage: tools/respell.py [FOLDER]     the repository's top, by default this folder

Renames what specs/ and proofs/ define, wherever it is named: in definitions, proofs, clauses and the texts of must-fail edits.
What the toolchain makes or the library has keeps its name, and so do strings and comments, but for names between backticks.
It stops, with nothing written, where two names would fall together.
"""
import collections
import os
import re
import sys

SIGNATURE = re.compile(r"\s*(?:(?:abbrev|unfoldable|pub) )*(?:(data|record) )?([^\s:(){}]+)(?: [({].*?)? : (.*)$")
WORD = re.compile(r"[A-Za-z_◌⊎][\w'′◌⊎-]*")
OUTSIDE = re.compile(r"use (?:Rattle\.std|borrow|Rattle\.\w+\.(?:proofs\.[\w.+-]*Goals|specs\.contracts|specs\.declared))[^{]*\{([^}]*)\}")
# two facts of crates that don't know each other would have one name
APART = {"All-fit": "EachFits"}
STRING_OR_COMMENT = re.compile(r'"(?:[^"\\]|\\.)*"|//.*|--.*')


def files(top):
    for folder, folders, names in os.walk(os.path.join(top, "crates")):
        folders[:] = sorted(f for f in folders if f != "out")
        for name in sorted(names):
            if name.endswith((".antt", ".rt", ".edit")):
                path = os.path.join(folder, name)
                with open(path, encoding="utf-8") as f:
                    yield path, f.read()


def is_type(kind, result):
    return kind is not None or result.rstrip(" where").endswith("Type 0")


def new_name(name, kind, result):
    if name in APART:
        return APART[name]
    name = name.replace("′", "'")
    if is_type(kind, result) or name[0].isupper():
        return "".join(part[0].upper() + part[1:] for part in name.split("-"))
    return name.replace("-", "_")


def renamed(texts):
    """Old name to new, of each definition whose spelling changes; every name that stands; and the names of fields."""
    names, outside, fields = {}, set(), set()
    for path, text in texts:
        outside.update(word.strip() for found in OUTSIDE.findall(text) for word in found.split(","))
        if not path.endswith(".antt"):
            continue
        for line in text.splitlines():
            found = SIGNATURE.match(line)
            if found and not line.lstrip().startswith(("--", "use ")) and "goal." not in line:
                kind, name, result = found.groups()
                if WORD.fullmatch(name):
                    names.setdefault(name, new_name(name, kind, result))
                    if line.startswith(" "):
                        fields.add(name)
    return {old: new for old, new in names.items() if new != old and old not in outside}, set(names) | outside, fields


def clashes(names, taken):
    made = collections.Counter(names.values())
    return sorted(old for old, new in names.items() if made[new] > 1 or new in taken)


def turned(text, names, fields, comment):
    def word(found):
        name = found.group()
        # behind a dot stands a field: of a record of ours, or of what the toolchain makes, whose names are its own
        if found.string[:found.start()].endswith(".") and name not in fields:
            return name
        return names.get(name, name)

    def quoted(found):
        part = found.group()
        if part.startswith('"'):
            return part
        return re.sub(r"`[^`]*`", lambda tick: WORD.sub(word, tick.group()), part)

    out, at = [], 0
    for found in STRING_OR_COMMENT.finditer(text):
        if not found.group().startswith((comment, '"')):
            continue
        out += [WORD.sub(word, text[at:found.start()]), quoted(found)]
        at = found.end()
    return "".join([*out, WORD.sub(word, text[at:])])


def main():
    top = sys.argv[1] if len(sys.argv) > 1 else "."
    texts = list(files(top))
    if not texts:
        raise SystemExit("respell: no crates here: run it at the repository's top")
    names, taken, fields = renamed(texts)
    wrong = clashes(names, taken)
    if wrong:
        raise SystemExit("respell: these would fall together with another name: " + ", ".join(f"{old} ({names[old]})" for old in wrong))
    changed = 0
    for path, text in texts:
        new = turned(text, names, fields, "--" if path.endswith(".antt") else "//")
        if new != text:
            changed += 1
            with open(path, "w", encoding="utf-8") as f:
                f.write(new)
    print(f"respell: {len(names)} names in {changed} files")


if __name__ == "__main__":
    main()
