#!/usr/bin/env python3
"""Respells the repository's own definitions and lemmas as Rattle's library spells them: words in snake case. Types, facts and modules keep
their camel case. Run once at the top, right after the kit's port.py.

    tools/respell.py            rewrites crates/ (specs, proofs, the clauses of src/, must-fail edits) and the code spans of the documents
    tools/respell.py --list     prints the names that change, and rewrites nothing

Functions of src/, exported names, strings, inputs and outputs keep their names. A name that a file imports from the kit's library stays as it
is there. Where a law would get the name of a definition, it ends in `_law` (LAWS).
"""

import re
import sys
from pathlib import Path

WORD = r"[A-Za-z_][A-Za-z0-9_'\-]*"
# In a file of antt; a hyphen between two words is part of a name.
TOKEN = re.compile(r"(?:(?<![A-Za-z0-9_'\-.])|(?P<dot>\.))(?P<name>[A-Za-z_](?:[A-Za-z0-9_']|-(?=[A-Za-z0-9_']))*)")
HEAD = re.compile(rf"^\s*(?:(?:abbrev|unfoldable|pub|record|data|mutual|private)\s+)*(?P<name>{WORD})(?=\s*(?::|\{{|\(|$))")
# After the name of a step of a function's proof, which is a generated one.
MADE = re.compile(r"\.(?:ensures|requires|result|given|branch|true|false|new|before|args)\b")
NOT_NAMES = set("use pub mod unfolding open where module abbrev unfoldable record data infix infixl infixr mutual let in elim rw".split())

# Names that would fall together with another one of the repository, as they stand before, by file (None: everywhere).
LAWS = {
    name: name.replace("-", "_") + "_law"
    for name in (
        "accepted-answer before-codes best-found bytes-end code-range country-of-key day-of first-place fresh-words in-country is-country "
        "is-dialled judged-by keys-end last-key marks-end no-entry not-shortest on-first one-digit range-keys same-country some-earlier "
        "third-place typed-codes words-of headed-count effective-by latest-by on-each is-typed status-after changes-after "
        "first_key from_places last_entry lines_at one_code two_digits"
    ).split()
}
LAWS |= {"by_entries": "cell_of_entries", "in-range": "is_in_range"}


def snake(name):
    if name in LAWS:
        return LAWS[name]
    if not name[0].islower():
        return name
    return re.sub(r"(?<=[a-z0-9])(?=[A-Z])", "_", name).replace("-", "_").lower()


def sources(root, ending):
    return [p for p in sorted(root.glob(f"crates/*/**/*{ending}")) if "out" not in p.relative_to(root).parts]


def goals(text):
    """The names that a proof of a function gives its goals: generated ones, which another script turns."""
    return set(re.findall(rf"^(?:abbrev )?(?:pub )?({WORD})\s*:\s*tie\.", text, re.M))


def declared(root):
    found = set()
    for path in sources(root, ".antt"):
        text = path.read_text()
        skip = goals(text) if path.name == "Proof.antt" else set()
        for line in text.split("\n"):
            m = HEAD.match(line)
            if m and not line.lstrip().startswith("--") and m["name"] not in NOT_NAMES | skip:
                # a signature, or the first line of one that goes on below
                rest = line[m.end() :].lstrip()
                if rest.startswith(":") or rest == "" or re.search(r"\b(record|data)\b", line[: m.start("name")]):
                    found.add(m["name"])
    return found


def library_names(text, own):
    """What a file imports from the kit's library."""
    found = set()
    for m in re.finditer(r"use ([\w.'\-]+?)\.\{([^}]*)\}", text):
        parts = m[1].split(".")
        if parts[0] == "Rattle" and len(parts) > 1 and parts[1] in own:
            continue
        found |= {w.strip().split(" as ")[-1].strip() for w in m[2].split(",")}
    return found


def respell(text, names, own, fields):
    keep = library_names(text, own)
    aliases = set(re.findall(r"\bas ([\w'\-]+)\s*;?$", text, re.M)) - {"tie", "goal"}

    def turn(m):
        name = m["name"]
        if name not in names or name in keep:
            return m[0]
        if m["dot"]:
            before = re.search(r"[\w.'\-]*$", text[: m.start()])[0]
            root = before.split(".")[0]
            if root != "Rattle" and root not in aliases and (name not in fields or MADE.match(text, m.end())):
                return m[0]
        return (m["dot"] or "") + snake(name)

    return TOKEN.sub(turn, text)


def record_fields(root):
    """Fields of the repository's own records of antt: they stand indented below `record`."""
    found = set()
    for path in sources(root, ".antt"):
        inside = False
        for line in path.read_text().split("\n"):
            if re.match(r"^(?:pub )?record ", line):
                inside = True
            elif line and not line[0].isspace():
                inside = False
            elif inside and (m := re.match(rf"^\s+(?:pub )?({WORD})\s*:", line)):
                found.add(m[1])
    return found


def main():
    root = Path(".")
    own = {p.name for p in root.glob("crates/*")}
    fields = record_fields(root)
    names = {n for n in declared(root) | fields if snake(n) != n}
    if "--list" in sys.argv:
        print(*(f"{n} {snake(n)}" for n in sorted(names)), sep="\n")
        return
    for path in sources(root, ".antt"):
        text = path.read_text()
        new = respell(text, names, own, fields)
        if new != text:
            path.write_text(new)
    # Clauses and edits have no hyphen that is not a name's or a minus with blanks round it; laws are not named there.
    words = {n for n in names if n not in LAWS or "-" in n}
    for path in sources(root, ".rt"):
        text = path.read_text()
        new = respell(text, words, own, fields)
        if new != text:
            path.write_text(new)
    # The kit's script leaves edits and documents as they are, also where it has respelled a name.
    now = declared(root) | record_fields(root)

    def follow(text):
        def turn(m):
            name = m["name"]
            return (m["dot"] or "") + (snake(name) if name not in now and snake(name) in now else name)

        return TOKEN.sub(turn, respell(text, words, own, fields))

    for path in sources(root, ".edit"):
        text = path.read_text()
        new = "".join(follow(line) if line.startswith(("old:", "new:", "in:")) else line for line in text.splitlines(True))
        if new != text:
            path.write_text(new)
    for path in [root / "README.md", *sorted(root.glob("docs/*.md"))]:
        text = path.read_text()
        new = re.sub(r"`[^`\n]+`", lambda m: follow(m[0]), text)
        if new != text:
            path.write_text(new)


if __name__ == "__main__":
    main()
