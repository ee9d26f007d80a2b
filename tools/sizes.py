#!/usr/bin/env python3
"""Sizes of the crates: the table in docs/PROOFS.md.

sizes.py writes the table; sizes.py --check fails where the sizes are not those of the files.
"""
import pathlib
import re
import sys

ROOT = pathlib.Path(__file__).resolve().parent.parent
PAGE = ROOT / "docs" / "PROOFS.md"
TABLE = re.compile(r"\| crate \|.*\n(\|.*\n)+")
HEAD = "| crate | rules | code and contracts | proofs | edits |\n|---|---:|---:|---:|---:|\n"


def said(text, comment):
    """The lines of a text that are not blank, a comment or an import."""
    lines = (line.strip() for line in text.splitlines())
    return [line for line in lines if line and not line.startswith(comment) and not re.match(r"(ghost |pub )?use ", line)]


def rules(text):
    """The public declarations of a file of rules: the others are its closed examples."""
    parts = (said(part, "--") for part in re.split(r"\n\s*\n", text))
    return sum(len(part) for part in parts if part and re.match(r"((unfoldable|abbrev) )?pub (?!mod )", part[0]))


def texts(crate, folder, ending):
    return [path.read_text() for path in sorted((ROOT / "crates" / crate / folder).rglob("*" + ending))]


def sizes(crate):
    return (
        sum(rules(text) for text in texts(crate, "specs", ".antt")),
        sum(len(said(text, "//")) for text in texts(crate, "src", ".rt")),
        sum(len(said(text, "--")) for text in texts(crate, "proofs", ".antt")),
        len(texts(crate, "must-fail", ".edit")),
    )


def rows():
    crates = re.findall(r"^(\w+)(?: staticlib)?:", (ROOT / "crates.txt").read_text(), re.M)
    return [(f"`{crate}`", *sizes(crate)) for crate in crates]


def table(made):
    total = ("all", *(sum(column) for column in list(zip(*made))[1:]))
    return HEAD + "".join(f"| {row[0]} | " + " | ".join(f"{n:,}" for n in row[1:]) + " |\n" for row in [*made, total])


def main():
    page = PAGE.read_text()
    stands = TABLE.search(page).group(0)
    made = table(rows())
    if sys.argv[1:] == ["--check"]:
        if stands != made:
            sys.exit("the sizes in docs/PROOFS.md are not those of the files: run tools/sizes.py")
        print("sizes: as the files are")
        return
    PAGE.write_text(page.replace(stands, made))


main()
