#!/usr/bin/env python3
"""Lists the wrong programs that the promises rule out, from the must-fail edits: docs/RULED_OUT.md.

ruled_out.py writes the page; ruled_out.py --check fails where it is not what the edits say.
"""
import pathlib
import sys

sys.dont_write_bytecode = True

from must_fail import changes, comment  # noqa: E402

ROOT = pathlib.Path(__file__).resolve().parent.parent
PAGE = ROOT / "docs" / "RULED_OUT.md"
HEAD = """# What the promises rule out

Each line is an edit of the code or of a rule that keeps its shape and changes an operand, and says what would no longer hold. `rt ci`
tries each of them and fails if the prover accepts one.
"""


def row(edit):
    """An edit's name, the file and the function or definition that it changes last, and what its comment says."""
    lines = edit.read_text().split("\n")
    last = list(changes(lines))[-1]
    return f"| `{edit.stem}` | `{last.file}` | `{last.item}` | {comment(lines)} |\n"


def page():
    parts = [HEAD]
    for folder in sorted(ROOT.glob("crates/*/must-fail")):
        parts.append(f"\n## {folder.parent.name}\n\n| edit | of | in | what it breaks |\n|---|---|---|---|\n")
        parts += map(row, sorted(folder.glob("*.edit")))
    return "".join(parts)


def main():
    if sys.argv[1:] == ["--check"]:
        if not PAGE.exists() or PAGE.read_text() != page():
            sys.exit("docs/RULED_OUT.md is not what the must-fail edits say: run tools/ruled_out.py")
        count = page().count("\n| `")
        print(f"ruled out: {count} edits listed")
        return
    PAGE.write_text(page())


main()
