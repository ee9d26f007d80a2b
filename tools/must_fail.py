"""Must-fail edits, read: what each changes, and in which function or definition its text stands. tools/edits and tools/ruled_out.py
use it.

An edit file has `# ` lines that say what it breaks, then a `file:` line and, for each change, `in:`, `old:` and `new:` lines. rt
passes over the `in:` line. A text on a line of Rattle stands in a function (`name`, or `Type::name` of an impl) or in another
declaration; a text on a line of antt in the definition whose signature or clause holds it; an import is `use` in both.
"""

import re
from typing import NamedTuple

RUST_ITEM = re.compile(
    r'(?:pub(?:\([a-z]+\))? )?(?:const (?=fn|unsafe))?(?:unsafe )?(?:extern "C" )?'
    r"(fn|const|static|struct|enum|type|trait|mod) (\w+)"
)
IMPL = re.compile(r"impl(?:<[^>]*>)? (?:.* for )?(\w+)")
USE = re.compile(r"(ghost |pub )*use\b")
ANTT_WORDS = re.compile(r"(?:(?:unfoldable|abbrev|pub|private|data|record|mod) )*(\S+)")


class Change(NamedTuple):
    """One `old:` and `new:` pair: its file, what the `in:` line names, None where there is none, and the line of `old:`."""

    file: str
    item: str
    old: str
    new: str
    line: int


def changes(lines):
    """The changes of an edit's lines, read as rt reads them."""
    file = item = old = place = None
    for number, line in enumerate(lines):
        if line.startswith("file: "):
            file = line[len("file: ") :]
        elif line.startswith("in: "):
            item = line[len("in: ") :]
        elif line.startswith("old: "):
            old, place = line[len("old: ") :], number
        elif line.startswith("new:"):
            yield Change(file, item, old, line[len("new:") :].removeprefix(" "), place)
            old = item = None


def comment(lines):
    """What an edit says that it breaks."""
    return " ".join(line[2:] for line in lines if line.startswith("# "))


def rust_items(lines):
    """The item of each line of Rattle, None outside of any: items start at the margin, those of an impl four blanks further in."""
    item = owner = None
    for line in lines:
        inner = line[4:] if owner is not None and line.startswith("    ") else line
        if USE.match(line):
            item = "use"
        elif found := IMPL.match(line):
            item = owner = found[1]
        elif found := RUST_ITEM.match(inner):
            item = found[2] if inner is line else f"{owner}::{found[2]}"
        yield item
        if line.startswith("}"):
            owner = None


def antt_items(lines):
    """The definition of each line of antt, None outside of any: a line at the margin with another first word starts one."""
    item = None
    for line in lines:
        if line and not line[0].isspace() and not line.startswith(("--", "unfolding ")):
            item = "use" if USE.match(line) else ANTT_WORDS.match(line)[1]
        yield item


def item_at(path, text, at):
    """The item in which a position of a file's text stands."""
    lines = text.split("\n")
    items = list(rust_items(lines) if path.suffix == ".rt" else antt_items(lines))
    return items[text.count("\n", 0, at)]


def applied(crate, edit):
    """Each change of an edit of a crate, with the item in which its old text stands and what is wrong with it, each or None.

    The changes are made one after the other, as rt makes them, in a copy of the texts.
    """
    texts = {}
    for change in changes(edit.read_text().split("\n")):
        item, wrong = None, None
        path = crate / str(change.file)
        if change.file is None or not path.is_file():
            wrong = f"no file {change.file}"
        elif change.old is None:
            wrong = "a `new:` line without an `old:` line"
        else:
            text = texts.get(path) or path.read_text()
            count = text.count(change.old)
            if count == 1:
                item = item_at(path, text, text.index(change.old))
                texts[path] = text.replace(change.old, change.new)
            else:
                wrong = f"the old text is not in {change.file}" if count == 0 else f"the old text is in {change.file} {count} times"
        if wrong is None and change.old == change.new:
            wrong = "old and new text are the same"
        yield change, item, wrong
