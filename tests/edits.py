"""That tools/edits finds an edit in the wrong function, twice, or not at all.

    python3 tests/edits.py    an error if one is not found
"""

import subprocess
import tempfile
from pathlib import Path

TOOL = Path(__file__).resolve().parent.parent / "tools" / "edits"

CODE = """use other::Thing;
ghost use mathlib.Core.Path.{_≡_};

const MOST: u64 = 9;

pub fn first(n: u64) -> u64
    ensures { λ r. ⌜ r ≡ n ⌝ }
{
    if n < 7 {
        n + 1
    } else {
        n + 2
    }
}

// The second.
fn second(n: u64) -> u64 {
    n + 2
}

impl<'a> Reader<'a> {
    pub const LAST: u64 = 5;

    pub fn next(self) -> u64 {
        self.at + 3
    }
}

pub extern "C" fn third() -> u64 {
    4
}
"""
RULES = """-- Rules.
use Prim.Native.Nat.{ℕ, _+_}

-- One.
unfoldable pub floorOf : ℕ → ℕ
unfolding sum
floorOf zero = 0
floorOf n = n + 1

pub data Kind : Type 0 where
  open : Kind

closed : floorOf 1 ≡ 2
closed = refl
"""

# File, old text, and the item in which it stands.
PLACES = [
    ("src/lib.rt", "use other::Thing;", "use"),
    ("src/lib.rt", "MOST: u64 = 9", "MOST"),
    ("src/lib.rt", "n + 1", "first"),
    ("src/lib.rt", "r ≡ n", "first"),
    ("src/lib.rt", "fn second(n: u64)", "second"),
    ("src/lib.rt", "LAST: u64 = 5", "Reader::LAST"),
    ("src/lib.rt", "self.at + 3", "Reader::next"),
    ("src/lib.rt", "    4", "third"),
    ("specs/Rule.antt", "use Prim", "use"),
    ("specs/Rule.antt", "floorOf : ℕ", "floorOf"),
    ("specs/Rule.antt", "n + 1", "floorOf"),
    ("specs/Rule.antt", "  open", "Kind"),
    ("specs/Rule.antt", "closed = refl", "closed"),
]


def tried(root, option, *changes):
    """Exit status and output of tools/edits on an edit of these changes: file, item or None, old and new text; and the edit."""
    path = root / "crates" / "one" / "must-fail" / "tried.edit"
    lines = ["# what it breaks"]
    for file, item, old, new in changes:
        lines += [f"file: {file}", *([] if item is None else [f"in: {item}"]), f"old: {old}", f"new: {new}"]
    path.write_text("\n".join(lines) + "\n")
    ran = subprocess.run([TOOL, "--root", root, option], capture_output=True, text=True)
    return ran.returncode, ran.stdout + ran.stderr, path.read_text()


def refused(root, why, *changes):
    status, told, _ = tried(root, "--check", *changes)
    assert status == 1 and why in told, (why, told)


def try_all(root):
    for file, old, item in PLACES:
        status, told, _ = tried(root, "--check", (file, item, old, "other"))
        assert status == 0, told
        refused(root, "stands in", (file, "wrong", old, "other"))
        refused(root, "no `in:` line", (file, None, old, "other"))
        status, _, named = tried(root, "--name", (file, None, old, "other"))
        assert status == 0 and f"in: {item}\nold: {old}\n" in named, named
        assert tried(root, "--name", (file, item, old, "other"))[2].count("in: ") == 1
    refused(root, "is not in", ("src/lib.rt", "first", "n + 9", "n"))
    refused(root, "2 times", ("src/lib.rt", "second", "n + 2", "n"))
    refused(root, "are the same", ("src/lib.rt", "first", "n + 1", "n + 1"))
    refused(root, "no file", ("src/gone.rt", "first", "n + 1", "n"))
    refused(root, "no `old:`")
    # The second change sees what the first has left.
    status, told, _ = tried(root, "--check", ("src/lib.rt", "first", "n + 1", "n + 5"), ("src/lib.rt", "first", "n + 5", "n"))
    assert status == 0, told
    refused(root, "is not in", ("src/lib.rt", "first", "n + 1", "n + 5"), ("src/lib.rt", "first", "n + 1", "n"))


def main():
    with tempfile.TemporaryDirectory() as folder:
        crate = Path(folder) / "crates" / "one"
        for part, name, text in (("src", "lib.rt", CODE), ("specs", "Rule.antt", RULES)):
            (crate / part).mkdir(parents=True)
            (crate / part / name).write_text(text)
        (crate / "must-fail").mkdir()
        try_all(Path(folder))
    print("edits: those in the wrong place, found twice or not at all are told")


if __name__ == "__main__":
    main()
