"""The archive, and shared objects made of it. Nothing to run here: tests/evidence.py does."""

import subprocess
from pathlib import Path

ROOT = Path(__file__).resolve().parents[2]
FOLDER = ROOT / "target" / "evidence"
FAULTS = Path(__file__).with_name("faults.c")
PLAIN, FAULTY = "rate_book.so", "faulty.so"


def archive():
    """The library's archive, built where it is missing or older than a source."""
    made = ROOT / "target" / "staticlib" / "librate_book.a"
    crates = ROOT / "crates.txt"
    line = next(line for line in crates.read_text().splitlines() if line.startswith("rate_book "))
    folders = [ROOT / "crates" / name for name in ("rate_book", *line.partition(":")[2].split())]
    sources = [crates, *(path for folder in folders for path in folder.glob("[!o]*/**/*") if path.suffix in (".rt", ".antt"))]
    if not made.exists() or made.stat().st_mtime < max(path.stat().st_mtime for path in sources):
        built = subprocess.run([ROOT / "tools" / "archive"], cwd=ROOT, stdout=subprocess.PIPE, stderr=subprocess.STDOUT)
        if built.returncode != 0:
            raise SystemExit(built.stdout.decode(errors="replace") + "tools/archive failed")
    return made


def shared_object(name, *sources):
    """The archive, with more sources, as a shared object; linked anew where it is older than they are."""
    whole = archive()
    FOLDER.mkdir(parents=True, exist_ok=True)
    made = FOLDER / name
    if not made.exists() or made.stat().st_mtime < max(path.stat().st_mtime for path in (whole, *sources)):
        linked = ["-Wl,--whole-archive", str(whole), "-Wl,--no-whole-archive"]
        if subprocess.run([ROOT / "tools" / "need", "cc"]).returncode != 0:
            raise SystemExit(1)
        subprocess.run(["cc", "-O1", "-fPIC", "-shared", "-o", str(made), *map(str, sources), *linked], check=True)
    return made


def library(built):
    """The library as a shared object, as it stands if it is `built`."""
    return FOLDER / PLAIN if built else shared_object(PLAIN)


def faulty_library(built):
    """The same with the calls of faults.c."""
    return FOLDER / FAULTY if built else shared_object(FAULTY, FAULTS)
