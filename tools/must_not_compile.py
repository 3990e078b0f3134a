"""Tries programs that may not compile: each file in tools/must_not_compile is an edit of crates/writing.

A must-fail edit has to reach the prover, and these may not get so far: the compiler itself refuses them.
So they are tried here, in a copy of the repository: python3 tools/must_not_compile.py
Each has the words of the compiler's error that is wanted, in a line `error: WORDS`.
"""
import pathlib
import shutil
import subprocess
import sys
import tempfile

ROOT = pathlib.Path(__file__).resolve().parent.parent


def parts(path):
    lines = path.read_text().splitlines()
    return dict(line.split(": ", 1) for line in lines if ": " in line)


def refusal(copy, edit):
    """What rt says of the crate with the edit; the source is put back afterwards."""
    source = copy / "crates/writing" / edit["file"]
    plain = source.read_text()
    assert plain.count(edit["old"]) == 1, "the old text does not stand exactly once"
    source.write_text(plain.replace(edit["old"], edit["new"]))
    run = subprocess.run(["rt", "check"], cwd=copy / "crates/writing", capture_output=True, text=True)
    source.write_text(plain)
    return run.returncode, run.stdout + run.stderr


def main():
    failed = 0
    with tempfile.TemporaryDirectory() as folder:
        copy = pathlib.Path(folder) / "copy"
        shutil.copytree(ROOT, copy, symlinks=True, ignore=shutil.ignore_patterns("out"))
        for path in sorted((ROOT / "tools/must_not_compile").glob("*.edit")):
            edit = parts(path)
            code, said = refusal(copy, edit)
            good = code != 0 and f"error[{edit['error']}]" in said
            failed += not good
            print(path.stem, "does not compile" if good else "NOT REFUSED as it must be")
    sys.exit(failed != 0)


main()
