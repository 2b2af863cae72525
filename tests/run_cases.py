#!/usr/bin/env python3
"""Runs the built program on each case of tests/cases and compares its standard output and its status.

A case is a folder. Its file `words` has one word a line; `status` has the exit status that is wanted (0 where the
file is absent); `stdout` has the exact bytes that are wanted. The program runs in a copy of the folder, so the words
name the files in it. A file `NAME.blanks` stands for a file NAME of as many blanks as it says. A new case needs nothing
but data.
"""
import pathlib
import shutil
import subprocess
import sys
import tempfile

TOP = pathlib.Path(__file__).resolve().parent.parent
PROGRAM = TOP / "kani-mir"


def run(case):
    with tempfile.TemporaryDirectory() as folder:
        place = pathlib.Path(shutil.copytree(case, pathlib.Path(folder) / "case"))
        for blanks in place.glob("*.blanks"):
            (place / blanks.stem).write_bytes(b" " * int(blanks.read_text()))
        return compared(case, place)


def compared(case, place):
    words = (case / "words").read_bytes().decode().splitlines()
    status_file = case / "status"
    wanted_status = int(status_file.read_text()) if status_file.exists() else 0
    wanted = (case / "stdout").read_bytes()
    done = subprocess.run([PROGRAM, *words], cwd=place, stdout=subprocess.PIPE, timeout=600)
    if done.returncode != wanted_status:
        return f"status {done.returncode}, wanted {wanted_status}"
    if done.stdout != wanted:
        return f"wrote {done.stdout!r}, wanted {wanted!r}"
    return None


def main():
    cases = sorted(path for path in (TOP / "tests" / "cases").iterdir() if path.is_dir())
    failed = 0
    for case in cases:
        trouble = run(case)
        if trouble:
            failed += 1
            print(f"{case.name}: {trouble}")
    print(f"cases: {len(cases) - failed} passed, {failed} failed")
    return 1 if failed or not cases else 0


if __name__ == "__main__":
    sys.exit(main())
