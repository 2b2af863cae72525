#!/usr/bin/env python3
"""Reads texts with the built program `mir_reprint` and compares what it prints.

tests/texts/forms.txt has one text for each production, tests/texts/refusals.txt one for each refusal with its place, and
tests/texts/whole has whole texts with their canonical forms. What is printed is read and printed once more: it has to
come out the same. Where rustc is at hand, the functions of tests/rustc, as rustc prints them, are read and printed too.
"""
import pathlib
import re
import shutil
import subprocess
import sys
import tempfile

TOP = pathlib.Path(__file__).resolve().parent.parent
PROGRAM = TOP / "crates" / "mir_reprint" / "out" / "mir_reprint"
TEXTS = TOP / "tests" / "texts"

RESULT = "    let mut _0: ();\n"
BLOCK = "fn f() -> () {\n" + RESULT + "\n    bb0: {\n        "

# For each section of forms.txt: a text around the form, and the canonical text around its canonical form, which stand at $.
STATEMENT = BLOCK + "$\n        return;\n    }\n}\n"
AROUND = {
    "type": ("fn f(_1: $) -> () { }", "fn f(_1: $) -> () {\n" + RESULT + "}\n"),
    "place": ("fn f() -> () { bb0: { $ = copy _9; return; } }", STATEMENT.replace("$", "$ = copy _9;")),
    "operand": ("fn f() -> () { bb0: { _9 = $; return; } }", STATEMENT.replace("$", "_9 = $;")),
    "rvalue": ("fn f() -> () { bb0: { _9 = $; return; } }", STATEMENT.replace("$", "_9 = $;")),
    "statement": ("fn f() -> () { bb0: { $\nreturn; } }", STATEMENT),
    "terminator": ("fn f() -> () { bb0: { $ } bb1 (cleanup): { resume; } }", BLOCK + "$\n    }\n}\n"),
}


def reprinted(text):
    done = subprocess.run([PROGRAM], input=text, stdout=subprocess.PIPE, stderr=subprocess.DEVNULL, timeout=60)
    return done.returncode, done.stdout


def trouble(text, wanted_status, wanted):
    status, out = reprinted(text)
    if (status, out) != (wanted_status, wanted):
        return f"{text[:200]!r}: status {status}, wrote {out[:400]!r}, wanted {wanted_status}, {wanted[:400]!r}"
    return None


def twice(text, wanted):
    """A text that is accepted: its canonical text is as wanted, and is its own."""
    return trouble(text, 0, wanted) or trouble(wanted, 0, wanted)


def lines_of(name):
    return [line for line in (TEXTS / name).read_text().splitlines() if line and not line.startswith("#")]


def forms():
    section = None
    for line in lines_of("forms.txt"):
        if line in [f"[{name}]" for name in AROUND]:
            section = line[1:-1]
            continue
        text, _, canonical = line.partition(" ==> ")
        around, canonical_around = AROUND[section]
        wanted = canonical_around.replace("$", canonical or text).replace("        (none)\n", "")
        yield twice(around.replace("$", text).encode(), wanted.encode())


def unfolded(text):
    """A text of refusals.txt without its short forms, and where its fault stands: the number of bytes before it."""
    text = re.sub(r"@(\d+)\[(.*?)\]@", lambda m: "".join(m[2].replace("#", str(n)) for n in range(int(m[1]))), text)
    raw = text.encode("latin-1")
    raw = re.sub(rb"\\n", b"\n", raw)
    raw = re.sub(rb"\\x([0-9a-f]{2})", lambda m: bytes([int(m[1], 16)]), raw)
    before, mark, behind = raw.partition(b"^")
    return before + behind, len(before) if mark else None


def refusals():
    for line in lines_of("refusals.txt"):
        kind, _, text = line.partition(" | ")
        raw, at = unfolded(text)
        place = ""
        if at is not None:
            before = raw[:at]
            place = f" at {before.count(10) + 1}:{at - (before.rfind(10) + 1) + 1}"
        yield trouble(raw, 2, f"error: text: {kind}{place}\n".encode())


def whole_texts():
    for path in sorted((TEXTS / "whole").glob("*.mir")):
        yield twice(path.read_bytes(), path.with_suffix(".printed").read_bytes())


def functions_of(printed):
    """The functions of what rustc prints, without constants and allocations."""
    return "\n".join(re.findall(r"^fn .*?^}\n", printed, re.M | re.S))


def printed_by_rustc():
    if not shutil.which("rustc"):
        print("tests/run_texts.py: texts of rustc skipped, there is no rustc")
        return
    for path in sorted((TOP / "tests" / "rustc").glob("*.rs")):
        with tempfile.TemporaryDirectory() as folder:
            out = pathlib.Path(folder) / "out.mir"
            subprocess.run(
                ["rustc", "--edition", "2024", "--crate-type", "lib", "--emit", "mir", "-C", "debug-assertions=off",
                 "-C", "overflow-checks=on", "-o", out, path],
                check=True, cwd=TOP,
            )
            text = functions_of(out.read_text()).encode()
        if text.count(b"fn ") < 5:
            yield f"{path.name}: rustc printed fewer than five functions"
        status, canonical = reprinted(text)
        yield f"{path.name}: {canonical[:200]!r}" if status else twice(text, canonical)


def main():
    passed = failed = 0
    for part in (forms, refusals, whole_texts, printed_by_rustc):
        for problem in part():
            passed, failed = passed + (problem is None), failed + (problem is not None)
            if problem:
                print(problem)
    print(f"texts: {passed} passed, {failed} failed")
    return 1 if failed or not passed else 0


if __name__ == "__main__":
    sys.exit(main())
