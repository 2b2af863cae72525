#!/usr/bin/env python3
"""Times `verify` on a text of 4 MiB with 4,096 functions and a declaration file of 4,096 types, up to its answer.

Each function has a type of its own behind a reference, reads its fields, indexes a slice, asserts and calls another function. Since types
are declared, the answer is NotBuilt, behind the reading of both files, the layouts and the types of all code. Half of each is
timed too: the time is to grow with the input, and not with its square.
"""
import os
import pathlib
import subprocess
import tempfile
import time

TOP = pathlib.Path(__file__).resolve().parent.parent
PROGRAM = TOP / "crates" / "kani_mir" / "out" / "kani_mir"
LIMIT = 4_194_304

FUNCTION = """fn part{n}::sum(_1: &part{n}::Item, _2: usize) -> u32 {{
    debug items => _1;
    let mut _3: usize;
    let mut _4: bool;
    let mut _5: (u32, bool);
    scope 1 {{
        debug at => _3;
    }}

    bb0: {{
        _3 = PtrMetadata(copy ((*_1).2: &[u32]));
        _4 = Lt(copy _2, copy _3);
        assert(move _4, "index out of bounds: the length is {{}}", copy _3) -> [success: bb1, unwind continue];
    }}

    bb1: {{
        _5 = AddWithOverflow(copy (*((*_1).2: &[u32]))[_2], const {n}_u32);
        assert(!move (_5.1: bool), "attempt to add") -> [success: bb2, unwind continue];
    }}

    bb2: {{
{lines}        _0 = part{m}::sum(copy ((*_1).0: &part{m}::Item), move _3) -> [return: bb3, unwind: bb4];
    }}

    bb3: {{
        return;
    }}

    bb4 (cleanup): {{
        resume;
    }}
}}

"""
LINE = "        _3 = Add(copy _3, const 1_usize);\n"

TYPE = """[[type]]
name = "part{n}::Item"
kind = "struct"
size = 32
align = 8
fields = [ {{ name = "next", type = "&part{m}::Item", offset = 0 }}, {{ type = "u64", offset = 8 }}, {{ type = "&[u32]", offset = 16 }} ]
"""


def other(n, count):
    """The number of the function that the n-th one calls."""
    return (n * 2_654_435_761 + 1) % count


def function(n, count, size):
    """A function of so many bytes, as far as whole lines fill them."""
    short = FUNCTION.format(n=n, m=other(n, count), lines="")
    return short if len(short) > size else FUNCTION.format(n=n, m=other(n, count), lines=LINE * ((size - len(short)) // len(LINE)))


def text_of(count):
    return "".join(function(n, count, LIMIT // 4096) for n in range(count))


def file_of(count):
    return "version = 1\n" + "".join(TYPE.format(n=n, m=other(n, count)) for n in range(count))


def once(place):
    """The time of a run, and the most memory that it took."""
    begin = time.monotonic()
    words = [PROGRAM, "verify", "a.mir", "a.toml"]
    process = subprocess.Popen(words, cwd=place, stdout=subprocess.PIPE)
    out = process.stdout.read()
    _, _, usage = os.wait4(process.pid, 0)
    took = time.monotonic() - begin
    if out != b"error: input: NotBuilt\n":
        raise SystemExit(f"wrote {out[:400]!r}")
    return took, usage.ru_maxrss // 1024


def measure(count):
    text, file = text_of(count), file_of(count)
    with tempfile.TemporaryDirectory() as folder:
        place = pathlib.Path(folder)
        (place / "a.mir").write_text(text)
        (place / "a.toml").write_text(file)
        runs = [once(place) for _ in range(5)]
    took, memory = min(runs)
    print(f"{count} functions in {len(text)} bytes, {count} types in {len(file)} bytes: {took:.2f} s, {memory} MiB", flush=True)


if __name__ == "__main__":
    measure(2048)
    measure(4096)
