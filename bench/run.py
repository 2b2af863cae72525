#!/usr/bin/env python3
"""Times `verify` on made inputs: every choice of 16 bits, and a text of 1,000 statements and terminators."""
import pathlib
import subprocess
import tempfile
import time

TOP = pathlib.Path(__file__).resolve().parent.parent
PROGRAM = TOP / "crates" / "kani_mir" / "out" / "kani_mir"
UNIT = 'version = 1\n[[unit]]\nkind = "proof"\nfunction = "check"\n'


def two_bytes():
    return (
        "fn check() -> () { let _1: u8; let _2: u8; let _3: bool; let _4: ();"
        " bb0: { _1 = kani::any::<u8>() -> bb1; } bb1: { _2 = kani::any::<u8>() -> bb2; }"
        " bb2: { _3 = Le(copy _1, copy _2); switchInt(copy _3) -> [0: bb4, otherwise: bb3]; }"
        ' bb3: { _3 = Ge(copy _2, copy _1); _4 = kani::assert(move _3, const "order") -> bb4; }'
        " bb4: { return; } }"
    )


def long_text():
    assigns = " ".join("_1 = const 7_u8;" for _ in range(998))
    return f"fn check() -> () {{ let _1: u8; bb0: {{ {assigns} goto -> bb1; }} bb1: {{ return; }} }}"


def measure(name, text):
    with tempfile.TemporaryDirectory() as folder:
        place = pathlib.Path(folder)
        (place / "a.mir").write_text(text)
        (place / "a.toml").write_text(UNIT)
        best = min(once(place) for _ in range(5))
    print(f"{name}: {best:.3f} s")


def once(place):
    begin = time.monotonic()
    subprocess.run([PROGRAM, "verify", "a.mir", "a.toml"], cwd=place, stdout=subprocess.DEVNULL, check=True)
    return time.monotonic() - begin


measure("16 bits of choices", two_bytes())
measure("1,000 statements and terminators", long_text())
