#!/usr/bin/env python3
"""Times a text of 4 MiB from its bytes to functions and back, and measures its memory."""
import os
import pathlib
import subprocess
import tempfile

TOP = pathlib.Path(__file__).resolve().parent.parent
PROGRAM = TOP / "crates" / "mir_reprint" / "out" / "mir_reprint"
LIMIT = 4_194_304

FUNCTION = """fn krate::part{0}::sum(_1: &[(u32, u8)], _2: usize) -> u32 {{
    debug items => _1;
    let mut _0: u32;
    let mut _3: usize;
    let mut _4: bool;
    let mut _5: (u32, bool);
    scope 1 {{
        debug at => _3;
    }}

    bb0: {{
        _3 = PtrMetadata(copy _1);
        _4 = Lt(copy _2, copy _3);
        assert(move _4, "index out of bounds: the length is {{}} but the index is {{}}", copy _3, copy _2) -> [success: bb1, unwind continue];
    }}

    bb1: {{
        _5 = AddWithOverflow(copy ((*_1)[_2].0: u32), const {0}_u32);
        assert(!move (_5.1: bool), "attempt to compute `{{}} + {{}}`, which would overflow", copy _2, const {0}_u32) -> [success: bb2, unwind continue];
    }}

    bb2: {{
        _0 = core::num::<impl u32>::wrapping_add(move (_5.0: u32), const {0}_u32) -> [return: bb3, unwind: bb4];
    }}

    bb3: {{
        return;
    }}

    bb4 (cleanup): {{
        StorageDead(_3);
        resume;
    }}
}}

"""


def text_of(functions):
    """So many functions, as rustc prints them, or as many as there is room for."""
    parts, size = [], 0
    for number in range(functions):
        part = FUNCTION.format(number).encode()
        if size + len(part) > LIMIT:
            break
        parts.append(part)
        size += len(part)
    return b"".join(parts)


def long_text():
    """One function of 4,096 blocks with as many statements as there is room for."""
    head = b"fn f(_1: u8) -> () {\n    let mut _2: u8;\n"
    block = b"    bb%d: {\n%s        goto -> bb%d;\n    }\n"
    line = b"        _2 = BitXor(copy _1, const 7_u8);\n"
    lines = (LIMIT - len(head) - 2 - 4096 * 48) // 4096 // len(line)
    return head + b"".join(block % (n, line * lines, (n + 1) % 4096) for n in range(4096)) + b"}\n"


def measure(name, text):
    with tempfile.TemporaryFile() as file, tempfile.TemporaryFile() as out:
        file.write(text)
        file.seek(0)
        process = subprocess.Popen([PROGRAM], stdin=file, stdout=out, stderr=subprocess.PIPE, text=True)
        times = process.stderr.read().split("\n")
        _, status, usage = os.wait4(process.pid, 0)
        printed = out.tell()
    if status != 0:
        raise SystemExit(f"{name}: status {status}")
    print(f"{name}: {len(text)} bytes, {printed} printed; {'; '.join(times)} {usage.ru_maxrss // 1024} MiB", flush=True)


if __name__ == "__main__":
    measure("functions", text_of(4096))
    measure("one function", long_text())
