#!/usr/bin/env python3
"""Times `dimacs_solve` on clause lists that clause_lists.py makes, beside `minisat -no-pre` where that is installed.

    solver.py            the table: processor time of each, the best of five runs, and the ratio
    solver.py random     300 random lists of 20 variables, each answer checked: values by evaluation, a refutation by the
                         program's own checker, and the answer by trying every assignment

Build the program first: `rt run` in crates/dimacs_solve.
"""
import math
import os
import pathlib
import random
import re
import shutil
import subprocess
import sys
import tempfile

TOP = pathlib.Path(__file__).resolve().parent.parent
PROGRAM = TOP / "crates" / "dimacs_solve" / "out" / "dimacs_solve"
SCRIPT = TOP / "bench" / "clause_lists.py"
LISTS = (
    [["random", "150", "639", str(seed)] for seed in range(1, 9)]
    + [["pigeons", "8", "7"], ["pigeons", "9", "8"]]
    + [["commuting", "5"], ["commuting", "6"]]
    + [["adders", "64"], ["population", "64"], ["exclusive-or", "128"]]
)
RUNS = 5


def clause_list(words):
    return subprocess.run([sys.executable, SCRIPT, *words], capture_output=True, check=True, text=True).stdout


def measured(command, path):
    """The processor time of one run, and what it wrote."""
    with open(path) as text, tempfile.TemporaryFile() as out, tempfile.TemporaryFile() as errors:
        child = subprocess.Popen(command, stdin=text, stdout=out, stderr=errors)
        _, status, usage = os.wait4(child.pid, 0)
        child.returncode = os.waitstatus_to_exitcode(status)
        out.seek(0)
        errors.seek(0)
        written = out.read().decode() + errors.read().decode()
        return usage.ru_utime + usage.ru_stime, written


def best(command, path):
    runs = [measured(command, path) for _ in range(RUNS)]
    return min(runs, key=lambda run: run[0])


def microseconds(text, name):
    found = re.search(rf"^{name}: (\d+) us$", text, re.MULTILINE)
    return int(found.group(1)) / 1000 if found else None


def measure(words, peer, folder):
    path = pathlib.Path(folder) / "list.cnf"
    path.write_text(clause_list(words))
    own, text = best([PROGRAM], path)
    accept = microseconds(text, "accept")
    checked = f"{accept:.1f} ms" if accept is not None else "-"
    line = f"| {' '.join(words)} | {own * 1000:.1f} ms | {checked} |"
    if not peer:
        print(line)
        return None
    other, _ = best([peer, "-no-pre", "-verb=0", path, "/dev/null"], path)
    print(f"{line} {other * 1000:.1f} ms | {own / other:.2f} |")
    return own / other


def table():
    peer = shutil.which("minisat")
    print("| Clauses | `dimacs_solve` | of it `accept` |" + (" `minisat -no-pre` | ratio |" if peer else ""))
    print("|---|---|---|" + ("---|---|" if peer else ""))
    with tempfile.TemporaryDirectory() as folder:
        ratios = [measure(words, peer, folder) for words in LISTS]
    if peer:
        mean = math.exp(sum(math.log(ratio) for ratio in ratios) / len(ratios))
        print(f"geometric mean of the ratios: {mean:.2f}, greatest: {max(ratios):.2f}")


def holds(clauses, values):
    return all(any(values[abs(name) - 1] == (name > 0) for name in clause) for clause in clauses)


def satisfiable(clauses, variables, values):
    """By splitting on variables, without learning."""
    left = []
    for clause in clauses:
        known = [name for name in clause if abs(name) - 1 < len(values)]
        if any(values[abs(name) - 1] == (name > 0) for name in known):
            continue
        if len(known) == len(clause):
            return False
        left.append(clause)
    if not left:
        return True
    return any(satisfiable(left, variables, values + [value]) for value in (True, False))


def check_random():
    draw = random.Random(20)
    counts = {True: 0, False: 0}
    with tempfile.TemporaryDirectory() as folder:
        for number in range(300):
            words = ["random", "20", str(draw.randint(60, 120)), str(number)]
            text = clause_list(words)
            path = pathlib.Path(folder) / "list.cnf"
            path.write_text(text)
            clauses = [[int(word) for word in line.split()[:-1]] for line in text.splitlines()[1:]]
            _, written = measured([PROGRAM], path)
            answer = "s SATISFIABLE" in written
            if answer:
                values = [line.split()[2] == "true" for line in written.splitlines() if line.startswith("v ")]
                assert holds(clauses, values), words
            else:
                assert "s UNSATISFIABLE" in written, (words, written)
            assert answer == satisfiable(clauses, 20, []), words
            counts[answer] += 1
    print(f"{counts[True]} satisfiable and {counts[False]} unsatisfiable lists, each answer right")


if sys.argv[1:] == ["random"]:
    check_random()
elif not sys.argv[1:]:
    table()
else:
    sys.exit(__doc__)
