#!/usr/bin/env python3
"""Runs the built program on the cases of tests/refusals and compares the line that it writes.

A file there has sections. A section begins with a line `[what it shows]`. Behind a line `mir:` stands a text, behind `toml:` a
declaration file; where one is absent, the text is empty and the declaration file is `version = 1`. Behind `cases:` stands a case
a line: what the program has to write, and the changes of the two files that lead to it, with ` | ` between them. A change is
`OLD ==> NEW`, where OLD stands once in both files together; `+ TEXT`, a last line of the declaration file; or else a text that is
put in the place of the `$` that stands in one of the files. In a case \\n stands for the end of a line, \\xHH for a byte, and
@65[x]@ for 65 times x, with each # in it the number of the turn. A line that begins with # is a comment.
"""
import pathlib
import re
import subprocess
import sys
import tempfile
from concurrent.futures import ThreadPoolExecutor

TOP = pathlib.Path(__file__).resolve().parent.parent
PROGRAM = TOP / "kani-mir"


def unfolded(text):
    """A text of a case without its short forms."""
    text = re.sub(r"@(\d+)\[(.*?)\]@", lambda m: "".join(m[2].replace("#", str(n)) for n in range(int(m[1]))), text)
    text = text.replace("\\n", "\n")
    return re.sub(r"\\x([0-9a-f]{2})", lambda m: chr(int(m[1], 16)), text)


def sections(path):
    """The name, the two files and the cases of each section."""
    name, parts, part = None, {}, None
    for line in path.read_text(encoding="latin-1").split("\n"):
        if re.fullmatch(r"\[[a-z].*\]", line) and (name is None or part == "cases"):
            if name:
                yield name, parts
            name, parts, part = line[1:-1], {"mir": [], "toml": [], "cases": []}, None
        elif line in ("mir:", "toml:", "cases:"):
            part = line[:-1]
        elif part and not (part == "cases" and (not line or line.startswith("#"))):
            parts[part].append(line)
    if name:
        yield name, parts


def replaced(files, old, new):
    """The files with a text in the place of another one, which stands in them once."""
    if sum(file.count(old) for file in files.values()) != 1:
        raise ValueError(f"{old!r} does not stand once in the two files")
    return {name: file.replace(old, new) for name, file in files.items()}


def changed(files, change):
    old, arrow, new = change.partition(" ==>")
    if arrow:
        return replaced(files, unfolded(old), unfolded(new.removeprefix(" ")))
    if change.startswith("+ "):
        return {**files, "toml": files["toml"] + unfolded(change[2:]) + "\n"}
    return replaced(files, "$", unfolded(change))


def written(files):
    """What the program writes, and its status."""
    with tempfile.TemporaryDirectory() as folder:
        for name, file in files.items():
            (pathlib.Path(folder) / f"a.{name}").write_bytes(file.encode("latin-1"))
        words = [PROGRAM, "verify", "a.mir", "a.toml"]
        done = subprocess.run(words, cwd=folder, stdout=subprocess.PIPE, timeout=600)
        return done.stdout.decode("latin-1"), done.returncode


def trouble(base, line):
    wanted, *changes = line.split(" | ")
    files = dict(base)
    for change in changes:
        files = changed(files, change)
    wanted = unfolded(wanted) + "\n"
    status = 2 if wanted.startswith("error: ") else 0
    out, ended = written(files)
    if (out, ended) != (wanted, status):
        return f"wrote {out[:400]!r} with status {ended}, wanted {wanted!r} with status {status}"
    return None


def cases():
    for path in sorted((TOP / "tests" / "refusals").glob("*.txt")):
        for name, parts in sections(path):
            base = {
                "mir": "".join(line + "\n" for line in parts["mir"]),
                "toml": "".join(line + "\n" for line in parts["toml"] or ["version = 1"]),
            }
            for line in parts["cases"]:
                yield f"{path.name} [{name}] {line[:200]}", base, line


def told(case):
    """What is wrong with a case, None where nothing is."""
    name, base, line = case
    try:
        problem = trouble(base, line)
    except ValueError as fault:
        problem = str(fault)
    return problem and f"{name}\n    {problem}"


def main():
    subprocess.run([PROGRAM], stdout=subprocess.DEVNULL)  # so that it is built before several ask for it
    with ThreadPoolExecutor(max_workers=4) as pool:
        problems = list(pool.map(told, cases()))
    failed = [problem for problem in problems if problem]
    for problem in failed:
        print(problem)
    print(f"refusals: {len(problems) - len(failed)} passed, {len(failed)} failed")
    return 1 if failed or not problems else 0


if __name__ == "__main__":
    sys.exit(main())
