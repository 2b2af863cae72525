#!/usr/bin/env python3
"""Times `verify` on straight-line questions about words of 8 to 128 bits, beside boolector and z3 on the same questions in SMT-LIB.

    questions.py                the table: processor time of each program, the best of three runs (one where that takes a second), and the ratio to the faster peer
    questions.py FOLDER         writes each question as NAME.mir and NAME.smt2, and a.toml, into the folder

A question is built once, and written twice: as a harness of MIR, and as a script whose answer is `sat` where some check can fail.
Build the program first: `./kani-mir`. The peers are Debian's packages boolector and z3.
"""
import math
import os
import pathlib
import shutil
import subprocess
import sys
import tempfile

TOP = pathlib.Path(__file__).resolve().parent.parent
PROGRAM = TOP / "crates" / "kani_mir" / "out" / "kani_mir"
UNIT = 'version = 1\n[[unit]]\nkind = "proof"\nfunction = "check"\n'
RUNS = 3
LIMIT = 20
ARITHMETIC = {"Add": "bvadd", "Sub": "bvsub", "Mul": "bvmul", "BitXor": "bvxor", "BitAnd": "bvand", "BitOr": "bvor"}
ORDER = {"Lt": "lt", "Le": "le", "Gt": "gt", "Ge": "ge"}


def width(ty):
    return 1 if ty == "bool" else int(ty[1:])


class Question:
    """A harness under construction. A value is a pair of the MIR operand and the SMT-LIB term, with its type."""

    def __init__(self):
        self.types, self.blocks, self.lines, self.script, self.failures, self.path = [], [], [], [], [], []

    def local(self, ty):
        self.types.append(ty)
        return len(self.types)

    def close(self, terminator):
        """Ends the block by a terminator that goes on at the next one."""
        self.blocks.append([*self.lines, terminator.format(len(self.blocks) + 1)])
        self.lines = []

    def any(self, ty):
        at = self.local(ty)
        self.close(f"_{at} = kani::any::<{ty}>() -> bb{{}};")
        self.script.append(f"(declare-fun v{at} () (_ BitVec {width(ty)}))")
        return f"copy _{at}", f"v{at}", ty

    def number(self, ty, value):
        bits = value % (1 << width(ty))
        return f"const {value}_{ty}", f"(_ bv{bits} {width(ty)})", ty

    def put(self, ty, rvalue, term):
        at = self.local(ty)
        self.lines.append(f"_{at} = {rvalue};")
        self.script.append(f"(declare-fun v{at} () (_ BitVec {width(ty)}))\n(assert (= v{at} {term}))")
        return f"copy _{at}", f"v{at}", ty

    def do(self, name, a, b):
        ty = a[2]
        if name in ARITHMETIC:
            return self.put(ty, f"{name}({a[0]}, {b[0]})", f"({ARITHMETIC[name]} {a[1]} {b[1]})")
        if name in ("Shl", "Shr"):
            call = "bvshl" if name == "Shl" else "bvashr" if ty[0] == "i" else "bvlshr"
            by = f"(bvurem {b[1]} (_ bv{width(ty)} {width(ty)}))"
            return self.put(ty, f"{name}({a[0]}, {b[0]})", f"({call} {a[1]} {by})")
        if name in ("Div", "Rem"):
            self.fault(self.unlawful(a, b))
            call = {"Div": "bvudiv", "Rem": "bvurem"} if ty[0] == "u" else {"Div": "bvsdiv", "Rem": "bvsrem"}
            return self.put(ty, f"{name}({a[0]}, {b[0]})", f"({call[name]} {a[1]} {b[1]})")
        if name in ORDER:
            sign = "s" if ty[0] == "i" else "u"
            test = f"(bv{sign}{ORDER[name]} {a[1]} {b[1]})"
        else:
            test = f"(= {a[1]} {b[1]})" if name == "Eq" else f"(not (= {a[1]} {b[1]}))"
        return self.put("bool", f"{name}({a[0]}, {b[0]})", f"(ite {test} #b1 #b0)")

    def unlawful(self, a, b):
        zero = f"(= {b[1]} (_ bv0 {width(a[2])}))"
        if a[2][0] == "u":
            return zero
        least, one = 1 << (width(a[2]) - 1), (1 << width(a[2])) - 1
        return f"(or {zero} (and (= {a[1]} (_ bv{least} {width(a[2])})) (= {b[1]} (_ bv{one} {width(a[2])}))))"

    def neg(self, a):
        if a[2][0] == "u":
            return self.do("Sub", self.number(a[2], 0), a)
        return self.put(a[2], f"Neg({a[0]})", f"(bvneg {a[1]})")

    def turn(self, a):
        return self.put(a[2], f"Not({a[0]})", f"(bvnot {a[1]})")

    def cast(self, a, ty):
        more = width(ty) - width(a[2])
        if more < 0:
            term = f"((_ extract {width(ty) - 1} 0) {a[1]})"
        else:
            term = f"((_ {'sign' if a[2][0] == 'i' else 'zero'}_extend {more}) {a[1]})"
        return self.put(ty, f"{a[0]} as {ty} (IntToInt)", term)

    def fault(self, test):
        before = " ".join(self.path)
        self.failures.append(f"(and {before} {test})" if before else test)
        self.path.append(f"(not {test})")

    def assume(self, a):
        self.close(f"_0 = kani::assume({a[0]}) -> bb{{}};")
        self.path.append(f"(= {a[1]} #b1)")

    def check(self, a):
        self.close(f'_0 = kani::assert({a[0]}, const "told") -> bb{{}};')
        self.fault(f"(= {a[1]} #b0)")

    def mir(self):
        self.close("return;")
        out = ["fn check() -> () {", *(f"    let mut _{at}: {ty};" for at, ty in enumerate(self.types, 1))]
        for number, lines in enumerate(self.blocks):
            out += [f"    bb{number}: {{", *(f"        {line}" for line in lines), "    }"]
        return "\n".join([*out, "}", ""])

    def smt(self):
        return "\n".join(["(set-logic QF_BV)", *self.script, f"(assert (or false {' '.join(self.failures)}))", "(check-sat)", ""])


def swapped(ty):
    q = Question()
    a, b = q.any(ty), q.any(ty)
    x = q.do("BitXor", a, b)
    y = q.do("BitXor", x, b)
    z = q.do("BitXor", x, y)
    q.check(q.do("BitAnd", q.do("Eq", y, a), q.do("Eq", z, b)))
    return q


def sums_commute(ty):
    q = Question()
    a, b, c = q.any(ty), q.any(ty), q.any(ty)
    one = q.do("Add", q.do("Add", a, b), c)
    other = q.do("Add", b, q.do("Add", c, a))
    q.check(q.do("Eq", one, other))
    return q


def midpoint(ty):
    q = Question()
    a, b = q.any(ty), q.any(ty)
    one = q.number(ty, 1)
    middle = q.do("Add", q.do("BitAnd", a, b), q.do("Shr", q.do("BitXor", a, b), one))
    low = q.do("Le", a, b)
    q.assume(low)
    q.check(q.do("Le", a, middle))
    q.check(q.do("Le", middle, b))
    return q


def midpoint_that_overflows(ty):
    q = Question()
    a, b = q.any(ty), q.any(ty)
    middle = q.do("Shr", q.do("Add", a, b), q.number(ty, 1))
    q.assume(q.do("Le", a, b))
    q.check(q.do("Le", a, middle))
    return q


def masks(ty, step):
    bits = width(ty)
    return sum(((1 << step) - 1) << at for at in range(0, bits, 2 * step))


def population(ty):
    """Bits counted by halves, and one after the other."""
    q = Question()
    a = q.any(ty)
    fast = a
    step = 1
    while step < width(ty):
        mask = q.number(ty, masks(ty, step))
        fast = q.do("Add", q.do("BitAnd", fast, mask), q.do("BitAnd", q.do("Shr", fast, q.number(ty, step)), mask))
        step *= 2
    slow = q.number(ty, 0)
    for at in range(width(ty)):
        slow = q.do("Add", slow, q.do("BitAnd", q.do("Shr", a, q.number(ty, at)), q.number(ty, 1)))
    q.check(q.do("Eq", fast, slow))
    return q


def bytes_swapped(ty):
    """The bytes turned twice are as they were, and turned by halves are as turned one by one."""
    q = Question()
    a = q.any(ty)
    fast, step = a, 8
    while step < width(ty):
        mask = q.number(ty, masks(ty, step))
        high = q.do("Shl", q.do("BitAnd", fast, mask), q.number(ty, step))
        fast = q.do("BitOr", high, q.do("BitAnd", q.do("Shr", fast, q.number(ty, step)), mask))
        step *= 2
    slow = q.number(ty, 0)
    for at in range(0, width(ty), 8):
        byte = q.do("BitAnd", q.do("Shr", a, q.number(ty, at)), q.number(ty, 255))
        slow = q.do("BitOr", slow, q.do("Shl", byte, q.number(ty, width(ty) - 8 - at)))
    q.check(q.do("Eq", fast, slow))
    return q


def product_by_constant(ty):
    q = Question()
    a = q.any(ty)
    fast = q.do("Sub", q.do("Shl", a, q.number(ty, 4)), a)
    q.check(q.do("Eq", fast, q.do("Mul", a, q.number(ty, 15))))
    return q


def square_of_a_sum(ty):
    q = Question()
    a, b = q.any(ty), q.any(ty)
    both = q.do("Add", a, b)
    left = q.do("Mul", both, both)
    mixed = q.do("Mul", q.number(ty, 2), q.do("Mul", a, b))
    right = q.do("Add", q.do("Add", q.do("Mul", a, a), mixed), q.do("Mul", b, b))
    q.check(q.do("Eq", left, right))
    return q


def products_commute(ty):
    q = Question()
    a, b = q.any(ty), q.any(ty)
    q.check(q.do("Eq", q.do("Mul", q.do("Add", a, q.number(ty, 1)), b), q.do("Add", q.do("Mul", b, a), b)))
    return q


def quotient_and_remainder(ty):
    q = Question()
    a, b = q.any(ty), q.any(ty)
    q.assume(q.do("Ne", b, q.number(ty, 0)))
    if ty[0] == "i":
        q.assume(q.do("Ne", b, q.number(ty, -1)))
    back = q.do("Add", q.do("Mul", q.do("Div", a, b), b), q.do("Rem", a, b))
    q.check(q.do("Eq", back, a))
    return q


def quotient_by_power(ty):
    q = Question()
    a = q.any(ty)
    q.check(q.do("Eq", q.do("Div", a, q.number(ty, 8)), q.do("Shr", a, q.number(ty, 3))))
    return q


def divisor_may_be_zero(ty):
    q = Question()
    a, b = q.any(ty), q.any(ty)
    q.check(q.do("Le", q.do("Div", a, b), a))
    return q


def lesser(q, a, b):
    """The less and the greater of two, without a branch."""
    ty = a[2]
    mask = q.neg(q.cast(q.do("Lt", b, a), ty))
    change = q.do("BitAnd", q.do("BitXor", a, b), mask)
    return q.do("BitXor", a, change), q.do("BitXor", b, change)


def sorted_four(ty):
    q = Question()
    v = [q.any(ty) for _ in range(4)]
    for a, b in [(0, 1), (2, 3), (0, 2), (1, 3), (1, 2)]:
        v[a], v[b] = lesser(q, v[a], v[b])
    for a in range(3):
        q.check(q.do("Le", v[a], v[a + 1]))
    return q


def sorted_three_by_two(ty):
    """A network that lacks a step."""
    q = Question()
    v = [q.any(ty) for _ in range(3)]
    for a, b in [(0, 1), (1, 2)]:
        v[a], v[b] = lesser(q, v[a], v[b])
    q.check(q.do("Le", v[0], v[1]))
    return q


def saturating_sum(ty):
    q = Question()
    a, b = q.any(ty), q.any(ty)
    sum_ = q.do("Add", a, b)
    over = q.neg(q.cast(q.do("Lt", sum_, a), ty))
    held = q.do("BitOr", sum_, over)
    q.check(q.do("BitAnd", q.do("Ge", held, a), q.do("Ge", held, b)))
    return q


def shifts_are_injective(ty):
    q = Question()
    a, b = q.any(ty), q.any(ty)
    q.assume(q.do("Ne", a, b))
    by = q.number(ty, width(ty) // 2 - 1)
    one = q.do("BitXor", a, q.do("Shr", a, by))
    other = q.do("BitXor", b, q.do("Shr", b, by))
    q.check(q.do("Ne", one, other))
    return q


def factors(ty, product):
    q = Question()
    a, b = q.any(ty), q.any(ty)
    top = q.number(ty, 1 << (width(ty) // 2))
    for x in (a, b):
        q.assume(q.do("Lt", x, top))
        q.assume(q.do("Gt", x, q.number(ty, 1)))
    q.check(q.do("Ne", q.do("Mul", a, b), q.number(ty, product)))
    return q


def absolute_value(ty):
    """Not at least 0 at the least value."""
    q = Question()
    a = q.any(ty)
    mask = q.do("Shr", a, q.number(ty, width(ty) - 1))
    held = q.do("Sub", q.do("BitXor", a, mask), mask)
    q.check(q.do("Ge", held, q.number(ty, 0)))
    return q


def sign_of_a_sum(ty):
    q = Question()
    a, b = q.any(ty), q.any(ty)
    zero = q.number(ty, 0)
    q.assume(q.do("Ge", a, zero))
    q.assume(q.do("Lt", b, zero))
    sum_ = q.do("Add", a, b)
    q.check(q.do("Lt", sum_, a))
    q.check(q.do("Ge", sum_, b))
    return q


def casts_and_back(ty, wide):
    q = Question()
    a = q.any(ty)
    q.check(q.do("Eq", q.cast(q.cast(a, wide), ty), a))
    return q


QUESTIONS = (
    [(f"swap of {ty}", swapped, ty) for ty in ("u8", "u32", "u64", "u128")]
    + [(f"sums of {ty}", sums_commute, ty) for ty in ("u8", "u32", "u64", "u128")]
    + [(f"midpoint of {ty}", midpoint, ty) for ty in ("u8", "u32", "u64", "u128")]
    + [(f"midpoint that overflows of {ty}", midpoint_that_overflows, ty) for ty in ("u32", "u128")]
    + [(f"bits of {ty}", population, ty) for ty in ("u8", "u16", "u32")]
    + [(f"bytes of {ty}", bytes_swapped, ty) for ty in ("u32", "u64", "u128")]
    + [(f"product by 15 of {ty}", product_by_constant, ty) for ty in ("u32", "u64", "u128")]
    + [(f"square of a sum of {ty}", square_of_a_sum, ty) for ty in ("u8",)]
    + [(f"products of {ty}", products_commute, ty) for ty in ("u8", "i8")]
    + [(f"quotient and remainder of {ty}", quotient_and_remainder, ty) for ty in ("u8", "i8")]
    + [(f"quotient by 8 of {ty}", quotient_by_power, ty) for ty in ("u32", "u64")]
    + [(f"divisor may be 0 of {ty}", divisor_may_be_zero, ty) for ty in ("u32", "u64")]
    + [(f"four sorted of {ty}", sorted_four, ty) for ty in ("u8", "u16")]
    + [(f"three by two steps of {ty}", sorted_three_by_two, ty) for ty in ("u32", "u64")]
    + [(f"saturating sum of {ty}", saturating_sum, ty) for ty in ("u32", "u64", "u128")]
    + [(f"shifts of {ty}", shifts_are_injective, ty) for ty in ("u32", "u64")]
    + [("factors of 62,615,533 as u32", lambda ty: factors(ty, 62615533), "u32"), ("factors of 65,521 as u32", lambda ty: factors(ty, 65521), "u32")]
    + [(f"absolute value of {ty}", absolute_value, ty) for ty in ("i8", "i64", "i128")]
    + [(f"sign of a sum of {ty}", sign_of_a_sum, ty) for ty in ("i8", "i64", "i128")]
    + [(f"{ty} as {wide} and back", lambda ty, wide=wide: casts_and_back(ty, wide), ty) for ty, wide in (("i8", "i64"), ("u64", "u128"))]
)


def file_name(name):
    return name.replace(" ", "_").replace(",", "")


def measured(command, folder):
    """The processor time of one run, which is cut off behind LIMIT seconds, and what it wrote."""
    with tempfile.TemporaryFile() as out:
        child = subprocess.Popen(["timeout", str(LIMIT), *command], cwd=folder, stdout=out, stderr=subprocess.DEVNULL)
        _, status, usage = os.wait4(child.pid, 0)
        child.returncode = os.waitstatus_to_exitcode(status)
        out.seek(0)
        return usage.ru_utime + usage.ru_stime, out.read().decode()


def best(command, folder):
    runs = [measured(command, folder)]
    if runs[0][0] < 1:
        runs += [measured(command, folder) for _ in range(RUNS - 1)]
    return min(runs, key=lambda run: run[0])


def answer_of(text):
    for word, answer in (("VERIFICATION:- SUCCESSFUL", "unsat"), ("VERIFICATION:- FAILED", "sat"), ("unsat", "unsat"), ("sat", "sat")):
        if word in text:
            return answer
    return "?"


def write(folder):
    (folder / "a.toml").write_text(UNIT)
    for name, make, ty in QUESTIONS:
        q = make(ty)
        (folder / f"{file_name(name)}.mir").write_text(q.mir())
        (folder / f"{file_name(name)}.smt2").write_text(q.smt())


def main():
    if len(sys.argv) > 1:
        folder = pathlib.Path(sys.argv[1])
        folder.mkdir(parents=True, exist_ok=True)
        write(folder)
        return 0
    peers = [name for name in ("boolector", "z3") if shutil.which(name)]
    print("| Question | answer | `verify` |", *(f" {name} |" for name in peers), " ratio |", sep="")
    print("|---|---|---|", *("---|" for _ in peers), "---|", sep="")
    ratios, wrong = [], 0
    with tempfile.TemporaryDirectory() as place:
        folder = pathlib.Path(place)
        write(folder)
        for name, _, _ in QUESTIONS:
            time, told = best([PROGRAM, "verify", f"{file_name(name)}.mir", "a.toml"], folder)
            answer = answer_of(told)
            times = []
            for peer in peers:
                theirs, said = best([peer, f"{file_name(name)}.smt2"], folder)
                times.append(theirs)
                wrong += "?" not in (answer_of(said), answer) and answer_of(said) != answer
            ratio = max(time, 0.001) / max(min(times), 0.001) if times else float("nan")
            ratios.append(ratio)
            print(f"| {name} | {answer} | {time:.3f} s |", *(f" {it:.3f} s |" for it in times), f" {ratio:.2f} |", sep="", flush=True)
    mean = math.exp(sum(math.log(it) for it in ratios) / len(ratios))
    print(f"\nGeometric mean of the ratios: {mean:.2f}, greatest: {max(ratios):.2f}. Answers that differ: {wrong}.")
    return 1 if wrong else 0


if __name__ == "__main__":
    sys.exit(main())
