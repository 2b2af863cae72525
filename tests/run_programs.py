#!/usr/bin/env python3
"""Makes small harnesses on integers, `bool` and `char`, verifies each with the built program, and compares the report with what
running the harness here on all its choices gives: which checks fail, and that the printed choices lead to just that check with
just that step.

`run_programs.py [COUNT [SEED]]`: how many harnesses, 60 where nothing is said, and from which seed.
"""
import itertools
import pathlib
import random
import re
import subprocess
import sys
import tempfile

TOP = pathlib.Path(__file__).resolve().parent.parent
PROGRAM = TOP / "kani-mir"
WIDTHS = {"8": 8, "16": 16, "32": 32, "64": 64, "128": 128, "size": 64}
INTEGERS = [sign + name for sign in "iu" for name in WIDTHS]
DECLARATIONS = 'version = 1\n[[unit]]\nkind = "proof"\nfunction = "check"\n'


def width(ty):
    return {"bool": 1, "char": 32}.get(ty) or WIDTHS[ty[1:]]


def is_signed(ty):
    return ty[0] == "i"


def cut(ty, number):
    """The value of the type whose bits are those of the number, cut to the type's width."""
    number &= (1 << width(ty)) - 1
    return number - (1 << width(ty)) if is_signed(ty) and number >> (width(ty) - 1) else number


class Fault(Exception):
    pass


def divided(ty, a, b):
    if b == 0 or is_signed(ty) and b == -1 and a == -(1 << (width(ty) - 1)):
        raise Fault("division")
    quotient = abs(a) // abs(b)
    return quotient if (a < 0) == (b < 0) else -quotient


OPERATORS = {
    "Add": lambda ty, a, b: cut(ty, a + b),
    "Sub": lambda ty, a, b: cut(ty, a - b),
    "Mul": lambda ty, a, b: cut(ty, a * b),
    "Div": divided,
    "Rem": lambda ty, a, b: a - b * divided(ty, a, b),
    "BitXor": lambda ty, a, b: cut(ty, a ^ b),
    "BitAnd": lambda ty, a, b: cut(ty, a & b),
    "BitOr": lambda ty, a, b: cut(ty, a | b),
    "Shl": lambda ty, a, b: cut(ty, a << (b % width(ty))),
    "Shr": lambda ty, a, b: a >> (b % width(ty)),
}
COMPARISONS = {
    "Eq": lambda a, b: a == b,
    "Ne": lambda a, b: a != b,
    "Lt": lambda a, b: a < b,
    "Le": lambda a, b: a <= b,
    "Gt": lambda a, b: a > b,
    "Ge": lambda a, b: a >= b,
}


def constant_text(ty, value):
    if ty == "bool":
        return "const true" if value else "const false"
    if ty == "char":
        return f"const '\\u{{{value:x}}}'"
    return f"const {value}_{ty}"


class Harness:
    """A harness as its locals' types and its blocks: a block is a list of statements and a terminator, each a tuple."""

    def __init__(self, chance):
        self.chance = chance
        self.types = ["()"]
        self.blocks = []
        self.bits = 0

    def local(self, ty):
        self.types.append(ty)
        return len(self.types) - 1

    def some_type(self):
        return self.chance.choice([*INTEGERS, "u8", "i8", "u16", "i32", "u64", "i128", "bool", "char"])

    def some_value(self, ty):
        if ty == "bool":
            return self.chance.randrange(2)
        if ty == "char":
            return self.chance.choice([0, 65, 0xD7FF, 0xE000, 0x10FFFF, self.chance.randrange(0xD800)])
        top = 1 << width(ty)
        return cut(ty, self.chance.choice([0, 1, 2, 3, 7, top - 1, top >> 1, (top >> 1) - 1, self.chance.randrange(top)]))

    def operand(self, ty):
        """A local of the type or a constant: ('copy', LOCAL) or ('const', TYPE, VALUE)."""
        there = [at for at, it in enumerate(self.types) if it == ty and at in self.set]
        if there and self.chance.random() < 0.8:
            return ("copy", self.chance.choice(there))
        return ("const", ty, self.some_value(ty))

    def integer(self):
        there = [self.types[at] for at in self.set if self.types[at] in INTEGERS]
        return self.chance.choice(there) if there and self.chance.random() < 0.8 else self.chance.choice(INTEGERS)

    def statement(self):
        kind = self.chance.random()
        if kind < 0.5:
            ty = self.integer()
            name = self.chance.choice([*OPERATORS])
            other = self.integer() if name in ("Shl", "Shr") else ty
            value, result = ("binary", name, ty, self.operand(ty), self.operand(other)), ty
        elif kind < 0.7:
            ty = self.integer()
            value, result = ("compare", self.chance.choice([*COMPARISONS]), self.operand(ty), self.operand(ty)), "bool"
        elif kind < 0.8:
            ty = self.chance.choice([self.integer(), "bool"])
            value, result = ("not", ty, self.operand(ty)), ty
        elif kind < 0.85:
            ty = self.chance.choice([it for it in INTEGERS if is_signed(it)])
            value, result = ("neg", ty, self.operand(ty)), ty
        else:
            source = self.chance.choice([self.integer(), self.integer(), "bool", "char"])
            result = "char" if source == "u8" and self.chance.random() < 0.3 else self.chance.choice(INTEGERS)
            value = ("cast", source, result, self.operand(source))
        place = self.local(result)
        self.set.add(place)
        return (place, value)

    def make(self):
        self.set = set()
        count = self.chance.randrange(2, 5)
        for number in range(count):
            ty = self.chance.choice(["u8", "i8", "bool", "bool"])
            if self.bits + width(ty) > 11:
                ty = "bool"
            self.bits += width(ty)
            place = self.local(ty)
            self.blocks.append(([], ("any", place, ty, number + 1)))
            self.set.add(place)
        total = count + self.chance.randrange(2, 6)
        for number in range(count, total):
            statements = [self.statement() for _ in range(self.chance.randrange(1, 6))]
            self.blocks.append((statements, self.terminator(number, total)))
        self.blocks.append(([], ("return",)))
        return self

    def terminator(self, number, total):
        # (what a later block reads may not be set where a jump passes it by, which is a fault of its own)
        after = self.chance.randrange(number + 1, total + 1) if self.chance.random() < 0.2 else number + 1
        kind = self.chance.random()
        if kind < 0.35:
            return ("assert", self.operand("bool"), after)
        if kind < 0.5:
            return ("assume", self.operand("bool"), after)
        if kind < 0.7:
            return ("check", self.operand("bool"), self.chance.randrange(2), after)
        if kind < 0.9:
            ty = self.chance.choice([self.integer(), "bool"])
            arms = {}
            for _ in range(self.chance.randrange(1, 3)):
                arms[self.some_value(ty)] = self.chance.randrange(number + 1, total + 1)
            return ("switch", ty, self.operand(ty), arms, after)
        if kind < 0.93:
            return ("panic",)
        return ("goto", after)

    def text(self):
        unit, never = len(self.types), len(self.types) + 1
        lines = ["fn check() -> () {"]
        lines += [f"    let mut _{at}: {ty};" for at, ty in enumerate(self.types) if at]
        lines += [f"    let _{unit}: ();", f"    let _{never}: !;"]
        for number, (statements, last) in enumerate(self.blocks):
            lines.append(f"    bb{number}: {{")
            lines += [f"        _{place} = {value_text(value)};" for place, value in statements]
            lines += [f"        {terminator_text(last, unit, never)}", "    }"]
        return "\n".join([*lines, "}", ""])

    def run(self, choices):
        """The fault, its site and its step where the run of these choices ends in one, else None; and the choices that it took."""
        held, number, taken, steps = {}, 0, 0, 0

        def value(operand):
            if operand[0] == "const":
                return operand[2]
            if operand[1] not in held:
                raise Fault("uninit")
            return held[operand[1]]

        while True:
            statements, last = self.blocks[number]
            for index, (place, made) in enumerate(statements):
                steps += 1
                try:
                    held[place] = value_of(made, value)
                except Fault as fault:
                    return (number, index, str(fault), steps), taken
            steps += 1
            try:
                number, done, taken = self.step(last, held, value, choices, taken, number)
            except Fault as fault:
                return (number, len(statements), str(fault), steps), taken
            if done:
                return None, taken

    def step(self, last, held, value, choices, taken, number):
        if last[0] == "return":
            return number, True, taken
        if last[0] == "any":
            held[last[1]] = choices[taken]
            return last[3], False, taken + 1
        if last[0] == "goto":
            return last[1], False, taken
        if last[0] == "panic":
            raise Fault("panic")
        if last[0] == "assume":
            return (last[2], False, taken) if value(last[1]) else (number, True, taken)
        if last[0] == "assert":
            if not value(last[1]):
                raise Fault("assertion")
            return last[2], False, taken
        if last[0] == "check":
            if value(last[1]) != last[2]:
                raise Fault("panic")
            return last[3], False, taken
        return last[3].get(value(last[2]), last[4]), False, taken

    def kinds(self):
        return [last[2] for _, last in self.blocks if last[0] == "any"]

    def all_choices(self):
        values = [range(2) if ty == "bool" else [cut(ty, it) for it in range(1 << width(ty))] for ty in self.kinds()]
        return itertools.product(*values)


def value_of(made, value):
    kind = made[0]
    if kind == "binary":
        return OPERATORS[made[1]](made[2], value(made[3]), value(made[4]))
    if kind == "compare":
        return int(COMPARISONS[made[1]](value(made[2]), value(made[3])))
    if kind == "not":
        return 1 - value(made[2]) if made[1] == "bool" else cut(made[1], ~value(made[2]))
    if kind == "neg":
        return cut(made[1], -value(made[2]))
    return cut(made[2], value(made[3]))


def operand_text(operand):
    return f"copy _{operand[1]}" if operand[0] == "copy" else constant_text(operand[1], operand[2])


def value_text(made):
    kind = made[0]
    if kind == "binary":
        return f"{made[1]}({operand_text(made[3])}, {operand_text(made[4])})"
    if kind == "compare":
        return f"{made[1]}({operand_text(made[2])}, {operand_text(made[3])})"
    if kind in ("not", "neg"):
        return f"{kind.title()}({operand_text(made[2])})"
    return f"{operand_text(made[3])} as {made[2]} (IntToInt)"


def terminator_text(last, unit, never):
    if last[0] == "return":
        return "return;"
    if last[0] == "any":
        return f"_{last[1]} = kani::any::<{last[2]}>() -> bb{last[3]};"
    if last[0] == "goto":
        return f"goto -> bb{last[1]};"
    if last[0] == "panic":
        return f'_{never} = core::panicking::panic(const "told") -> unwind continue;'
    if last[0] == "assume":
        return f"_{unit} = kani::assume({operand_text(last[1])}) -> bb{last[2]};"
    if last[0] == "assert":
        return f'_{unit} = kani::assert({operand_text(last[1])}, const "told") -> bb{last[2]};'
    if last[0] == "check":
        sign = "" if last[2] else "!"
        return f'assert({sign}{operand_text(last[1])}, "told") -> bb{last[3]};'
    bits = [f"{number & ((1 << width(last[1])) - 1)}: bb{target}" for number, target in last[3].items()]
    return f"switchInt({operand_text(last[2])}) -> [{', '.join(bits)}, otherwise: bb{last[4]}];"


LINE = re.compile(r"Check (\S+) at check bb(\d+)\[(\d+)\]: FAILURE \"[^\"]*\"\n  choices: (.*)\n  steps: (\d+)\n")


def wrong(harness, told, status):
    """What is wrong with a report, or None."""
    faults = {fault[:3] for fault, _ in map(harness.run, harness.all_choices()) if fault}
    failures = {(int(m[2]), int(m[3]), m[1]): (m[4], int(m[5])) for m in LINE.finditer(told)}
    if failures.keys() != faults:
        return f"fails in {sorted(failures)}, wanted {sorted(faults)}"
    for site, (choices, steps) in failures.items():
        words = [] if choices == "none" else choices.split(" ")
        values = [{"false": 0, "true": 1}.get(word) if word in ("false", "true") else int(word) for word in words]
        given = values + [0] * (len(harness.kinds()) - len(values))
        fault, taken = harness.run(given)
        if fault != (*site, steps) or taken != len(values):
            return f"of {site} it tells {choices} and {steps}, which gives {fault} behind {taken} choices"
    if status != bool(faults) or f"VERIFICATION:- {'FAILED' if faults else 'SUCCESSFUL'}\n" not in told:
        return f"status {status}"
    return None


def long_harness(statements):
    """A sum of so many terms that is compared with a product, and fails for the odd numbers alone."""
    lines = ["fn check() -> () {", "    let mut _1: u8;", "    let mut _2: u8;", "    let mut _3: bool;", "    bb0: {", "        _1 = kani::any::<u8>() -> bb1;", "    }"]
    lines += ["    bb1: {", "        _2 = const 0_u8;", *["        _2 = Add(copy _2, copy _1);"] * statements]
    lines += ["        _3 = Eq(copy _2, const 0_u8);", '        _0 = kani::assert(move _3, const "even") -> bb2;', "    }", "    bb2: {", "        return;", "    }", "}", ""]
    return "\n".join(lines)


def long_is_wrong(place):
    """A harness of 40,000 statements, whose sum of 39,936 + 128 equal numbers is 0 for the even ones."""
    (place / "a.mir").write_text(long_harness(40_064))
    done = subprocess.run([PROGRAM, "verify", "a.mir", "a.toml"], cwd=place, stdout=subprocess.PIPE, timeout=600)
    found = LINE.search(done.stdout.decode())
    if not found or found[1] != "assertion" or int(found[4]) % 2 == 0 or int(found[5]) != 40_068 or done.returncode != 1:
        return done.stdout.decode()
    return None


def main():
    count, seed = (int(word) for word in [*sys.argv[1:], *["60", "1"][len(sys.argv) - 1 :]])
    failed = 0
    with tempfile.TemporaryDirectory() as folder:
        place = pathlib.Path(folder)
        (place / "a.toml").write_text(DECLARATIONS)
        why = long_is_wrong(place)
        if why:
            failed += 1
            print(f"the long harness: {why}")
        for number in range(count):
            harness = Harness(random.Random(f"{seed} {number}")).make()
            (place / "a.mir").write_text(harness.text())
            done = subprocess.run([PROGRAM, "verify", "a.mir", "a.toml"], cwd=place, stdout=subprocess.PIPE, timeout=600)
            why = wrong(harness, done.stdout.decode(), done.returncode)
            if why:
                failed += 1
                print(f"harness {number} of seed {seed}: {why}\n{harness.text()}{done.stdout.decode()}")
    print(f"harnesses: {count + 1 - failed} passed, {failed} failed")
    return 1 if failed else 0


if __name__ == "__main__":
    sys.exit(main())
