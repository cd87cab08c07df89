#!/usr/bin/env python3
"""The results of every opcode and condition at the edges of a word, by Python's own integers.

Prints crates/opcodes/src/tests/table.rt. With --check it compares that file with what it would print.
"""
import pathlib
import sys

VALUES = [0, 1, -1, 31, 32, 33, 2147483647, -2147483648]
TABLE = pathlib.Path(__file__).resolve().parent.parent / "crates/opcodes/src/tests/table.rt"


def unsigned(x):
    return x % 2**32


BINARY = {
    "ADD": lambda a, b: a + b,
    "SUB": lambda a, b: a - b,
    "AND": lambda a, b: a & b,
    "OR": lambda a, b: a | b,
    "XOR": lambda a, b: a ^ b,
    "SHL": lambda a, b: unsigned(a) << unsigned(b) if unsigned(b) < 32 else 0,
    "SHR": lambda a, b: unsigned(a) >> unsigned(b) if unsigned(b) < 32 else 0,
    "SHRA": lambda a, b: a >> min(unsigned(b), 40),
    "MIN": min,
    "MAX": max,
    "MINL": lambda a, b: min(unsigned(a), unsigned(b)),
    "MAXL": lambda a, b: max(unsigned(a), unsigned(b)),
}
UNARY = {"ABS": abs, "MOVE": lambda a: a}
CONDITIONS = {
    "NEVER": lambda a, b: False,
    "EQUAL": lambda a, b: a == b,
    "LESS": lambda a, b: a < b,
    "LESS_EQUAL": lambda a, b: a <= b,
    "LOGICAL_LESS": lambda a, b: unsigned(a) < unsigned(b),
    "LOGICAL_LESS_EQUAL": lambda a, b: unsigned(a) <= unsigned(b),
    "ALWAYS": lambda a, b: True,
    "NOT_EQUAL": lambda a, b: a != b,
    "GREATER_EQUAL": lambda a, b: a >= b,
    "GREATER": lambda a, b: a > b,
    "LOGICAL_GREATER_EQUAL": lambda a, b: unsigned(a) >= unsigned(b),
    "LOGICAL_GREATER": lambda a, b: unsigned(a) > unsigned(b),
}


def grid(name, kind, cell):
    rows = [f"    [{', '.join(cell(a, b) for b in VALUES)}],\n" for a in VALUES]
    return f"\npub const {name}: [[{kind}; 8]; 8] = [\n{''.join(rows)}];\n"


def table():
    out = "// What each opcode and condition gives at VALUES, by tests/opcode_table.py: a row for each first source.\n"
    out += f"pub const VALUES: [u32; 8] = [{', '.join(str(unsigned(v)) for v in VALUES)}];\n"
    for name, f in UNARY.items():
        out += f"\npub const {name}: [u32; 8] = [{', '.join(str(unsigned(f(a))) for a in VALUES)}];\n"
    for name, f in BINARY.items():
        out += grid(name, "u32", lambda a, b: str(unsigned(f(a, b))))
    out += "\nconst T: bool = true;\nconst F: bool = false;\n"
    for name, f in CONDITIONS.items():
        out += grid(name, "bool", lambda a, b: "T" if f(a, b) else "F")
    return out


if __name__ == "__main__":
    if "--check" in sys.argv:
        words = lambda text: text.replace(",", " ").replace("[", " ").replace("]", " ").split()
        if words(TABLE.read_text()) != words(table()):
            sys.exit("crates/opcodes/src/tests/table.rt is not what tests/opcode_table.py prints")
    else:
        sys.stdout.write(table())
