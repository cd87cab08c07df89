#!/usr/bin/env python3
"""Runs blockcheck on each file of examples/ and on inputs at the edges of the formats, and compares what it writes.

Usage: examples.py BLOCKCHECK. Ends with status 1 at the first difference.
"""
import pathlib
import subprocess
import sys

ONE = "slot 0 IMC\ninteger 1 1\nload 2 4\ncompare 1 2\n"


def said(program, text):
    run = subprocess.run([program], input=text, capture_output=True, timeout=60)
    if run.returncode != 0:
        return f"status {run.returncode}: {run.stderr!r}"
    return run.stdout.decode()


def block(*lines):
    return ONE + "program\nblock 0\n" + "".join(f"{line}\n" for line in lines)


def edges():
    kept = "block 0 kept\n"
    move = "0:0 r1 = MOVE.W({})"
    yield "ten digits are read", block("9999999999:0 r1 = MOVE.W(1)"), "refused 5\n"
    yield "eleven are not", block("10000000000:0 r1 = MOVE.W(1)"), "refused 1\n"
    yield "ten digits of a register", block("0:0 r9999999999 = MOVE.W(1)"), "refused 2\n"
    yield "cycle 1023", block("1023:0 r1 = MOVE.W(1)"), kept
    yield "cycle 1024", block("1024:0 r1 = MOVE.W(1)"), "refused 5\n"
    yield "r31", block("0:0 r31 = MOVE.W(rr31)"), kept
    yield "r32", block("0:0 r31 = MOVE.W(rr32)"), "refused 2\n"
    yield "p32", block("0:0 r31 = MOVE.W(1) if p32"), "refused 2\n"
    yield "least literal", block(move.format(-2147483648)), kept
    yield "below it", block(move.format(-2147483649)), "refused 5\n"
    yield "greatest literal", block(move.format(2147483647)), kept
    yield "above it", block(move.format(2147483648)), "refused 5\n"
    yield "a wrong operand before a literal too large", block("0:0 r1 = L(99999999999)"), "refused 1\n"
    yield "the same with ten digits", block("0:0 r1 = L(9999999999)"), "refused 4\n"
    yield "minus 0", block(move.format("-0")), "refused 1\n"
    yield "plus", block(move.format("+5")), "refused 1\n"
    yield "a leading zero", block(move.format("07")), "refused 1\n"
    yield "a leading zero of a register", block("0:0 r01 = MOVE.W(1)"), "refused 1\n"
    yield "no operand", block("0:0 r1 = MOVE.W()"), "refused 1\n"
    yield "three operands", block("0:0 r1 = ADD.W(r1, r2, r3)"), "refused 1\n"
    yield "three destinations", block("0:0 p2, p3, p4 = CMPP.W.=.UN.UN(r1, r2)"), "refused 1\n"
    yield "no such opcode", block("0:0 r1 = MPY.W(r1, r2)"), "refused 1\n"
    yield "no such action", block("0:0 p2, p3 = CMPP.W.=.UN.OD(r1, r2)"), "refused 1\n"
    yield "L with .W", block("0:0 r1 = L.W(r1)"), "refused 1\n"
    yield "a general guard", block("0:0 r1 = MOVE.W(1) if r2"), "refused 1\n"
    yield "if p1", block("0:0 r1 = MOVE.W(1) if p1"), "refused 1\n"
    yield "if rp1", block("0:0 r1 = MOVE.W(1) if rp1"), kept
    yield "two spaces", block("0:0  r1 = MOVE.W(1)"), "refused 1\n"
    yield "a space at the end", block("0:0 r1 = MOVE.W(1) "), "refused 1\n"
    yield "a carriage return", block("0:0 r1 = MOVE.W(1)\r"), "refused 1\n"
    yield "an empty line", block("0:0 r1 = MOVE.W(1)", ""), "refused 1\n"
    yield "no destination", block("0:0 MOVE.W(1)"), "refused 4\n"
    yield "a store with one", block("0:0 r1 = S(r1, r2)"), "refused 4\n"
    yield "a literal stored", block("0:0 S(r1, 2)"), "refused 4\n"
    yield "p0 twice", block("0:0 p0, p0 = CMPP.W.=.UN.UN(r1, r2)"), kept
    yield "a predicate as a source", block("0:0 r1 = MOVE.W(p2)"), "refused 4\n"
    yield "64 operations", block(*(f"{i}:0 r1 = MOVE.W(1)" for i in range(64))), kept
    yield "65 operations", block(*(f"{i}:0 r1 = MOVE.W(1)" for i in range(65))), "refused 3\n"
    yield "before a block", ONE + "program\n0:0 r1 = MOVE.W(1)\n", "refused 1\n"
    yield "an exit before a block", ONE + "program\nexit halt\n", "refused 1\n"
    yield "behind the exit", block("exit halt", "0:0 r1 = MOVE.W(1)"), "refused 1\n"
    yield "block 16", ONE + "program\nblock 16\n", "refused 2\n"
    yield "the same block again", ONE + "program\nblock 3\nblock 3\n", "refused 1\n"
    yield "blocks descending", ONE + "program\nblock 3\nblock 2\n", "refused 1\n"
    yield "a block far beyond", ONE + "program\nblock 9999999999\n", "refused 2\n"
    yield "exit to block 15", block("0:0 r1 = MOVE.W(1)", "exit goto 15"), kept
    yield "exit to block 16", block("exit goto 16"), "refused 2\n"
    yield "exit by a general register", block("exit if r2 goto 3"), "refused 1\n"
    yield "exit by p32", block("exit if p32 goto 3"), "refused 2\n"
    yield "exit by p1", block("0:0 r1 = MOVE.W(1)", "exit if p1 goto 3"), kept
    yield "next in block 15", ONE + "program\nblock 15\nexit next\n", "refused 2\n"
    yield "loop in block 15", ONE + "program\nblock 15\nexit loop 0\n", "refused 2\n"
    yield "goto in block 15", ONE + "program\nblock 15\n0:0 r1 = MOVE.W(1)\nexit goto 0\n", "block 15 kept\n"
    yield "no newline at the end", block("0:0 r1 = MOVE.W(1)")[:-1], kept
    yield "an empty program", ONE + "program\n", ""
    yield "no newline behind program", ONE + "program", ""
    yield "class letters in another order", ONE.replace("IMC", "ICM") + "program\n", "refused 1\n"
    yield "no class letter", ONE.replace(" IMC", " ") + "program\n", "refused 1\n"
    yield "slot 1 first", ONE.replace("slot 0", "slot 1") + "program\n", "refused 1\n"
    eight = "".join(f"slot {i} IMC\n" for i in range(8))
    rest = ONE.split("\n", 1)[1]
    yield "eight slots", eight + rest + "program\nblock 0\n0:7 r1 = MOVE.W(1)\n", kept
    yield "nine slots", eight + "slot 8 I\n" + rest + "program\n", "refused 2\n"
    yield "no slot", rest + "program\n", "refused 1\n"
    yield "latency 31", ONE.replace("2 4", "2 31") + "program\n", ""
    yield "latency 32", ONE.replace("2 4", "2 32") + "program\n", "refused 5\n"
    yield "latency 0", ONE.replace("2 4", "0 4") + "program\n", "refused 5\n"
    yield "latency 256 above a byte", ONE.replace("2 4", "257 258") + "program\n", "refused 5\n"
    yield "load before integer", "slot 0 I\nload 1 1\nprogram\n", "refused 1\n"
    yield "a line behind compare", ONE + "compare 1 2\nprogram\n", "refused 1\n"
    yield "an empty input", "", "refused 1\n"
    yield "65,535 bytes without program", "x" * 65535, "refused 1\n"
    yield "65,536 bytes without program", "x" * 65536, "refused 5\n"
    yield "a description of 65,535 bytes", "x" * 65534 + "\nprogram\n", "refused 1\n"
    yield "a description of 65,536 bytes", "x" * 65535 + "\nprogram\n", "refused 5\n"
    head = "block 0\n0:0 r1 = MOVE.W(1)\n"
    yield "a program of 65,535 bytes", ONE + "program\n" + head + "x" * (65535 - len(head)), "refused 1\n"
    yield "a program of 65,536 bytes", ONE + "program\n" + head + "x" * (65536 - len(head)), "refused 5\n"
    yield "much input", ONE + "program\n" + "x" * 1000000, "refused 5\n"
    yield "much input before program", "x" * 1000000 + "\nprogram\n", "refused 5\n"


def main():
    program = pathlib.Path(sys.argv[1]).resolve()
    count = 0
    folder = pathlib.Path(__file__).resolve().parent.parent / "examples"
    cases = [(f.name, f.read_bytes(), f.with_suffix(".out").read_text()) for f in sorted(folder.glob("*.txt"))]
    cases += [(name, text.encode(), wanted) for name, text, wanted in edges()]
    cases.append(("bytes that are no text", bytes(range(256)) * 4, "refused 1\n"))
    for name, text, wanted in cases:
        got = said(program, text)
        if got != wanted:
            print(f"{name}: wanted {wanted!r}, got {got!r}")
            sys.exit(1)
        count += 1
    print(f"{program.name}: {count} inputs answered as expected")


main()
