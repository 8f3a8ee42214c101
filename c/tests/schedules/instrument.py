#!/usr/bin/env python3
"""instrument.py FILE: prints the library's assembly for x86-64 with a call before each instruction that touches memory.

The call gets the address, and keeps all registers and flags; assembly.c says what it does. Left alone are accesses to the stack and to
constants, and those of an instruction without an operand in memory, such as a push, which never touch a shared word.
"""
import re
import sys

OPERAND = re.compile(r"-?[\w.$+]*\((%[^)]*|,%[^)]*)\)")
# Instructions whose operand is only an address, or where to go on.
NO_ACCESS = re.compile(r"(lea|nop|prefetch|call|jmp|data16)")
ATOMIC = re.compile(r"\t(lock|xchg)")


def touched(line):
    """The operand in memory that an instruction touches, if there is one that threads may share."""
    operand = OPERAND.search(line)
    if not line.startswith("\t") or line.startswith("\t.") or not operand:
        return None
    if NO_ACCESS.match(line.split()[0]) or "%rsp" in operand[0] or "%rip" in operand[0]:
        return None
    return operand[0]


def main():
    with open(sys.argv[1], encoding="utf-8") as file:
        for line in file:
            operand = touched(line)
            if operand:
                # Below the stack are 128 bytes that the code may use.
                print("\tleaq -128(%rsp), %rsp\n\tpushq %rdi")
                print(f"\tleaq {operand}, %rdi")
                print(f"\tcallq {'touch_atomic' if ATOMIC.match(line) else 'touch'}")
                print("\tpopq %rdi\n\tleaq 128(%rsp), %rsp")
            print(line, end="")


if __name__ == "__main__":
    main()
