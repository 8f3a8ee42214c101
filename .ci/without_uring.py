#!/usr/bin/env python3
"""without_uring.py PROGRAM [ARGUMENT..]: runs a program for which the kernel refuses io_uring, with EPERM, as containers have it."""
import ctypes
import os
import sys

PR_SET_SECCOMP, PR_SET_NO_NEW_PRIVS, MODE_FILTER = 22, 38, 2
# The number of io_uring_setup, on every processor.
SETUP = 425
LOAD, JUMP_IF_EQUAL, RETURN = 0x20, 0x15, 0x06
REFUSE, ALLOW = 0x50000 | 1, 0x7FFF0000


class Step(ctypes.Structure):
    _fields_ = [("code", ctypes.c_uint16), ("if_so", ctypes.c_uint8), ("if_not", ctypes.c_uint8), ("value", ctypes.c_uint32)]


class Filter(ctypes.Structure):
    _fields_ = [("length", ctypes.c_uint16), ("steps", ctypes.POINTER(Step))]


def set_up(option, *arguments):
    process = ctypes.CDLL(None, use_errno=True)
    if process.prctl(option, *arguments):
        sys.exit(f"without_uring.py: {os.strerror(ctypes.get_errno())}")


def main():
    steps = (Step * 4)(Step(LOAD, 0, 0, 0), Step(JUMP_IF_EQUAL, 0, 1, SETUP), Step(RETURN, 0, 0, REFUSE), Step(RETURN, 0, 0, ALLOW))
    set_up(PR_SET_NO_NEW_PRIVS, ctypes.c_ulong(1), ctypes.c_ulong(0), ctypes.c_ulong(0), ctypes.c_ulong(0))
    set_up(PR_SET_SECCOMP, ctypes.c_ulong(MODE_FILTER), ctypes.byref(Filter(4, steps)))
    os.execvp(sys.argv[1], sys.argv[1:])


if __name__ == "__main__":
    main()
