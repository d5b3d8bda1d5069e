#!/usr/bin/env python3
"""Decides a formula from a file, or from standard input, by a study through the shared library, writes the rows of one run if it settles it too, and lets
the judge look at them.

    tools/shared
    python3 examples/decide.py examples/published/d000-ex4.qdimacs

The library is that of target/shared, or else the installed one. Status 10 for true, 20 for false, 0 for undecided, as solvers have it; 1 for a text that is
refused; 2 for wrong use, input that cannot be read, no library."""
import ctypes
import glob
import os
import sys

WORK, TEXT, WITNESS, REFUSED, INTERFACE = 65536, 65536, 4106, 100, 3
WORDS = {0: "false", 1: "true", 2: "undecided", 3: "undecided: no room for more universal rows", 4: "undecided: no room for more existential rows"}
STATUS = {0: 20, 1: 10}


def library():
    """The C functions, with the shape of each call."""
    here = os.path.join(os.path.dirname(os.path.abspath(__file__)), "..")
    built = glob.glob(os.path.join(here, "target/shared/libvulzhenn.so.*[0-9]"))
    functions = ctypes.CDLL(built[0] if built else f"libvulzhenn.so.{INTERFACE}")
    if functions.vulzhenn_version() != INTERFACE:
        raise OSError("the library has another interface")
    bytes_ = (ctypes.c_char_p, ctypes.c_size_t)
    functions.vulzhenn_study.argtypes = (*bytes_, *bytes_)
    functions.vulzhenn_witness.argtypes = (*bytes_, *bytes_, *bytes_)
    functions.vulzhenn_witness.restype = ctypes.c_size_t
    functions.vulzhenn_judge.argtypes = (*bytes_, *bytes_, *bytes_)
    for name in ("study", "judge"):
        getattr(functions, f"vulzhenn_{name}").restype = ctypes.c_uint32
    return functions


def main(words):
    if len(words) > 1:
        print("usage: decide.py [FILE]", file=sys.stderr)
        return 2
    with open(words[0], "rb") if words else sys.stdin.buffer as file:
        text = file.read(TEXT + 1)  # one byte more than is taken, so that a longer text is refused and not cut
    functions = library()
    work, out = ctypes.create_string_buffer(WORK), ctypes.create_string_buffer(WITNESS)
    number = functions.vulzhenn_study(text, len(text), work, WORK)
    print(WORDS.get(number, f"refused: number {number - REFUSED}"))
    if number > REFUSED:
        return 1
    length = functions.vulzhenn_witness(text, len(text), out, WITNESS, work, WORK)
    if length:
        print("rows of one run:", "accepted" if functions.vulzhenn_judge(text, len(text), out.raw, length, work, WORK) == 1 else "not accepted")
    return STATUS.get(number, 0)


try:
    sys.exit(main(sys.argv[1:]))
except OSError as error:
    print(f"decide.py: {error}", file=sys.stderr)
    sys.exit(2)
