#!/usr/bin/env python3
"""Verifies an answer through the shared library.

usage: verify_answer.py KIND SEALER LOCK FIRST PICK ANSWER

KIND is 1 (bit), 2 (word) or 3 (residue); SEALER is 1 (SHA-256) or 2 (SHA3-256); PICK is 1, 2 or 3.
LOCK, FIRST and ANSWER are files with the bytes of the lock, the first message and the answer.

Prints `accepted` (status 0) or `refused NUMBER BRANCH PLACE` (status 1); docs/FAULTS.md tells what the numbers mean.

The shared library is made from the static one, which `rt lib` in crates/exports builds:

    gcc -shared -o libpozhuntaka.so \
        -Wl,--whole-archive crates/exports/out/libexports.a -Wl,--no-whole-archive

It is looked for in the current directory, or where the environment variable POZHUNTAKA_LIB says.
"""

import ctypes
import os
import sys

DONE, REFUSED, NO_KIND, NO_SEALER = 0, 1, 2, 3


class Fault(ctypes.Structure):
    _fields_ = [
        ("place", ctypes.c_uint64),
        ("number", ctypes.c_uint8),
        ("branch", ctypes.c_uint8),
        ("pick", ctypes.c_uint8),
    ]


class Lengths(ctypes.Structure):
    _fields_ = [(name, ctypes.c_uint32) for name in ("inputs", "gates", "outputs", "products")] + [
        (name, ctypes.c_uint64) for name in ("key", "view", "tape", "first", "answer", "work")
    ]


# A byte slice is a pointer and then a length. Bytes that are only read can be passed as they are.
READ = (ctypes.c_char_p, ctypes.c_size_t)
WRITE = (ctypes.c_void_p, ctypes.c_size_t)


def load(path):
    library = ctypes.CDLL(os.path.abspath(path))
    library.pz_read_lock.restype = ctypes.c_uint8
    library.pz_read_lock.argtypes = [
        ctypes.c_uint8, ctypes.c_uint8, *READ, ctypes.POINTER(Lengths), ctypes.POINTER(Fault),
    ]
    library.pz_verify.restype = ctypes.c_uint8
    library.pz_verify.argtypes = [
        ctypes.c_uint8, ctypes.c_uint8, *READ, *READ, ctypes.c_uint8, *READ, *WRITE, *WRITE, ctypes.POINTER(Fault),
    ]
    return library


def verify(library, kind, sealer, lock, first, pick, answer):
    """The status and the fault."""
    lengths, fault = Lengths(), Fault()
    # A lock that cannot be read needs no work slices: the call below refuses it with the same fault.
    status = library.pz_read_lock(kind, sealer, lock, len(lock), lengths, fault)
    size = lengths.work if status == DONE else 0
    work1, work2 = ctypes.create_string_buffer(max(size, 1)), ctypes.create_string_buffer(max(size, 1))
    status = library.pz_verify(
        kind, sealer, lock, len(lock), first, len(first), pick, answer, len(answer), work1, size, work2, size, fault
    )
    return status, fault


def number(word):
    value = int(word)
    if not 0 <= value <= 255:
        raise ValueError(f"{word} does not fit in a byte")
    return value


def read(path):
    with open(path, "rb") as file:
        return file.read()


def main(words):
    if len(words) != 6:
        print("usage: verify_answer.py KIND SEALER LOCK FIRST PICK ANSWER", file=sys.stderr)
        return 2
    try:
        kind, sealer, pick = number(words[0]), number(words[1]), number(words[4])
        lock, first, answer = read(words[2]), read(words[3]), read(words[5])
        library = load(os.environ.get("POZHUNTAKA_LIB", "libpozhuntaka.so"))
    except (OSError, ValueError) as error:
        print(error, file=sys.stderr)
        return 2
    status, fault = verify(library, kind, sealer, lock, first, pick, answer)
    if status == DONE:
        print("accepted")
        return 0
    if status == REFUSED:
        print("refused", fault.number, fault.branch, fault.place)
        return 1
    print({NO_KIND: "no such kind", NO_SEALER: "no such sealer"}.get(status, f"status {status}"), file=sys.stderr)
    return 2


if __name__ == "__main__":
    sys.exit(main(sys.argv[1:]))
