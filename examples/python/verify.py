#!/usr/bin/env python3
"""Verifies receipts out of a file, through the keeper's C library.

    verify.py LIBRARY FILE    LIBRARY: the shared library, which examples/python/run makes

A line of FILE is one of these, keys and other bytes in hexadecimal; a line that starts with # says nothing:

    key,KEEPER,KEY                              the key of a keeper
    lookup,KEEPER,LOG,POSITION,NONCE,RECEIPT    a question for a position, and the receipt that came for it
    end,KEEPER,LOG,NONCE,RECEIPT                a question for a log's end, and the receipt that came for it

Exit status: 0 every receipt was accepted, 1 one was not, 2 the file or the command is not as above.
"""
import ctypes
import sys

# include/keeper.h: the kinds that show an entry, where a receipt has its value, and the bytes of a sentence
ASSIGNED, SKIPPED = 1, 2
VALUE = slice(64, 96)
SENTENCE_BYTES = 200


class Result(ctypes.Structure):
    """What a call returns: its number, and the blocks that it hashed."""
    _fields_ = [(name, ctypes.c_uint64) for name in ("number", "blocks")]


class Verdict(ctypes.Structure):
    _fields_ = [(name, ctypes.c_uint64) for name in ("keeper", "log", "position", "kind", "reference")]


def load(path):
    library = ctypes.CDLL(path)
    buffer, number = [ctypes.c_char_p, ctypes.c_size_t], ctypes.c_uint64
    result = [ctypes.POINTER(Verdict)]
    library.keeper_verify_lookup.argtypes = buffer * 3 + [number] * 3 + result
    library.keeper_verify_end.argtypes = buffer * 3 + [number] * 2 + result
    for call in (library.keeper_verify_lookup, library.keeper_verify_end):
        call.restype = Result
    library.keeper_receipt_sentence.argtypes = [ctypes.c_uint8] + result + buffer
    library.keeper_receipt_sentence.restype = ctypes.c_uint8
    return library


def verify(library, key, receipt, nonce, keeper, log, position=None):
    """The result, and the verdict, which is filled where its number is 0. Without a position: the log's end."""
    verdict = Verdict()
    buffers = key, len(key), receipt, len(receipt), nonce, len(nonce)
    if position is None:
        return library.keeper_verify_end(*buffers, keeper, log, verdict), verdict
    return library.keeper_verify_lookup(*buffers, keeper, log, position, verdict), verdict


def in_words(library, result, verdict):
    """The verdict as a sentence."""
    sentence = ctypes.create_string_buffer(SENTENCE_BYTES)
    if library.keeper_receipt_sentence(result.number, verdict, sentence, len(sentence)):
        raise RuntimeError("the library wants another length of sentence")
    return sentence.raw.rstrip(b"\0").decode("ascii")


def number(text):
    if not (text.isascii() and text.isdigit() and int(text) < 2**64):
        raise ValueError(f"{text} is no number below 2^64")
    return int(text)


def answer(library, keys, fields):
    """What is found on a question, in words, whether its receipt is accepted, and the blocks hashed to tell."""
    if len(fields) != {"lookup": 6, "end": 5}.get(fields[0]):
        raise ValueError("none of key, lookup and end with its fields")
    numbers = [number(n) for n in fields[1:-2]]
    nonce, receipt = [bytes.fromhex(f) for f in fields[-2:]]
    if numbers[0] not in keys:
        raise ValueError(f"no key of keeper {numbers[0]} stands before it")
    result, verdict = verify(library, keys[numbers[0]], receipt, nonce, *numbers)
    found = f"{','.join(fields[:-2])}: {in_words(library, result, verdict)}"
    if result.number == 0 and verdict.kind in (ASSIGNED, SKIPPED):  # a skipped one shows the entry at its reference
        found += f" Value {int.from_bytes(receipt[VALUE], 'big')}."
    return found, result.number == 0, result.blocks


def main():
    if len(sys.argv) != 3:
        print(__doc__.strip(), file=sys.stderr)
        return 2
    library, keys, accepted, hashed = load(sys.argv[1]), {}, True, 0
    with open(sys.argv[2], encoding="ascii", errors="replace") as lines:
        for place, line in enumerate(lines, 1):
            fields = line.rstrip("\n").split(",")
            if line.startswith("#"):
                continue
            try:
                if fields[0] == "key" and len(fields) == 3:
                    keys[number(fields[1])] = bytes.fromhex(fields[2])
                else:
                    found, good, blocks = answer(library, keys, fields)
                    print(f"line {place}: {found}")
                    accepted, hashed = accepted and good, hashed + blocks
            except ValueError as fault:
                print(f"{sys.argv[2]}, line {place}: {fault}", file=sys.stderr)
                return 2
    print(f"{hashed} blocks hashed")
    return 0 if accepted else 1


if __name__ == "__main__":
    sys.exit(main())
