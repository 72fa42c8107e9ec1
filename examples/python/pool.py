#!/usr/bin/env python3
"""Pools the receipts of several offices, and asks the keeper's C library whether a keeper contradicts itself.

    pool.py LIBRARY FILE..    LIBRARY: the shared library, which examples/python/pool makes; FILE: as verify.py reads it

The station is all keepers whose keys the files name, at most 32. Of each question the receipt alone goes into the pile, at most
32 of them: it is checked for the question that it carries itself, and passed over if that fails.

Exit status: 0 no keeper contradicts itself, 1 one does, 2 the files or the command are not as above.
"""
import ctypes
import os
import sys

import verify

# include/keeper.h: the bytes of a receipt, and where its fields stand
RECEIPT_BYTES = 160
KEEPER, POSITION, NONCE = slice(8, 16), slice(16, 24), slice(32, 64)
LOG = 7


def load(path):
    library = verify.load(path)
    buffer, number = [ctypes.c_char_p, ctypes.c_size_t], ctypes.c_uint64
    results = [ctypes.POINTER(kind) for kind in (ctypes.c_uint8, number, number)]
    library.keeper_contradiction.argtypes = [number] * 2 + buffer * 2 + results
    library.keeper_contradiction.restype = verify.Result
    return library


def contradiction(library, keys, pile):
    """The result, and the places of the first pair of receipts that contradict each other, or None."""
    roster = b"".join(keeper.to_bytes(8, "big") + key for keeper, key in keys.items())
    receipts, members = b"".join(pile), len(keys)
    found, first, second = ctypes.c_uint8(), ctypes.c_uint64(), ctypes.c_uint64()
    result = library.keeper_contradiction(members, members // 2 + 1, roster, len(roster), receipts, len(receipts), found,
                                          first, second)
    return result, (first.value, second.value) if found.value else None


def said(library, keys, receipt):
    """What a receipt says, verified for the question that it carries itself."""
    keeper, position = (int.from_bytes(receipt[field], "big") for field in (KEEPER, POSITION))
    asked = position if receipt.startswith(b"LOOKUP") else None
    result, verdict = verify.verify(library, keys[keeper], receipt, receipt[NONCE], keeper, receipt[LOG], asked)
    value = int.from_bytes(receipt[verify.VALUE], "big")
    return f"{verify.in_words(library, result, verdict)} Value {value}."


def read(path, keys, pile):
    """Adds a file's keys, and its receipts with the places where they stand. Gives the number of receipts left out."""
    left_out, name = 0, os.path.basename(path)
    with open(path, encoding="ascii", errors="replace") as lines:
        for place, line in enumerate(lines, 1):
            fields = line.rstrip("\n").split(",")
            if line.startswith("#"):
                continue
            try:
                if fields[0] == "key" and len(fields) == 3:
                    keeper, key = verify.number(fields[1]), bytes.fromhex(fields[2])
                    if len(key) != 32 or keys.setdefault(keeper, key) != key:
                        raise ValueError(f"another key of keeper {keeper} stands before it, or it is not 32 bytes")
                elif len(fields) == {"lookup": 6, "end": 5}.get(fields[0]):
                    receipt = bytes.fromhex(fields[-1])
                    if len(receipt) == RECEIPT_BYTES:
                        pile.append((f"{name}, line {place}", receipt))
                    else:
                        left_out += 1
                else:
                    raise ValueError("none of key, lookup and end with its fields")
            except ValueError as fault:
                print(f"{path}, line {place}: {fault}", file=sys.stderr)
                sys.exit(2)
    return left_out


def main():
    if len(sys.argv) < 3:
        print(__doc__.strip(), file=sys.stderr)
        return 2
    library, keys, pile = load(sys.argv[1]), {}, []
    left_out = sum(read(path, keys, pile) for path in sys.argv[2:])
    result, pair = contradiction(library, keys, [receipt for _, receipt in pile])
    if result.number != 0:
        print(f"refused ({result.number}): there are no keys, or more than 32 keys or receipts", file=sys.stderr)
        return 2
    print(f"{len(pile)} receipts, keys of keepers {', '.join(map(str, keys))}; {left_out} left out, not of 160 bytes; "
          f"{result.blocks} blocks hashed")
    if pair is None:
        print("No keeper contradicts itself.")
        return 0
    for where, receipt in (pile[place] for place in pair):
        print(f"{where}: {said(library, keys, receipt)}")
    print(f"Keeper {int.from_bytes(pile[pair[0]][1][KEEPER], 'big')} contradicts itself.")
    return 1


if __name__ == "__main__":
    sys.exit(main())
