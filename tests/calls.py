"""The library's calls by their numbers in tests/c/calls.h, and requests as the programs of tests/c read them."""

import struct

CALLS = ("check", "matrix", "same", "covers", "conflicts", "normal", "same where", "covers where", "conflicts where",
         "check json", "matrix json", "same json", "covers json", "conflicts json", "normal json", "same where json", "covers where json",
         "conflicts where json", "version", "key", "order", "specifiers", "take", "ranges disjoint", "subset", "empty",
         "requirement", "checked", "marker", "marker key", "truth", "disjoint", "implies", "negated", "python", "extras", "hold", "assumption", "abi")


# What bounds no number of nodes, clauses or cases.
NO_BOUND = 2 ** 64 - 1


def request(name, texts, limit, room, nodes=NO_BOUND, clauses=NO_BOUND, cases=NO_BOUND):
    """The bytes of a request: a call with its texts, how many cases of a package, nodes, clauses and cases in all it may make, and the
    room for its answer."""
    head = struct.pack("<7Q", CALLS.index(name), limit, nodes, clauses, cases, room, len(texts))
    return head + struct.pack(f"<{len(texts)}Q", *map(len, texts)) + b"".join(texts)
