#!/usr/bin/env python3
"""Makes store files, and sessions that ask what they have.

    bench/stores.py store N            a file of N entries, to standard output
    bench/stores.py session N HITS     a session of N queries, of which HITS in 100 ask what such a file has

Entry k has the key `v0 <= k`, `v0 >= k` with the point k where k is even, and else the core `v0 - v1 <= k - 1`,
`v0 - v1 >= k` with the combination that adds them. A query that hits asks such a key of an even k; one that doesn't asks
for a value that no entry has. The bytes are those of docs/FORMATS.md.
"""
import random
import struct
import sys


def atom(op, variables, constant):
    """An atom over these variables with the coefficients 1, -1."""
    terms = b"".join(struct.pack("<Bq", v, 1 - 2 * v) for v in variables)
    return struct.pack("<BB", op, len(variables)) + terms + struct.pack("<q", constant)


def point_entry(k):
    return b"\x01\x02\x00" + atom(1, [0], k) + atom(2, [0], k) + struct.pack("<Bq", 1, k)


def core_entry(k):
    combination = b"\x03\x02" + b"".join(struct.pack("<BHq", 0, number, 1) for number in (0, 1))
    return b"\x02\x02\x00" + atom(1, [0, 1], k - 1) + atom(2, [0, 1], k) + struct.pack("<I", 1) + combination


def write_store(out, count):
    out.write(b"GREENST1")
    for k in range(count):
        body = core_entry(k) if k % 2 else point_entry(k)
        out.write(struct.pack("<I", len(body)) + body)


def write_session(out, count, hits):
    random.seed(1)
    out.write(b"green 1\nexecutor\n")
    for number in range(count):
        k = 2 * random.randrange(500) if random.randrange(100) < hits else 1_000_000 + number
        out.write(b"query\nvar x 0 2000000\nx <= %d\nx >= %d\n" % (k, k))
    out.write(b"end\n")


def main():
    words = sys.argv[1:]
    if len(words) == 2 and words[0] == "store":
        write_store(sys.stdout.buffer, int(words[1]))
    elif len(words) == 3 and words[0] == "session":
        write_session(sys.stdout.buffer, int(words[1]), int(words[2]))
    else:
        sys.exit(__doc__)


if __name__ == "__main__":
    main()
