#!/usr/bin/env python3
"""What `wheels` must print, computed without any of its code.

python3 tests/expected.py                              the built-in example
python3 tests/expected.py place N M P,P,.. < ids       sensor IDs from standard input, one to a line
"""
import hashlib
import sys

THRESHOLD = 8000
FORBIDDEN = {0x00, 0x2F}
DROPPED = {0x20}
REFUSALS = {3: "the length is 0 or above 32", 4: "it has a forbidden byte", 5: "it has no kept byte"}
EXAMPLE_IDS = [
    b" A 1",
    b"A1",
    b"0A1",
    b"a1",
    b"3FD7 2A91",
    b"3FD72A91",
    b"3A/7F",
    b"3A\x007F",
    b"Q\xe9 \xff\x7f",
    b'50% "new"',
    b"0123456789ABCDEF0123456789ABCDEF",
    b"0123456789ABCDEF0123456789ABCDEF0",
    b"   ",
    b"",
]


def refusal(raw):
    """The number that a name is refused with, or 0."""
    if not 1 <= len(raw) <= 32:
        return 3
    if any(b in FORBIDDEN for b in raw):
        return 4
    if all(b in DROPPED for b in raw):
        return 5
    return 0


def number(four):
    return int.from_bytes(four, "big")


def digest_placement(short):
    return number(hashlib.md5(short).digest()[:4])


def prefix_placement(short):
    return number((short + bytes(4))[:4])


def parents(child):
    """Each p and r with child = p + 2^r and p < 2^r: there is one, but for 0."""
    return [(child - 2**r, r) for r in range(9) if 0 <= child - 2**r < 2**r]


def fill(wanted):
    """The least map with these partitions: what each child needs is added until nothing is missing."""
    filled = {0} | set(wanted)
    while True:
        more = set()
        for child in filled:
            for p, r in parents(child):
                more.add(p)
                more.update(p + 2**s for s in range(r) if p < 2**s)
        if more <= filled:
            return filled
        filled |= more


def depth(p, filled):
    d = 0
    while not (p < 2**d and p + 2**d not in filled):
        d += 1
    return d


def placements(p, filled):
    """The first and the last placement of partition p."""
    first = int(format(p, "032b")[::-1], 2)
    return first, first + 2 ** (32 - depth(p, filled)) - 1


def partition_for(placement, filled):
    """The one partition whose range has the placement, found by trying all."""
    having = []
    for p in filled:
        first, last = placements(p, filled)
        if first <= placement <= last:
            having.append(p)
    assert len(having) == 1, (placement, having)
    return having[0]


def quoted(text):
    def shown(b):
        return chr(b) if 0x20 <= b <= 0x7E and b not in b'%"' else "%%%02X" % b

    return '"' + "".join(map(shown, text)) + '"'


def place_line(kind, placement, servers, per_server, filled):
    p = partition_for(placement, filled)
    first, last = placements(p, filled)
    has_server = p < servers * per_server
    server = p % servers if has_server else p // per_server
    end = "" if has_server else ", not added yet"
    return "  %s placement 0x%08X: partition %d, 0x%08X to 0x%08X, server %d%s" % (
        kind, placement, p, first, last, server, end)


def report(raw, servers, per_server, filled):
    lines = [quoted(raw)]
    why = refusal(raw)
    if why:
        return lines + ["  refused %d: %s" % (why, REFUSALS[why])]
    short = bytes(b for b in raw if b not in DROPPED)
    lines.append("  short form " + quoted(short))
    for kind, placement in [("digest", digest_placement(short)), ("prefix", prefix_placement(short))]:
        lines.append(place_line(kind, placement, servers, per_server, filled))
    return lines


def counted(n, noun):
    return "%d %s%s" % (n, noun, "" if n == 1 else "s")


def main(words):
    if words:
        _, servers, per_server, wanted = words
        servers, per_server = int(servers), int(per_server)
        filled = fill(int(p) for p in wanted.split(","))
        ids = sys.stdin.buffer.read().split(b"\n")
        if not ids[-1]:
            ids.pop()
    else:
        servers, per_server, filled, ids = 3, 2, fill([2, 5]), EXAMPLE_IDS
    print("settings: %s, %s per server, threshold %d"
          % (counted(servers, "server"), counted(per_server, "partition"), THRESHOLD))
    print("map: " + " ".join(map(str, sorted(filled))))
    print()
    for raw in ids:
        print("\n".join(report(raw, servers, per_server, filled)))


main(sys.argv[1:])
