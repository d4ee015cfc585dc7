#!/usr/bin/env python3
"""Cases for the instance check, with answers worked out by hand from document 01's table of questions and document 02's question 31.

Writes the input and the expected output of the test program crates/instance_runs.
"""
import os

LARGEST = 2**64 - 1


def instance(n, k, edges, starts, goals, e=None):
    e = len(edges) if e is None else e
    lows, highs = [low for low, _ in edges], [high for _, high in edges]
    return bytes([n, k, e % 256, e // 256, *lows, *highs, *starts, *goals])


PAIR = instance(2, 1, [(0, 1)], [0], [1])
PATH = [(0, 1), (1, 2)]
ALL_64 = [(v, w) for v in range(64) for w in range(v + 1, 64)]
FULL = instance(64, 16, ALL_64, range(16), range(48, 64))

# under rule 1: (horizon, instance bytes, number, place); an accepted instance answers 0 0
FIRST = [
    # accepted
    (1, PAIR, 0, 0),
    (0, instance(1, 1, [], [0], [0]), 0, 0),
    (32, FULL, 0, 0),
    (5, instance(64, 1, [], [63], [0]), 0, 0),
    (5, instance(3, 3, PATH, [0, 1, 2], [2, 0, 1]), 0, 0),
    (5, instance(16, 16, [], range(16), range(16)), 0, 0),
    # accepted with free agents: one, the first, all, on the largest map
    (1, instance(2, 1, [(0, 1)], [0], [255]), 0, 0),
    (1, instance(3, 2, PATH, [0, 1], [255, 2]), 0, 0),
    (1, instance(3, 2, PATH, [0, 1], [255, 255]), 0, 0),
    (32, instance(64, 16, ALL_64, range(16), [255] * 16), 0, 0),
    # 1: length below 4
    (1, b"", 1, 0),
    (1, b"\x02", 1, 1),
    (1, b"\x02\x01\x01", 1, 3),
    (33, b"\x00\x00\x00", 1, 3),
    # 2: n is 0 or 65 and more
    (1, instance(0, 1, [], [0], [0]), 2, 0),
    (1, instance(65, 1, [], [0], [0]), 2, 0),
    (1, instance(255, 255, [], [], []), 2, 0),
    (1, bytes([0, 0, 0, 0]), 2, 0),
    # 3: k is 0, above 16, above n
    (1, instance(2, 0, [], [], []), 3, 1),
    (1, instance(64, 17, [], range(17), range(17)), 3, 1),
    (1, instance(2, 3, [], [0, 1, 0], [0, 1, 0]), 3, 1),
    (1, instance(15, 16, [], range(16), range(16)), 3, 1),
    # 4: e above n(n-1)/2; exactly that many is asked further
    (1, instance(2, 1, [(0, 1), (0, 1)], [0], [1]), 4, 2),
    (1, instance(1, 1, [(0, 0)], [0], [0]), 4, 2),
    (1, instance(64, 1, [], [0], [0], e=2017), 4, 2),
    (1, instance(64, 1, [], [0], [0], e=2016), 5, 6),
    (1, instance(64, 1, [], [0], [0], e=65535), 4, 2),
    # 5: one byte too many, one too few; the high byte of e counts
    (1, PAIR + b"\x00", 5, 9),
    (1, PAIR[:-1], 5, 7),
    (1, bytes([2, 1, 1, 0]), 5, 4),
    (1, instance(64, 1, [(0, 1)], [0], [1], e=257), 5, 8),
    # 6: ends equal, exchanged, out of range; the first such edge is named, before any question 7
    (1, instance(2, 1, [(0, 0)], [0], [1]), 6, 4),
    (1, instance(2, 1, [(1, 0)], [0], [1]), 6, 4),
    (1, instance(2, 1, [(0, 2)], [0], [1]), 6, 4),
    (1, instance(3, 1, [(0, 1), (1, 3)], [0], [1]), 6, 5),
    (1, instance(3, 1, [(1, 2), (0, 1), (2, 2)], [0], [1]), 6, 6),
    (1, instance(3, 1, [(0, 255)], [0], [1]), 6, 4),
    # 7: an edge twice, high ends falling, low ends falling
    (1, instance(3, 1, [(0, 1), (0, 1)], [0], [1]), 7, 5),
    (1, instance(3, 1, [(0, 2), (0, 1)], [0], [1]), 7, 5),
    (1, instance(3, 1, [(1, 2), (0, 1)], [0], [1]), 7, 5),
    (1, instance(4, 1, [(0, 1), (1, 2), (0, 3)], [0], [1]), 7, 6),
    (1, instance(4, 1, [(0, 3), (1, 2), (2, 3)], [0], [1]), 0, 0),
    # 8: a start out of range, a start twice; starts stand at 4 + 2e
    (1, instance(2, 1, [(0, 1)], [2], [1]), 8, 6),
    (1, instance(3, 2, PATH, [0, 0], [1, 2]), 8, 9),
    (1, instance(3, 3, PATH, [2, 1, 2], [0, 1, 2]), 8, 10),
    (1, instance(3, 2, PATH, [255, 0], [3, 3]), 8, 8),
    # 255 is no start, even of a free agent
    (1, instance(3, 2, PATH, [255, 0], [255, 255]), 8, 8),
    # 9: the same of the goals, at 4 + 2e + k
    (1, instance(2, 1, [(0, 1)], [0], [2]), 9, 7),
    (1, instance(3, 2, PATH, [0, 1], [2, 2]), 9, 11),
    (1, instance(3, 2, PATH, [0, 1], [3, 2]), 9, 10),
    (33, instance(3, 3, PATH, [0, 1, 2], [0, 1, 0]), 9, 13),
    # free agents are passed over: 254 is on no map, and a goal stands twice around one
    (1, instance(3, 2, PATH, [0, 1], [255, 254]), 9, 11),
    (1, instance(3, 3, PATH, [0, 1, 2], [1, 255, 1]), 9, 13),
    # 10: the horizon
    (32, PAIR, 0, 0),
    (33, PAIR, 10, 0),
    (255, PAIR, 10, 0),
    (2**32, PAIR, 10, 0),
    (LARGEST, PAIR, 10, 0),
    (LARGEST, FULL, 10, 0),
]

# (horizon, rule, instance bytes, number, place)
CASES = [(horizon, 1, data, number, place) for horizon, data, number, place in FIRST] + [
    # rule 2 is a rule
    (1, 2, PAIR, 0, 0),
    (0, 2, instance(1, 1, [], [0], [0]), 0, 0),
    (32, 2, FULL, 0, 0),
    # 31: every other number is none, all 64 bits of it
    (1, 0, PAIR, 31, 0),
    (1, 3, PAIR, 31, 0),
    (32, 3, FULL, 31, 0),
    (1, 255, PAIR, 31, 0),
    (1, 2**8 + 1, PAIR, 31, 0),
    (1, 2**32 + 2, PAIR, 31, 0),
    (1, LARGEST, PAIR, 31, 0),
    # it is asked behind 10, and so behind 1 to 9
    (33, 0, PAIR, 10, 0),
    (33, 2, PAIR, 10, 0),
    (LARGEST, LARGEST, FULL, 10, 0),
    (1, 0, instance(3, 2, PATH, [0, 1], [2, 2]), 9, 11),
    (1, 3, b"", 1, 0),
]


def main():
    here = os.path.dirname(os.path.abspath(__file__))
    crate = os.path.join(here, "..", "..", "crates", "instance_runs")
    with open(os.path.join(crate, "stdin"), "wb") as out:
        for horizon, rule, data, _, _ in CASES:
            out.write(horizon.to_bytes(8, "little") + rule.to_bytes(8, "little") + len(data).to_bytes(2, "little") + data)
    with open(os.path.join(crate, "stdout"), "w") as out:
        for _, _, _, number, place in CASES:
            out.write(f"{number} {place}\n")


if __name__ == "__main__":
    main()
