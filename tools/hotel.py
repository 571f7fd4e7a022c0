#!/usr/bin/env python3
"""Writes the example of examples/hotel: a rule sheet and two days of a soak, on counts and on obscuration.

The readings are made up: slow drift by day and night, a little noise from a fixed seed, and showers in the morning. Run it at
the top of the repository to write the files anew; it gives the same bytes each time."""

import math
import os
import random

POLLS = 2 * 1440
HEADS = 12
FOLDER = os.path.join("examples", "hotel")


def record(kind, payload):
    return len(payload).to_bytes(2, "little") + kind.to_bytes(2, "little") + payload


def head_test(head, sense, limit):
    return record(16, bytes([head, sense]) + limit.to_bytes(4, "little", signed=True))


def zone_test(k, sense, limit):
    return record(17, bytes([k, sense]) + limit.to_bytes(4, "little", signed=True))


def negation(formula):
    return record(18, formula)


def either(left, right):
    return record(19, left + right)


def both(left, right):
    return record(20, left + right)


def window(first, last, share, formula):
    return record(21, b"".join(n.to_bytes(2, "little") for n in (first, last, share)) + formula)


def rule(number, formula):
    return record(4, number.to_bytes(2, "little") + formula)


def zone(number, heads, rules):
    return record(3, number.to_bytes(2, "little") + bytes([len(heads)]) + bytes(heads) + b"".join(rules))


def group(name, zones):
    return record(2, bytes([len(name)]) + name.encode() + b"".join(zones))


def sheet(total, groups):
    return record(1, bytes([total]) + b"".join(groups))


LEAST, MOST = 0, 1


def hotel(steps):
    """The sheet; limits are in steps, of which a percent per metre has `steps`."""
    alarm = 3 * steps
    rooms = [
        rule(101, window(0, 4, 800, zone_test(1, LEAST, alarm))),
        rule(102, window(0, 2, 1000, zone_test(2, LEAST, 2 * steps))),
    ]
    bath = [rule(103, window(0, 9, 900, head_test(4, LEAST, alarm)))]
    kitchen = [
        rule(201, both(window(0, 14, 600, head_test(8, LEAST, alarm)), head_test(9, LEAST, steps))),
        rule(202, either(head_test(8, LEAST, 7 * steps), head_test(9, LEAST, 7 * steps))),
    ]
    hall = [
        rule(301, window(0, 29, 500, zone_test(1, LEAST, 2 * steps))),
        rule(302, negation(window(0, 1439, 10, zone_test(1, MOST, 6 * steps)))),
    ]
    return sheet(
        HEADS,
        [
            group("First floor", [zone(1, [0, 1, 2, 3], rooms), zone(2, [4, 5], bath)]),
            group("Ground floor", [zone(3, [8, 9], kitchen), zone(4, [6, 7, 10, 11], hall)]),
        ],
    )


def obscuration(head, poll, noise):
    """Percent per metre: a level of the head's own, the day's drift, noise, and showers and breakfast."""
    minute = poll % 1440
    level = 0.4 + 0.05 * head + 0.15 * math.sin(2 * math.pi * minute / 1440) + noise.gauss(0, 0.06)
    if head in (4, 5) and 380 <= minute < 470:
        level += 2.1 * math.sin(math.pi * (minute - 380) / 90) * (0.8 + 0.2 * noise.random())
    if head in (8, 9) and 400 <= minute < 560:
        level += 1.3 * math.sin(math.pi * (minute - 400) / 160)
    return max(level, 0.0)


def main():
    noise = random.Random(1)
    counts, percents = [], []
    for poll in range(POLLS):
        levels = [obscuration(head, poll, noise) for head in range(HEADS)]
        counts.append(",".join(str(round(1000 * level)) for level in levels))
        percents.append(",".join(("%.8f" % (round(256 * level) / 256)).rstrip("0").rstrip(".") for level in levels))
    os.makedirs(FOLDER, exist_ok=True)
    for name, steps in (("counts.sheet", 1000), ("obscuration.sheet", 256)):
        with open(os.path.join(FOLDER, name), "wb") as out:
            out.write(hotel(steps))
    for name, lines in (("counts.csv", counts), ("obscuration.csv", percents)):
        with open(os.path.join(FOLDER, name), "w", newline="") as out:
            out.write("\n".join(lines) + "\n")


if __name__ == "__main__":
    main()
