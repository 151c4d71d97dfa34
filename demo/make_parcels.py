#!/usr/bin/env python3
"""Writes a CSV file of made-up parcels to standard output.

usage: demo/make_parcels.py [ROWS] > FILE.csv

The same ROWS (120 by default) give the same file on any machine. Some fields are empty: a parcel
that isn't delivered yet has no days, one that wasn't weighed no weight. Some notes have commas,
quotes and line ends within. Memory doesn't grow with ROWS.
"""
import re
import sys

CITIES = ["Graz", "Wien", "Linz", "Salzburg", "Bregenz", "Villach", "Sankt Pölten"]
# Most parcels have no note.
NOTES = [""] * 12 + [
    "fragile",
    "leave at the door",
    '"Do not bend", they say',
    "2 parts, tied together",
    "ring twice\nsecond floor",
]
HEADER = "parcel,city,weight,cents,days,note\n"


def numbers():
    """Numbers of 31 bits that look random, by steps of a linear congruence."""
    state = 2024
    while True:
        state = (state * 6364136223846793005 + 1442695040888963407) % (1 << 64)
        yield state >> 33


def quoted(text: str) -> str:
    special = any(it in text for it in ',"\n')
    return '"' + text.replace('"', '""') + '"' if special else text


def main() -> int:
    # isdigit() also holds for digits that int() doesn't read, such as a superscript.
    if len(sys.argv) > 2 or not all(re.fullmatch("[0-9]{1,18}", it) for it in sys.argv[1:]):
        print(__doc__)
        return 2
    rows = int(sys.argv[1]) if len(sys.argv) == 2 else 120
    number = numbers().__next__
    notes = [quoted(it) for it in NOTES]
    sys.stdout.reconfigure(encoding="utf-8", newline="\n")
    sys.stdout.write(HEADER)
    lines = []
    for row in range(1, rows + 1):
        grams = 100 + (number() % 300) * (number() % 40 + 1) + number() % 50
        cents = 390 + grams // 10 * 2 + number() % 90
        # The later a parcel was sent, the more seldom it is delivered already.
        is_delivered = number() % rows >= row - rows // 2
        days = number() % 4 + number() % 4 + 1 if is_delivered else ""
        weight = f"{grams / 1000:g}" if number() % 9 else ""
        city, note = CITIES[number() % len(CITIES)], notes[number() % len(NOTES)]
        lines.append(f"P{row:07},{city},{weight},{cents},{days},{note}\n")
        if len(lines) == 4096:
            sys.stdout.write("".join(lines))
            lines.clear()
    sys.stdout.write("".join(lines))
    return 0


if __name__ == "__main__":
    sys.exit(main())
