#!/usr/bin/env python3
"""Makes the interpolation table of the S-DSP by its formula (docs/machine/S-DSP.md), and compares it with crates/free_files.

    tools/make_table.py           compares the 512 numbers with those in code and definition
    tools/make_table.py --write   writes them there (rt fmt then lays the code out)

It reckons with 70 digits, and prints how near a number comes to where rounding would go the other way. The status is 1
where a number differs, or where the numbers' sum is not the one below.
"""
import hashlib
import os
import re
import struct
import sys
from decimal import ROUND_FLOOR, Decimal, getcontext

TOP = os.path.dirname(os.path.dirname(os.path.abspath(__file__)))
CODE = ("crates/free_files/src/interpolation.rt", "static NUMBERS: [u16; 512] = [", "];")
DEFINITION = ("crates/free_files/specs/Interpolation.antt", "interpolation =\n    (", " ∷ [])")
# SHA-256 of the 512 numbers as words of 16 bits, low byte first. A well-known emulator's table has the same sum.
WANTED = "0acd5077942f6cc6676829bc1954a05aeaad51be716f62d9ef4e8e7c94685af2"
getcontext().prec = 70
TINY = Decimal(10) ** -66


def series(first, x, factor):
    """first - first x x / (f (f + 1)) + .., where f grows by two: sine and cosine."""
    term, total = first, Decimal(0)
    while abs(term) > TINY:
        total += term
        term = -term * x * x / (factor * (factor + 1))
        factor += 2
    return total


def sin(x):
    return series(x, x, 2)


def cos(x):
    return series(Decimal(1), x, 1)


def arctan_of_one_over(n):
    term, total, k = Decimal(1) / n, Decimal(0), 1
    while abs(term) > TINY:
        total += term / k
        term = -term / (n * n)
        k += 2
    return total


def table():
    """The 512 numbers, and how near one comes to an edge of rounding."""
    pi = 16 * arctan_of_one_over(5) - 4 * arctan_of_one_over(239)
    raw = [Decimal(0)] * 512
    for n in range(512):
        k = n + Decimal("0.5")
        s = sin(pi * k * Decimal("1.280") / 1024)
        t = (cos(pi * k * 2 / 1023) - 1) * Decimal("0.50")
        u = (cos(pi * k * 4 / 1023) - 1) * Decimal("0.08")
        raw[511 - n] = s * (t + u + 1) / k
    numbers, nearest = [0] * 512, Decimal(1)
    for phase in range(128):
        places = (phase, phase + 256, 511 - phase, 255 - phase)
        scale = 2048 / sum(raw[place] for place in places)
        for place in places:
            exact = raw[place] * scale + Decimal("0.5")
            number = int(exact.to_integral_value(ROUND_FLOOR))
            numbers[place] = number
            nearest = min(nearest, exact - number, number + 1 - exact)
    return numbers, nearest


def standing(name, begin, end):
    """A source file's text before its numbers, the numbers' text, and the text behind."""
    text = open(os.path.join(TOP, name), encoding="utf-8").read()
    start = text.index(begin) + len(begin)
    stop = text.index(end, start)
    return text[:start], text[start:stop], text[stop:]


def write(numbers):
    for (name, begin, end), between, indent in ((CODE, ", ", "\n    "), (DEFINITION, " ∷ ", "")):
        before, _, behind = standing(name, begin, end)
        lines = [between.join(map(str, numbers[i : i + 16])) for i in range(0, 512, 16)]
        body = indent + (between.rstrip() + "\n    ").join(lines) + (",\n" if indent else "")
        open(os.path.join(TOP, name), "w", encoding="utf-8").write(before + body + behind)


def main():
    numbers, nearest = table()
    if sys.argv[1:] == ["--write"]:
        write(numbers)
    elif sys.argv[1:]:
        sys.exit(__doc__)
    bad = 0
    for name, begin, end in (CODE, DEFINITION):
        stands = [int(word) for word in re.findall(r"\d+", standing(name, begin, end)[1])]
        if stands != numbers:
            print(f"{name}: its numbers are not the formula's")
            bad = 1
    made = hashlib.sha256(struct.pack("<512H", *numbers)).hexdigest()
    if made != WANTED:
        print(f"the sum of the numbers is {made}")
        bad = 1
    print(f"512 numbers up to {max(numbers)}; none comes nearer than {nearest:.7f} to an edge of rounding; sum {made[:16]}")
    return bad


sys.exit(main())
