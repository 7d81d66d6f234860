"""Epochs, doubles of type 31: epochs.py make ENCODING TYPE OUT PAD NUMBER.. | epochs.py compare CDFREAD FOLDER

make writes a file as vax.py does, in any encoding; a NUMBER is a double in decimal, or its bits as 0x and 16 digits. compare makes
files in the folder, of days at which months begin, of numbers that have no date and of numbers by chance, and compares what cdfread
prints of them, as text and as JSON, with python's dates; such numbers of types 22 and 45 are no dates. Prints how many files,
doubles and dates were compared; exits with 1 if one differs.
"""
import math
import random
import struct
import sys

from made import file_of
from shown import DAY, EPOCH, MONTHS, bits_of, compare_listing, compare_values, date_of, text_of
from vax import bytes_of, double_of, form_of

# Encodings with the highest byte first, and those of VAX floats; the others have the lowest byte first.
BIG, VAX = (1, 2, 5, 7, 9, 11, 12), (3, 14, 15)
LAST = 315569519999999
FILL = -1e31
# What has no date: signs, fractions, what is past the last epoch, NaNs and infinities.
UNDATED = [-0.0, -1.0, -float(LAST), 0.5, 5e-324, LAST + 0.5, LAST + 1.0, 2.0**49, 2.0**53, 2.0**63, 2.0**64, FILL, 1e300,
           math.inf, -math.inf, math.nan, double_of(0x7FF0000000000001), double_of(0xFFF8000000000001)]


def vax_bytes(encoding, number):
    """The bytes of a VAX float; None if it has none for a number."""
    form = form_of(encoding, EPOCH)
    _, range_bits, width, offset = form
    if bits_of(number) == 0:
        return bytes_of(form, s=0, e=0, m=0)
    part, exponent = math.frexp(abs(number))
    if not 0.5 <= part < 1 or not 0 < exponent + offset < 2**range_bits:
        return None
    return bytes_of(form, s=int(number < 0), e=exponent + offset, m=int(part * 2**(width + 1)) - 2**width)


def encoded(encoding, number):
    """The bytes of a double in an encoding; None if it has none for it."""
    if encoding in VAX:
        return vax_bytes(encoding, number)
    return struct.pack(">d" if encoding in BIG else "<d", number)


def make(encoding, kind, path, pad, *numbers):
    double = lambda word: double_of(int(word, 16)) if word.startswith("0x") else float(word)
    data = [None if word == "-" else encoded(int(encoding), double(word)) for word in (pad, *numbers)]
    with open(path, "wb") as out:
        out.write(file_of(int(encoding), int(kind), data[0], data[1:]))


def around_months():
    """Milliseconds around the beginning of each month of years of each kind, and noon of the day before."""
    for year in (0, 1, 4, 99, 100, 399, 400, 1582, 1600, 1700, 1900, 1970, 1999, 2000, 2004, 2100, 9996, 9999):
        before = 365 * year + (year + 3) // 4 - (year + 99) // 100 + (year + 399) // 400
        for month in range(12):
            february = 28 + (year % 4 == 0 and (year % 100 != 0 or year % 400 == 0))
            days = before + sum((MONTHS[0], february, *MONTHS[2:])[:month])
            yield from (DAY * days + step for step in (-DAY // 2, -1, 0, 1) if DAY * days + step >= 0)


def numbers_for(chance):
    """Edges, then numbers by chance: of all years, of year 0, of the years around 2000, with fractions, and any bits."""
    found = [0.0, float(LAST), *map(float, around_months()), *UNDATED]
    for _ in range(150):
        count = chance.randrange(LAST + 1)
        found += [float(count), float(chance.randrange(LAST + 1)), float(chance.randrange(366 * DAY)),
                  float(chance.randrange(59958230400000, 66269664000000)), count + chance.randrange(1, 16) / 16, -float(count),
                  double_of(chance.randrange(2**64))]
    return found


def compare(cdfread, folder):
    """Each byte order and form of floats, each type of 8 bytes."""
    chance, count = random.Random(110), {"files": 0, "doubles": 0, "dates": 0}
    for encoding, kind in ((encoding, kind) for encoding in (1, 6, *VAX) for kind in (22, EPOCH, 45)):
        numbers = [number for number in numbers_for(chance) if encoded(encoding, number) is not None]
        dates = [date_of(number) for number in numbers if kind == EPOCH and date_of(number) is not None]
        assert len({text_of(number, kind) for number in numbers}) == len(set(map(bits_of, numbers))), "a text has one number"
        path = f"{folder}/epochs_{encoding}_{kind}.cdf"
        pad = FILL if encoding in VAX else numbers[1]
        with open(path, "wb") as file:
            file.write(file_of(encoding, kind, encoded(encoding, pad), [encoded(encoding, number) for number in numbers]))
        compare_values(cdfread, path, kind, numbers, [])
        compare_listing(cdfread, path, kind, numbers, pad, [])
        count = {name: count[name] + more for name, more in zip(count, (1, len(numbers), len(dates)))}
    print(", ".join(f"{number} {name}" for name, number in count.items()))


if __name__ == "__main__":
    {"make": make, "compare": compare}[sys.argv[1]](*sys.argv[2:])
