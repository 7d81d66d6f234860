"""VAX floats, by the tables of the format: vax.py make ENCODING TYPE OUT PAD VALUE.. | vax.py compare CDFREAD FOLDER

make writes a file in encoding 3, 14 or 15; a VALUE is the bytes of a float in hexadecimal. zVariable 0 has a record for each value,
zVariable 1 one record with all of them along a dimension, gEntry 0 has all of them; both variables have the pad value PAD, or none
if that is -. compare makes files in the folder, of edges and of values by chance, and compares what cdfread prints of them, as text
and as JSON, with the values that their bytes have as fractions. Prints how many files and floats were compared, how many of them
were rounded, ties and reserved; exits with 1 if one differs.
"""
import fractions
import random
import struct
import sys

from made import file_of
from shown import RESERVED, WORDS, bits_of, compare_listing, compare_values

# Rows of tables 5.4, 5.7 and 5.8: byte, its lowest and highest bit, field (sign, exponent, mantissa), the field's lowest bit.
REST = [(2, 0, 7, "m", 32), (3, 0, 7, "m", 40), (4, 0, 7, "m", 16), (5, 0, 7, "m", 24), (6, 0, 7, "m", 0), (7, 0, 7, "m", 8)]
F_FLOAT = [(0, 0, 6, "m", 16), (0, 7, 7, "e", 0), (1, 0, 6, "e", 1), (1, 7, 7, "s", 0), (2, 0, 7, "m", 0), (3, 0, 7, "m", 8)]
D_FLOAT = [(0, 0, 6, "m", 48), (0, 7, 7, "e", 0), (1, 0, 6, "e", 1), (1, 7, 7, "s", 0)] + REST
G_FLOAT = [(0, 0, 3, "m", 48), (0, 4, 7, "e", 0), (1, 0, 6, "e", 4), (1, 7, 7, "s", 0)] + REST
# Rows, bits of the exponent and of the mantissa, what is taken from the exponent.
FORMS = {"F": (F_FLOAT, 8, 23, 128), "D": (D_FLOAT, 8, 55, 128), "G": (G_FLOAT, 11, 52, 1024)}
TYPES = {21: 4, 44: 4, 22: 8, 31: 8, 45: 8}


def form_of(encoding, kind):
    return FORMS["F" if TYPES[kind] == 4 else "G" if encoding == 15 else "D"]


def bytes_of(form, **parts):
    """The bytes of a float with this sign s, exponent e and mantissa m."""
    data = bytearray(4 if form is FORMS["F"] else 8)
    for byte, low, high, name, first in form[0]:
        data[byte] |= (parts[name] >> first) % 2**(high - low + 1) << low
    return bytes(data)


def exact(form, data):
    """The value of a float's bytes, None if it is the reserved operand."""
    parts = {"s": 0, "e": 0, "m": 0}
    for byte, low, high, name, first in form[0]:
        parts[name] |= (data[byte] >> low) % 2**(high - low + 1) << first
    _, _, width, offset = form
    if parts["e"] == 0:
        return None if parts["s"] else fractions.Fraction(0)
    value = fractions.Fraction(2**width + parts["m"], 2**(width + 1)) * fractions.Fraction(2)**(parts["e"] - offset)
    return -value if parts["s"] else value


def double_of(bits):
    return struct.unpack(">d", bits.to_bytes(8, "big"))[0]


def nearest(value):
    """The double of a fraction, seen to be no further from it than its neighbours, a tie to be even; and whether it is a tie."""
    found = float(value)
    bits, away = bits_of(found), abs(fractions.Fraction(found) - value)
    others = [abs(fractions.Fraction(double_of(bits + step)) - value) for step in (-1, 1) if value != 0]
    assert all(away < other or (away == other and bits % 2 == 0) for other in others), value
    return found, away in others


def patterns(form, chance):
    """Edges of exponent and mantissa with both signs, then values by chance; those with a low exponent are rounded in G_FLOAT."""
    _, range_bits, width, offset = form
    exponents = [0, 1, 2, 3, 4, offset - 1, offset, offset + 1, offset + 52, 2**range_bits - 2, 2**range_bits - 1]
    mantissas = [*range(18), 2**(width - 1), *range(2**width - 13, 2**width)]
    found = [bytes_of(form, s=s, e=e, m=m) for s in (0, 1) for e in exponents for m in mantissas]
    for i in range(400):
        e = chance.randrange(4 if i % 4 == 0 else 2**range_bits)
        found.append(bytes_of(form, s=chance.randrange(2), e=e, m=chance.randrange(2**width)))
    return found


def compare(cdfread, folder):
    """Each encoding and type, with and without reserved operands."""
    chance, count = random.Random(102), {"files": 0, "floats": 0, "rounded": 0, "ties": 0, "reserved": 0}
    for encoding, kind, some in ((encoding, kind, some) for encoding in (3, 14, 15) for kind in TYPES for some in (False, True)):
        form = form_of(encoding, kind)
        values = [data for data in patterns(form, chance) if some or exact(form, data) is not None]
        reserved = [data for data in values if exact(form, data) is None]
        pad = reserved[-1] if some else values[-1]
        numbers = [exact(form, data) for data in values]
        pairs = [(RESERVED, False) if number is None else nearest(number) for number in numbers]
        doubles = [double for double, _ in pairs]
        path = f"{folder}/vax_{encoding}_{kind}_{some}.cdf"
        with open(path, "wb") as file:
            file.write(file_of(encoding, kind, pad, values))
        compare_values(cdfread, path, kind, doubles, [WORDS] if some else [])
        compare_listing(cdfread, path, kind, doubles, doubles[values.index(pad)], [WORDS] if some else [])
        wrong = [double for double, number in zip(doubles, numbers) if number is not None and fractions.Fraction(double) != number]
        assert not wrong or TYPES[kind] == 8, path
        new = (1, len(values), len(wrong), sum(tie for _, tie in pairs), len(reserved))
        count = {name: count[name] + more for name, more in zip(count, new)}
    print(", ".join(f"{number} {name}" for name, number in count.items()))


def main(command, *words):
    if command == "compare":
        compare(*words)
        return
    encoding, kind, path, pad, *values = words
    with open(path, "wb") as out:
        out.write(file_of(int(encoding), int(kind), None if pad == "-" else bytes.fromhex(pad), list(map(bytes.fromhex, values))))


if __name__ == "__main__":
    main(*sys.argv[1:])
