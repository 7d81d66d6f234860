"""Compares what cdfread prints as JSON with the dumps of another reader: dumps.py CDFREAD SAMPLES

Every variable, record, value, pad value, attribute and entry of every sample. A float is turned back into its bits, so that
it is seen to read back exactly; in encodings 3, 14 and 15 each is a double, or the reserved operand. In type 31 a number that has a
date has it beside it. Prints how many samples, lines, values and dates were compared; exits with 1 if one differs.
"""
import itertools
import json
import pathlib
import re
import struct
import subprocess
import sys

from shown import number_of

cdfread, folder = sys.argv[1], pathlib.Path(sys.argv[2])
# Where the other reader is wrong (samples/README.md): its lines that begin so are not compared.
WRONG = {"22_dims_product_overflow": ("R ",), "25_entry_number_2147483647": None, "26_entry_number_2000000000": None}
# The encodings of VAX floats.
VAX = (3, 14, 15)
values_compared = 0
dates_compared = 0


def asked(*words):
    done = subprocess.run([cdfread, *map(str, words)], capture_output=True, text=True, check=False)
    assert done.returncode in (0, 1) and done.stderr == "", (words, done.returncode, done.stderr)
    return done.stdout


def float_bits(value, letter, form):
    if isinstance(value, str) and value.startswith("nan("):
        return letter + value[4:-1]
    size = struct.calcsize(form)
    return f"{letter}{int.from_bytes(struct.pack(form, float(value)), 'big'):0{2 * size}x}"


def token(shown, kind, encoding):
    global values_compared, dates_compared
    values_compared += 1
    dates_compared += isinstance(shown, dict)
    value = number_of(shown, kind)
    if kind in (51, 52):
        return "c" + value.encode("latin-1").hex()
    if value == "reserved":
        assert kind in (21, 22, 31, 44, 45) and encoding in VAX
        return value
    if kind in (21, 44) and encoding not in VAX:
        return float_bits(value, "f", ">f")
    if kind in (21, 22, 31, 44, 45):
        return float_bits(value, "d", ">d")
    assert isinstance(value, int)
    return str(value)


def numbers(found):
    return ",".join(map(str, found)) or "-"


def name(text):
    plain = lambda byte: 0x21 <= byte <= 0x7E and byte != 0x25
    return "".join(chr(byte) if plain(byte) else f"%{byte:02x}" for byte in text.encode("latin-1"))


def letter(flag):
    return "T" if flag else "F"


def record_lines(path, of, encoding):
    sizes, varies, kind = of["dimensions"], of["variances"], of["type"]
    for line in asked("--json", path, of["kind"], of["number"]).splitlines():
        found = json.loads(line)
        if "gap" in found:
            yield from (f"R {record} GAP" for record in range(found["first"], found["last"] + 1))
            continue
        stored = [size if vary else 1 for size, vary in zip(sizes, varies)]
        shown = dict(zip(itertools.product(*map(range, stored)), found["values"]))
        places = itertools.product(*map(range, sizes))
        place = lambda at: tuple(index if vary else 0 for index, vary in zip(at, varies))
        yield f"R {found['record']} " + " ".join(token(shown[place(at)], kind, encoding) for at in places)


def variable_lines(path, of, encoding):
    pad = "-" if of["pad"] is None else token(of["pad"], of["type"], encoding)
    varys = "".join(map(letter, of["variances"])) or "-"
    sparse = {"none": 0, "pad": 1, "previous": 2}[of["sparseness"]]
    yield (f"VAR {of['kind']} num={of['num']} name={name(of['name'])} type={of['type']} elems={of['elements']}"
           f" dims={numbers(of['dimensions'])} varys={varys} recvary={letter(of['record_variance'])}"
           f" maxrec={of['max_rec']} srec={sparse} pad={pad}")
    if path.stem not in WRONG:
        yield from record_lines(path, of, encoding)


def attribute_lines(of, encoding):
    yield f"ATTR num={of['num']} name={name(of['name'])} scope={1 if of['scope'] == 'global' else 2}"
    for entry in of["entries"]:
        kind, values = entry["type"], entry["values"]
        text = f"E {entry['kind']} {entry['number']} type={kind} elems={entry['elements']}"
        values = [values] if kind in (51, 52) else values
        yield text + " " + " ".join(token(value, kind, encoding) for value in values)


def ours(path):
    file = json.loads(asked("--json", path))
    encoding = file["encoding"]
    yield (f"CDF encoding={file['encoding']} majority={file['majority']} rdims={numbers(file['r_dimensions'])}"
           f" nr={file['r_variable_count']} nz={file['z_variable_count']} na={file['attribute_count']}")
    for variable in file["variables"]:
        yield from variable_lines(path, variable, encoding)
    for attribute in file["attributes"]:
        yield from attribute_lines(attribute, encoding)


def dump_of(path):
    """The dump of a sample; none of one that is refused."""
    found = [path.with_suffix(form) for form in (".vax.jcdf", ".jcdf", ".dump")]
    return next((dump for dump in found if dump.exists()), None)


def theirs(path):
    """The dump without offsets, counts of entries and what cannot be asked for."""
    fixed = False
    for line in dump_of(path).read_text().splitlines():
        words = [word for word in line.split(" ") if not word.startswith(("@", "ngr=", "maxgr=", "nz=", "maxz=", "attr="))]
        if line.startswith("CDF"):
            words = line.split(" ")
        if line.startswith(("#", "END")) or line.startswith(WRONG.get(path.stem) or "#"):
            continue
        if words[0] == "VAR":
            fixed = "recvary=F" in words
            words[-1] = words[-1].split("@")[0]
        if words[0] == "R" and fixed and words[1] != "0":
            continue
        yield " ".join(words)


def same(path, one, other):
    """A line is that of a dump; in a .vax.jcdf each float is vax, which stands for a double or a reserved operand."""
    if one is None or other is None or not dump_of(path).name.endswith(".vax.jcdf"):
        return one == other
    words = [re.sub("^(pad=)?(d[0-9a-f]{16}|reserved)$", r"\1vax", word) for word in one.split(" ")]
    return words == other.split(" ")


lines = 0
samples = sorted(path for path in folder.glob("*.cdf") if dump_of(path) is not None)
for sample in samples:
    if WRONG.get(sample.stem, ()) is None:
        list(ours(sample))
        continue
    found, expected = list(ours(sample)), list(theirs(sample))
    for one, other in itertools.zip_longest(found, expected):
        if not same(sample, one, other):
            sys.exit(f"{sample.name}:\ncdfread  {one}\ndump     {other}")
    lines += len(found)
print(f"{len(samples)} samples, {lines} lines, {values_compared} values, {dates_compared} dates")
