"""What cdfread must show of doubles, as text and as JSON: those of type 31 that have a date are dates.

Dates are those of python's datetime, which begins with year 1; those of year 0 are counted by the lengths of its months.
"""
import datetime
import json
import math
import struct
import subprocess

EPOCH = 31
DAY = 86400000
# Year 0 is a leap year.
MONTHS = (31, 29, 31, 30, 31, 30, 31, 31, 30, 31, 30, 31)
# What is printed of a reserved operand, as text and in JSON, and the line behind the text.
RESERVED = "reserved"
WORDS = "refused 22: the reserved operand of VAX floats: the exponent is zero and the sign is set"


def bits_of(number):
    return int.from_bytes(struct.pack(">d", number), "big")


def in_year_0(count):
    """The date of a count of milliseconds that lies in year 0."""
    days, rest = divmod(count, DAY)
    month = 0
    while days >= MONTHS[month]:
        days -= MONTHS[month]
        month += 1
    seconds, thousandths = divmod(rest, 1000)
    clock = f"{seconds // 3600:02}:{seconds // 60 % 60:02}:{seconds % 60:02}.{thousandths:03}"
    return f"0000-{month + 1:02}-{days + 1:02}T{clock}"


def date_of(number):
    """The date of a double that counts milliseconds from year 0; None if it has none."""
    if not math.isfinite(number) or number != int(number) or math.copysign(1, number) < 0:
        return None
    count = int(number)
    if count < sum(MONTHS) * DAY:
        return in_year_0(count)
    try:
        date = datetime.datetime(1, 1, 1) + datetime.timedelta(milliseconds=count - sum(MONTHS) * DAY)
    except OverflowError:
        return None
    return date.isoformat(timespec="milliseconds")


def plain_text(number):
    """A double without regard to its type."""
    if math.isnan(number):
        return f"nan({bits_of(number):016x})"
    text = f"{number:.17g}"
    return text if "." in text or "e" in text or math.isinf(number) else text + ".0"


def text_of(value, kind):
    """A double of a type, or RESERVED, as text."""
    if value == RESERVED:
        return value
    return kind == EPOCH and date_of(value) or plain_text(value)


def json_of(value, kind):
    """The same as JSON has it."""
    if value == RESERVED:
        return value
    if kind == EPOCH and date_of(value) is not None:
        return {"date": date_of(value), "number": value}
    return value if math.isfinite(value) else plain_text(value)


def number_of(shown, kind):
    """The number, or string, that JSON shows. In type 31 a number has its date beside it if it has one, and only then."""
    number = shown["number"] if isinstance(shown, dict) else shown
    dated = kind == EPOCH and not isinstance(number, str) and date_of(number) is not None
    assert shown == ({"date": date_of(number), "number": number} if dated else number), (shown, kind)
    return number


def exactly(shown):
    """What JSON shows, with doubles as their bits: negative zero is not zero, and 1 is not 1.0."""
    if isinstance(shown, list):
        return list(map(exactly, shown))
    if isinstance(shown, dict):
        return [(name, exactly(value)) for name, value in shown.items()]
    return f"{bits_of(shown):016x}" if isinstance(shown, float) else shown


def asked(cdfread, status, *words):
    done = subprocess.run([cdfread, *map(str, words)], capture_output=True, text=True, check=False)
    assert (done.returncode, done.stderr) == (status, ""), (words, done)
    return done.stdout


def compare_values(cdfread, path, kind, doubles, refused):
    """What is printed of the two variables of a made file: a line a record, and all on one line."""
    texts, wanted = [text_of(each, kind) for each in doubles], [json_of(each, kind) for each in doubles]
    status = 1 if refused else 0
    expected = [f"{i}: {text}" for i, text in enumerate(texts)]
    assert asked(cdfread, status, path, "z", 0).splitlines() == expected + refused, path
    assert asked(cdfread, status, path, "z", 1).splitlines() == ["0: " + " ".join(texts)] + refused, path
    found = [json.loads(line) for line in asked(cdfread, status, "--json", path, "z", 0).splitlines()]
    assert exactly(found) == exactly([{"record": i, "values": [value]} for i, value in enumerate(wanted)]), path
    (found,) = map(json.loads, asked(cdfread, status, "--json", path, "z", 1).splitlines())
    assert exactly(found) == exactly({"record": 0, "values": wanted}), path


def compare_listing(cdfread, path, kind, doubles, pad, refused):
    """What the listing of a made file has of the pad values and of the entry."""
    status = 1 if refused else 0
    lines = asked(cdfread, status, path).splitlines()
    shown = [line[14:] for line in lines if line.startswith("  pad  ")]
    assert shown == [text_of(pad, kind)] * 2, (path, shown)
    (entry,) = [line.split(": ")[1] for line in lines if line.startswith("  gEntry ")]
    assert entry.split(" ") == [text_of(each, kind) for each in doubles], path
    assert lines[len(lines) - len(refused):] == refused and "\n".join(lines).count("refused") == len(refused), path
    found = json.loads(asked(cdfread, status, "--json", path))
    assert exactly([each["pad"] for each in found["variables"]]) == exactly([json_of(pad, kind)] * 2), path
    values = found["attributes"][0]["entries"][0]["values"]
    assert exactly(values) == exactly([json_of(each, kind) for each in doubles]), path
