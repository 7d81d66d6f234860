"""Looks at every record of good files with cdfread --at: records.py CDFREAD FILE..

Fields are decoded here from their order and lengths, apart from the tables of the tool, and compared with what is shown as JSON and
as text; entries of index records and the bytes behind the fields too. Prints how many files, records and fields were compared; exits
with 1 if one differs.
"""
import json
import subprocess
import sys

# Type: name, plain words, fields in order behind size and type (4 bytes unless a length is given), what stands behind them.
RVDR = "VDRnext* DataType MaxRec VXRhead* VXRtail* Flags* sRecords rfuB rfuC rfuF NumElems Num CPRorSPRoffset* BlockingFactor Name:64"
AEDR = "AEDRnext* Num DataType EntryNum NumElems rfuA rfuB rfuC rfuD rfuE"
KINDS = {
    1: ("CDR", "CDF descriptor record",
        "GDRoffset* Version Release Encoding Flags* rfuA rfuB Increment rfuD rfuE Copyright:256", "bytes"),
    2: ("GDR", "global descriptor record", "rVDRhead* zVDRhead* ADRhead* eof* NrVars NumAttr rMaxRec rNumDims NzVars UIRhead* "
        "rfuC rfuD rfuE", "bytes"),
    3: ("rVDR", "rVariable record", RVDR, "PadValue"),
    4: ("ADR", "attribute record", "ADRnext* AgrEDRhead* Scope Num NgrEntries MAXgrEntry rfuA AzEDRhead* NzEntries MAXzEntry rfuE "
        "Name:64", "bytes"),
    5: ("AgrEDR", "g/r entry record", AEDR, "Value"),
    6: ("VXR", "index record", "VXRnext* Nentries NusedEntries", "bytes"),
    7: ("VVR", "values record", "", "Records"),
    8: ("zVDR", "zVariable record", RVDR + " zNumDims", "PadValue"),
    9: ("AzEDR", "z entry record", AEDR, "Value"),
    10: ("CCR", "compressed file record", "CPRoffset* uSize rfuA", "data"),
    11: ("CPR", "compression parameters record", "cType rfuA pCount", "bytes"),
    12: ("SPR", "sparseness parameters record", "sArraysType rfuA pCount", "bytes"),
    13: ("CVVR", "compressed values record", "rfuA cSize", "data"),
    -1: ("UIR", "unused record", "NextUIR* PrevUIR*", "Remainder"),
}
ARRAYS = {2: [("rDimSizes", "rNumDims")], 3: [("DimVarys", None)], 8: [("zDimSizes", "zNumDims"), ("DimVarys", "zNumDims")],
          11: [("cParms", "pCount")], 12: [("sArraysParms", "pCount")]}
cdfread = sys.argv[1]
records = fields_compared = 0


def number(data, at):
    return int.from_bytes(data[at:at + 4], "big", signed=True)


def asked(path, *words):
    done = subprocess.run([cdfread, path, *words], capture_output=True, check=False)
    assert done.stderr == b"", (path, words, done.stderr)
    return done.returncode, done.stdout.decode("ascii")


def text_of(data):
    """A string up to its NUL, as the tool shows it."""
    return "".join("\\" + chr(c) if c in b'"\\' else chr(c) if 32 <= c < 127 else f"\\x{c:02x}" for c in data.split(b"\0")[0])


def both(value):
    return f"0x{value % 2**32:x} ({value})"


def fixed_fields(record, names):
    """Offset, name, value and text of the fields that the record has, and where they end."""
    found, at = [(0, "RecordSize", number(record, 0), None), (4, "RecordType", number(record, 4), None)], 8
    for word in names.split():
        name, _, length = word.rstrip("*").partition(":")
        if at + int(length or 4) > len(record):
            return found, at
        if length:
            field = record[at:at + int(length)]
            found.append((at, name, field.split(b"\0")[0].decode("latin-1"), f'"{text_of(field)}"'))
        else:
            value = number(record, at)
            found.append((at, name, value, both(value) if word.endswith("*") else None))
        at += int(length or 4)
    return found, at


def expected(data, offset):
    """What is to be shown of a good record: fields, entries, and where the bytes behind them begin."""
    record = data[offset:offset + number(data, offset)]
    kind = number(record, 4)
    found, at = fixed_fields(record, KINDS[kind][2])
    values = {name: value for _, name, value, _ in found}
    for name, count in ARRAYS.get(kind, []):
        n = number(data, number(data, 16) + 36) if count is None else values[count]
        array = [number(record, at + 4 * i) for i in range(n)]
        found.append((at, name, array, " ".join(map(str, array)) or "none"))
        at += 4 * n
    entries = []
    if kind == 6:
        n = values["Nentries"]
        entries = [[number(record, at + 4 * (i + n * part)) for part in range(3)] for i in range(n)]
        at += 12 * n
    return record, found, entries, at


def compare_json(path, offset, record, found, entries, at):
    status, out = asked(path, "--at", str(offset), "--json")
    shown = json.loads(out)
    kind = KINDS[number(record, 4)]
    assert (status, shown["notes"]) == (0, []), (path, offset, status, shown["notes"])
    assert (shown["offset"], shown["offset_hex"]) == (offset, hex(offset))
    assert (shown["type_name"], shown["record"]) == kind[:2], (path, offset, shown)
    got = [(each["at"], each["name"], each.get("value", each.get("values"))) for each in shown["fields"]]
    assert got == [each[:3] for each in found], (path, offset, got, found)
    for each, (_, _, value, text) in zip(shown["fields"], found):
        assert each.get("hex") == (text.split()[0] if text and text.startswith("0x") else None), (path, offset, each)
    used = number(record, 16) if entries else 0
    got = [(each["entry"], each["used"], each["first"], each["last"], each["offset"]) for each in shown["entries"]]
    assert got == [(i, i < used, *each) for i, each in enumerate(entries[:64])], (path, offset, got)
    assert shown["more_entries"] == max(0, len(entries) - 64)
    rest, whole = record[at:], len(found) >= 2 + len(kind[2].split())
    assert shown["bytes"] == {"at": at, "name": kind[3] if whole else "bytes", "length": len(rest), "hex": rest[:256].hex(),
                              "more": max(0, len(rest) - 256)}, (path, offset, shown["bytes"])


def compare_text(path, offset, record, found, entries, at):
    status, out = asked(path, "--at", hex(offset))
    name, words = KINDS[number(record, 4)][:2]
    lines = out.splitlines()
    assert status == 0 and lines.pop(0) == f"{words} ({name}) at {hex(offset)} ({offset})", (path, offset, out)
    for within, field, value, text in found:
        line = lines.pop(0)
        start = f"{within:5} {field:15} "
        assert line.startswith(start), (path, offset, line, start)
        if text is not None:
            assert line == start + text, (path, offset, line)
        else:
            assert line[len(start):].split()[0] == str(value), (path, offset, line)
    for i, (first, last, to) in enumerate(entries[:64]):
        unused = "" if i < number(record, 16) else ", unused"
        assert lines.pop(0) == f"  entry {i}: First {first}, Last {last}, Offset {both(to)}{unused}", (path, offset)
    if len(entries) > 64:
        assert lines.pop(0) == f"  and {len(entries) - 64} more entries", (path, offset)
    rest = record[at:at + 256]
    if rest:
        assert lines.pop(0).split()[0] == str(at), (path, offset)
    for i in range(0, len(rest), 16):
        assert lines.pop(0).startswith(f"  0x{offset + at + i:08x}  {rest[i:i + 16].hex(' '):47}  "), (path, offset, i)
    more = len(record) - at - 256
    assert lines == ([f"  and {more} more bytes"] if more > 0 else []), (path, offset, lines)


for name in sys.argv[2:]:
    with open(name, "rb") as file:
        content = file.read()
    end, here = number(content, number(content, 16) + 20), 8
    while here < end:
        parts = expected(content, here)
        compare_json(name, here, *parts)
        compare_text(name, here, *parts)
        records += 1
        fields_compared += len(parts[1])
        here += number(content, here)
print(f"{len(sys.argv) - 2} files, {records} records, {fields_compared} fields")
