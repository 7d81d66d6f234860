"""What files that are made for tests have in common."""


def fields(*numbers):
    """Fields of 4 bytes."""
    return b"".join((number % 2**32).to_bytes(4, "big") for number in numbers)


def opening(encoding, length, z_variables, attribute=0):
    """Magics, CDR and GDR of a file: its zVariables begin at 372, and it has one attribute if that has an offset."""
    cdr = fields(304, 1, 312, 2, 7, encoding, 3) + bytes(276)
    gdr = fields(60, 2, 0, 372, attribute, length, 0, 1 if attribute else 0, -1, 0, z_variables, 0, 0, 0, 0)
    return fields(0xCDF26002, 0x0000FFFF) + cdr + gdr


def variable(at, number, kind, values, size, pad, later):
    """A zVariable at an offset, all of its records in one run: of one value each, or of so many along a dimension."""
    dimensions = [] if size == 0 else [size]
    length = 132 + 8 * len(dimensions) + len(pad or b"")
    records = len(values) if size == 0 else 1
    body = b"".join(values)
    index, run = at + length, at + length + 32
    end = run + 8 + len(body)
    flags = 1 if pad is None else 3
    data = fields(length, 8, end if later else 0, kind, records - 1, index, index, flags, 0, 0, 0, 0, 1, number, 0, 0)
    data += f"float{number}".encode().ljust(64, b"\0") + fields(len(dimensions), *dimensions, *[-1] * len(dimensions))
    data += (pad or b"") + fields(32, 6, 0, 1, 1, 0, records - 1, run) + fields(8 + len(body), 7) + body
    return data


def file_of(encoding, kind, pad, values):
    """A file of values of 4 or 8 bytes: the records of zVariable 0, the one record of zVariable 1, the elements of gEntry 0."""
    variables = variable(372, 0, kind, values, 0, pad, True)
    variables += variable(372 + len(variables), 1, kind, values, len(values), pad, False)
    attribute = 372 + len(variables)
    body = b"".join(values)
    data = fields(116, 4, 0, attribute + 116, 1, 0, 1, 0, 0, 0, 0, -1, 0) + b"floats".ljust(64, b"\0")
    data += fields(48 + len(body), 5, 0, 0, kind, 0, len(values), 0, 0, 0, 0, 0) + body
    return opening(encoding, attribute + len(data), 2, attribute) + variables + data
