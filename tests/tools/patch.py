"""Changes a saved check (tools/saved.h) and makes its last sum right again: patch.py FILE OFFSET HEX.. [cut N] [older N]

Each OFFSET HEX pair writes bytes. With `cut N` the last N bytes before the sum are dropped. With `older N` the state keeps its first
N numbers, as in the older forms of 12 and 33.
"""
import sys


def fnv1a(data):
    total = 0xCBF29CE484222325
    for byte in data:
        total = (total ^ byte) * 0x100000001B3 % 2**64
    return total


name, words = sys.argv[1], sys.argv[2:]
with open(name, "rb") as saved:
    body = bytearray(saved.read()[:-8])
for word, value in zip(words[::2], words[1::2]):
    if word == "cut":
        del body[len(body) - int(value):]
    elif word == "older":
        kept = int(value)
        body[8:12 + 4 * int.from_bytes(body[8:12], "little")] = kept.to_bytes(4, "little") + body[12:12 + 4 * kept]
    else:
        new = bytes.fromhex(value)
        body[int(word):int(word) + len(new)] = new
with open(name, "wb") as saved:
    saved.write(body + fnv1a(body).to_bytes(8, "little"))
