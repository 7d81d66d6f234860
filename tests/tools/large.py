"""Writes a good file with N unlisted unused records of 8 bytes behind the base file: large.py BASE N OUT"""
import sys

base, count, out = sys.argv[1], int(sys.argv[2]), sys.argv[3]
with open(base, "rb") as file:
    data = bytearray(file.read())
data += bytes.fromhex("00000008ffffffff") * count
data[332:336] = len(data).to_bytes(4, "big")
with open(out, "wb") as file:
    file.write(data)
