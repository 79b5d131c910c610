#!/usr/bin/env python3
"""Writes the fuzzer's first inputs into a folder: patterns and lines, automaton files, tables, fields."""
import os
import sys

PATTERNS = [
    (b"a*@0b*", b"aab"),
    (b"(a|b)*@0b(a|b)*", b"abba"),
    (b"(@0a*@1)*", b"aa"),
    (b"(a|ab)@0(b|)", b"ab"),
    (b"", b""),
    (b"a**", b""),
    (b"[z-a]", b""),
    (b"[^a-c[:digit:]\\]-\\^]+@7.?", b"xyz"),
    (b"[[:alnum:][:alpha:][:blank:][:cntrl:][:digit:][:graph:]]", b"a"),
    (b"[[:lower:][:print:][:punct:][:space:][:upper:][:xdigit:]]", b"a"),
    (b"(" * 17 + b")" * 17, b""),
    (b"a" * 64, b""),
    (b".*a.....", b"abcabcabc"),
    (b".*@0@1@2@3@4@5@6@7.......", b"0123456789"),
    (b"TRK-@0[0-9]+@1; *@2[0-9]+(\\.[0-9]+)?@3 @4(kg|t)@5", b"TRK-0417;  23450.5 kg"),
]
NETS = [
    "100100011500",
    "1001010613010211616100140003130405116262031500",
    "1001020713010613020514000311616104140100116262001500",
    "1001000212" + "55" * 32 + "011500",
    "100100031301021302011500",
]
TABLES = [
    "2101010101" + "220000" + "ff" * 7 + "2300ff00",
    "21010101012500" + "220000" + "ff" * 7 + "2300ff00",
    "21010101032500220000ffffffffffffff23006001236161002500236262022363ff0122ffffffffffffffffff2300ff01"
    "220000ffffffffffffff23006101236262022363ff01",
    "2101010203250022ffffffffffffffffff230060012361610225002401002362ff0122ffffffffffffffffff2300ff01"
    "220001ffffffffffffff230060012361610225002401002362ff01",
]


def main(folder):
    os.makedirs(folder, exist_ok=True)
    inputs = [bytes([0, 0]) + p + b"\n" + line for p, line in PATTERNS]
    inputs += [bytes([1, 0]) + bytes.fromhex(n) for n in NETS]
    for t in TABLES:
        table = bytes.fromhex(t)
        inputs.append(bytes([2, 0]) + len(table).to_bytes(2, "little") + table + b"abab")
        inputs.append(bytes([2, 0]) + len(table).to_bytes(2, "little") + table + b"\xffab")
    inputs += [bytes([kind, 0]) + bytes(i * k % 251 for i in range(120)) for kind in (3, 4) for k in (1, 7, 31, 77)]
    inputs.append(bytes([5, 10]) + b"\x00\x00\x03\x00" + b"\xff" * 12 + b"abcdef")
    for i, data in enumerate(inputs):
        with open(os.path.join(folder, f"seed-{i:02}"), "wb") as f:
            f.write(data)


main(sys.argv[1])
