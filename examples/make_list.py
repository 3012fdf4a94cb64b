#!/usr/bin/env python3
"""Makes a key list from plain text lines.

    make_list.py ids.txt keys.lst [MODULUS]

A line is an id, or an id and a value; ids are below 2^64, in decimal or as 0x and hexadecimal digits. Empty lines and what
follows a # do not count. With values the list is an assigned one: its modulus is MODULUS, or one more than the largest value.
Without values it is a compact one.
"""
import sys


def fail(text):
    sys.exit("make_list: " + text)


def number(word, limit, where):
    try:
        value = int(word, 0)
    except ValueError:
        fail(f"{where}: {word} is no number")
    if not 0 <= value < limit:
        fail(f"{where}: {word} is out of range")
    return value


def read(path):
    records = []
    with open(path, encoding="utf-8") as lines:
        for at, line in enumerate(lines, 1):
            words = line.split("#")[0].split()
            where = f"{path}, line {at}"
            if not words:
                continue
            if len(words) > 2:
                fail(f"{where}: an id, or an id and a value")
            record = [number(words[0], 2**64, where)]
            if len(words) == 2:
                record.append(number(words[1], 2**32, where))
            if records and len(record) != len(records[0]):
                fail(f"{where}: either every line has a value or none has")
            records.append(record)
    if not records:
        fail(f"{path}: no ids")
    return records


def compact(keys):
    return b"".join(b"KC" + key.to_bytes(8, "little") for key in keys)


def assigned(pairs, modulus):
    records = (b"KV" + key.to_bytes(8, "little") + value.to_bytes(4, "little") for key, value in pairs)
    return b"KM" + modulus.to_bytes(4, "little") + b"".join(records)


def main(words):
    if len(words) not in (2, 3):
        sys.exit(__doc__)
    records = read(words[0])
    if len(records[0]) == 1:
        if len(words) == 3:
            fail("a list without values has no modulus")
        data = compact([key for (key,) in records])
    else:
        largest = max(value for _, value in records)
        modulus = number(words[2], 2**32, "modulus") if len(words) == 3 else largest + 1
        data = assigned(records, modulus)
    with open(words[1], "wb") as out:
        out.write(data)


if __name__ == "__main__":
    main(sys.argv[1:])
