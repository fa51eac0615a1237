#!/usr/bin/env python3
"""Reads an evidence file (docs/formats/evidence.md) from standard input, and prints what it holds or where it is none:

    vdr FOLDER evidence longterm all - - > voyage.evidence
    examples/evidence.py < voyage.evidence"""
import hashlib
import struct
import sys

KINDS = ("start", "data", "gap", "stop")


def records_of(file):
    """Gives the five parts of the heading, and the records as (kind, place, bytes); ValueError says what is not legal, and where."""
    at = 0

    def need(holds, cause):
        if not holds:
            raise ValueError(f"{cause} at {at}")

    def take(size):
        nonlocal at
        need(len(file) - at >= size, "cut off")
        at += size
        return file[at - size:at]

    need(take(8) == b"VDREVID1", "no evidence file")
    heading = [take(int.from_bytes(take(4), "little")) for _ in range(5)]
    need(heading[1] in (b"\0", b"\1") and len(heading[2]) == 4, "no medium")
    records = []
    while size := int.from_bytes(take(4), "little"):
        record = take(size)
        need(size >= 44, "no record")
        kind, _, payload, _, place = struct.unpack_from("<BBHQQ", record)
        need(kind < 4 and size == 44 + payload and (not records or records[-1][1] < place), "no record")
        records.append((kind, place, record))
    need(int.from_bytes(take(8), "little") == len(records), "another number of records")
    need(hashlib.sha256(file[:at]).digest() == take(32), "another digest")
    need(at == len(file), "more bytes")
    return heading, records


def main():
    file = sys.stdin.buffer.read()
    (config, medium, incident, label, query), records = records_of(file)
    print("configuration", hashlib.sha256(config).hexdigest())
    print("medium", medium[0], "incident", int.from_bytes(incident, "little"), label.decode(), "query", query.decode())
    print("records", len(records), "places", *[records[i][1] for i in (0, -1) if records], *[f"{word} {sum(r[0] == k for r in records)}" for k, word in enumerate(KINDS)])
    print("sha256", file[-32:].hex())


if __name__ == "__main__":
    main()
