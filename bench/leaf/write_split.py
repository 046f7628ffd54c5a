#!/usr/bin/env python3
"""write_split.py RECORDS FILE: the split file of such records as records.py makes, from docs/FORMATS.md alone.

The fields are body (0), a text with positions whose tokens stand between blanks, level (1), a fast raw text, n (2), a fast
number that is no less than 0, and ts (3), a fast datetime; all are indexed. It shares no code with the builder.
"""
import collections
import json
import struct
import sys

BLOCK_OF_TERMS = 64
BLOCK_OF_DOCUMENTS = 128
BODY, LEVEL, NUMBER, TIME = range(4)


def number_bytes(number):
    out = bytearray()
    while number > 127:
        out.append((number & 127) | 128)
        number >>= 7
    out.append(number)
    return bytes(out)


SMALL = [number_bytes(number) for number in range(70_000)]


def spelled(number):
    return SMALL[number] if number < len(SMALL) else number_bytes(number)


def byte_string(content):
    return spelled(len(content)) + content


def field_key(field, term):
    return struct.pack(">H", field) + term


def document_bytes(partition, offset, record):
    body = record["body"].encode()
    level = record["level"].encode()
    fields = [
        spelled(BODY) + spelled(1) + byte_string(body),
        spelled(LEVEL) + spelled(1) + byte_string(level),
        spelled(NUMBER) + spelled(1) + spelled(record["n"]),
        spelled(TIME) + spelled(1) + spelled(2 * record["ts"]),
    ]
    return spelled(partition) + spelled(offset) + spelled(len(fields)) + b"".join(fields)


def list_bytes(documents, places):
    """The list of a term and its positions; places is None where the field keeps none."""
    heads, blocks, positions = bytearray(), bytearray(), bytearray()
    last = 0
    for start in range(0, len(documents), BLOCK_OF_DOCUMENTS):
        before, block_start, positions_start = last, len(blocks), len(positions)
        for index in range(start, min(start + BLOCK_OF_DOCUMENTS, len(documents))):
            blocks += spelled(documents[index] - last)
            last = documents[index]
            if places is not None:
                blocks += spelled(len(places[index]))
                place_before = 0
                for place in places[index]:
                    positions += spelled(place - place_before)
                    place_before = place
        if start + BLOCK_OF_DOCUMENTS < len(documents):
            heads += spelled(last - before) + spelled(len(blocks) - block_start) + spelled(len(positions) - positions_start)
    return bytes(heads + blocks), bytes(positions)


def column_bytes(values, texts=None):
    out = bytearray(spelled(len(values)))
    if texts is not None:
        out += spelled(len(texts)) + b"".join(byte_string(text.encode()) for text in texts)
    out += b"".join(struct.pack("<I", number) for number in range(len(values)))
    least = min(values)
    width = (max(values) - least).bit_length()
    out += struct.pack("<QB", least, width)
    held, bits = 0, 0
    for value in values:
        held |= (value - least) << bits
        bits += width
        while bits >= 8:
            out.append(held & 255)
            held >>= 8
            bits -= 8
    if bits:
        out.append(held & 255)
    return bytes(out)


class Split:
    def __init__(self):
        self.starts = [0]
        self.area = bytearray()
        self.documents = collections.defaultdict(list)
        self.places = {}
        self.levels, self.numbers, self.times = [], [], []

    def add(self, partition, offset, record):
        document = len(self.levels)
        self.area += document_bytes(partition, offset, record)
        self.starts.append(len(self.area))
        places = {}
        for place, word in enumerate(record["body"].split(" ")):
            places.setdefault(word, []).append(place)
        for word, at in places.items():
            key = field_key(BODY, word.encode())
            self.documents[key].append(document)
            self.places.setdefault(key, []).append(at)
        turned = record["ts"] + 2**63
        self.documents[field_key(LEVEL, record["level"].encode())].append(document)
        self.documents[field_key(NUMBER, struct.pack(">Q", record["n"]))].append(document)
        self.documents[field_key(TIME, struct.pack(">Q", turned))].append(document)
        self.levels.append(record["level"])
        self.numbers.append(record["n"])
        self.times.append(turned)

    def columns(self):
        texts = sorted(set(self.levels))
        places = {text: place for place, text in enumerate(texts)}
        return [
            (LEVEL, column_bytes([places[level] for level in self.levels], texts)),
            (NUMBER, column_bytes(self.numbers)),
            (TIME, column_bytes(self.times)),
        ]

    def file(self, partitions):
        count = len(self.levels)
        for field in range(4):
            self.documents[b"\xff\xff" + struct.pack(">H", field)] = range(count)
        dictionary, postings, positions, index = bytearray(), bytearray(), bytearray(), []
        keys = sorted(self.documents)
        for number, key in enumerate(keys):
            if number % BLOCK_OF_TERMS == 0:
                index.append((key, len(dictionary)))
            listed, placed = list_bytes(self.documents[key], self.places.get(key))
            numbers = [len(self.documents[key]), len(postings), len(listed), len(positions), len(placed)]
            dictionary += byte_string(key) + b"".join(spelled(each) for each in numbers)
            postings += listed
            positions += placed
        columns, starts = bytearray(), []
        for field, column in self.columns():
            starts.append((field, len(columns)))
            columns += column
        documents = b"".join(struct.pack("<Q", start) for start in self.starts) + bytes(self.area)
        sections = [documents, dictionary, postings, positions, columns]
        footer = spelled(count) + b"".join(spelled(len(section)) for section in sections)
        footer += spelled(len(partitions)) + b"".join(byte_string(name.encode()) for name in partitions)
        footer += spelled(len(keys)) + spelled(len(index)) + b"".join(byte_string(key) + spelled(at) for key, at in index)
        footer += spelled(len(starts)) + b"".join(spelled(field) + spelled(at) for field, at in starts)
        return b"QWS\x02" + b"".join(sections) + footer + struct.pack("<Q", len(footer)) + b"QWF\x02"


def main():
    split = Split()
    with open(sys.argv[1]) as lines:
        for line in lines:
            name, offset, record = line.split(" ", 2)
            split.add(int(name[1:]), int(offset), json.loads(record))
    content = split.file(["p0", "p1", "p2", "p3"])
    with open(sys.argv[2], "wb") as out:
        out.write(content)
    print(len(split.levels), "documents,", len(split.documents), "terms,", len(content), "bytes")


main()
