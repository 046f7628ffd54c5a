#!/usr/bin/env python3
"""ask_sqlite.py RECORDS WORD OTHER DENIED PREFIX: the questions of loops.c asked of SQLite over the records of records.py.

The words stand in FTS5 without content, optimized, the other fields in a table without indexes, both in memory. Of each
question it prints the least processor time of four rounds and the first row.
"""
import json
import sqlite3
import sys
import time

ROUNDS = 4


def main():
    records, word, other, denied, prefix = sys.argv[1:6]
    store = sqlite3.connect(":memory:")
    store.execute("create virtual table words using fts5(body, content='', tokenize='unicode61')")
    store.execute("create table fields(id integer primary key, ts integer, level text, n integer)")
    with open(records) as lines:
        for number, line in enumerate(lines, 1):
            record = json.loads(line.split(" ", 2)[2])
            store.execute("insert into words(rowid, body) values(?, ?)", (number, record["body"]))
            store.execute("insert into fields values(?, ?, ?, ?)", (number, record["ts"], record["level"], record["n"]))
    store.execute("insert into words(words) values('optimize')")
    store.commit()
    matching = "select count(*) from words where words match '%s'"
    questions = [
        ("one word", matching % word),
        ("both words", matching % f"{word} AND {other}"),
        ("not the third word", f"select (select count(*) from fields) - ({matching % denied})"),
        ("both words as a phrase", matching % f'"{word} {other}"'),
        ("the prefix", matching % f"{prefix}*"),
        ("the texts", "select level, count(*) from fields group by level order by 2 desc"),
        ("steps of a thousand", "select n / 1000, count(*) from fields group by 1"),
        ("hours", "select ts / 3600, count(*) from fields group by 1"),
        ("the first 20 by the number", "select id from fields order by n limit 20"),
        ("the last 20 by the time", "select id from fields order by ts desc limit 20"),
        ("the first 20 of a word", f"select rowid from words where words match '{word}' order by rowid limit 20"),
    ]
    for name, question in questions:
        least = float("inf")
        for _ in range(ROUNDS):
            start = time.thread_time()
            rows = store.execute(question).fetchall()
            least = min(least, time.thread_time() - start)
        print("%10.3f ms  %s  %s" % (least * 1000, rows[0], name))


main()
