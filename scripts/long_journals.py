#!/usr/bin/env python3
"""Journals at the limits of what `mokdrai upgrade` reads, with the time and the memory that each takes.

    scripts/long_journals.py PROGRAM

PROGRAM is the built program, as crates/mokdrai/out/mokdrai. Each journal is of the first form: one of nearly
268,435,456 bytes with few large saves, one of 524,288 short entries (the most), one of as many that are longer, and one
of a million small opening files.
What is written has to be the same journal in the second form, which `upgrade` leaves as it is. One byte more than the
limit has to end with 13 and one line on the notes, one entry more and a journal whose last line is missing with 7
and the number of the line. It is no part of the gate.
"""
import multiprocessing
import os
import subprocess
import sys
import tempfile
import time

MOST = 268_435_456
ENTRIES = 524_288
FILE = b"a.csv".hex()
TOKEN = f"ann.{FILE}.w.2.0.9000000"
LONG_TOKEN = f"{'u' * 64}.{FILE}.w.18446744073709551615.0.9000000"


def must(holds, what):
    if not holds:
        raise AssertionError(what)


def entry(number, act, token=TOKEN, contents="-", told="-"):
    """A line, up to the moment and behind it: the second form has the shard's time between the two."""
    return f"{number} 11 0 5", f"{FILE} {act} {token} 200 - - {told} {contents}"


def large(number):
    size = 8_000_000
    return entry(number, f"put 4c31 {size}", contents="31" * size, told=f"v{number + 1}")


def short(number):
    return entry(number, "lock 4c31", told="v1")


def long(number):
    return entry(number, f"relock {'4c' * 80} {'4d' * 80}", LONG_TOKEN, told="v1")


def write_files(path, count):
    """A journal of opening files alone, in the first form, and what it has to become."""
    names = (b"%07d" % number for number in range(count))
    rows = b"".join(b"file %s 31\n" % name.hex().encode() for name in sorted(names, key=lambda name: (sum(name) % 16, name)))
    with open(path, "wb") as old, open(path + ".new", "wb") as new:
        old.write(b"wopi journal 1 opened 0\n" + rows + b"end\n")
        new.write(b"wopi journal 2 opened 0 first 1\n" + rows + b"end 0\n")


def write(path, line, count, behind=b"end\n"):
    """The first form, and what it has to become."""
    with open(path, "wb") as old, open(path + ".new", "wb") as new:
        old.write(b"wopi journal 1 opened 0\n")
        new.write(b"wopi journal 2 opened 0 first 1\n")
        for number in range(1, count + 1):
            before, after = line(number)
            old.write(f"{before} {after}\n".encode())
            new.write(f"{before} 5 {after}\n".encode())
        old.write(behind)
        new.write(f"end {count}\n".encode())


def upgrade(program, path, out):
    """The status, what was noted, the seconds, and the most MiB that it held."""
    with open(path, "rb") as taken, open(out, "wb") as written:
        begun = time.monotonic()
        process = subprocess.Popen([program, "upgrade"], stdin=taken, stdout=written, stderr=subprocess.PIPE)
        notes = process.stderr.read()
        _, status, used = os.wait4(process.pid, 0)
    return os.waitstatus_to_exitcode(status), notes, time.monotonic() - begun, used.ru_maxrss / 1024


def same(one, other):
    return subprocess.run(["cmp", "-s", one, other]).returncode == 0


def in_another_process(text, path):
    """Writes a text, whose memory the program would else seem to have held."""
    process = multiprocessing.get_context("fork").Process(target=text, args=(path,))
    process.start()
    process.join()
    must(process.exitcode == 0, "no text")
    return os.path.getsize(path)


def is_upgraded(program, room, what, text):
    path, out, again = (os.path.join(room, name) for name in ("old", "out", "again"))
    size = in_another_process(text, path)
    status, notes, seconds, most = upgrade(program, path, out)
    must((status, notes) == (0, b""), f"{what}: status {status}, {notes}")
    must(same(out, path + ".new"), f"{what}: another text")
    if os.path.getsize(out) <= MOST:
        must(upgrade(program, out, again)[0] == 0 and same(again, out), f"{what}: the second form changed")
    print(f"{what}: {size:,} bytes, {seconds:.1f} seconds, {most:,.0f} MiB at most, {most * 2**20 / size:.1f} times its size")


def is_refused(program, room, what, wanted, text):
    path, out = (os.path.join(room, name) for name in ("old", "out"))
    text(path)
    status, notes, seconds, most = upgrade(program, path, out)
    with open(out, "rb") as written:
        must((status, notes, written.read(100)) == wanted, f"{what}: status {status}, {notes}")
    print(f"{what}: status {status}, {seconds:.1f} seconds, {most:,.0f} MiB at most")


def of_bytes(count):
    def text(path):
        with open(path, "wb") as old:
            old.truncate(count)
    return text


def main():
    program = sys.argv[1]
    with tempfile.TemporaryDirectory() as room:
        is_upgraded(program, room, "few large saves", lambda path: write(path, large, 16))
        is_upgraded(program, room, "most entries, short", lambda path: write(path, short, ENTRIES))
        is_upgraded(program, room, "most entries, long", lambda path: write(path, long, ENTRIES))
        is_upgraded(program, room, "a million files", lambda path: write_files(path, 1_000_000))
        bad = lambda number: (7, b"", b"line %d: bad line\n" % number)
        is_refused(program, room, "the longest, all bytes zero", bad(1), of_bytes(MOST))
        is_refused(program, room, "one byte more", (13, b"journal too long\n", b""), of_bytes(MOST + 1))
        is_refused(program, room, "one entry more", bad(ENTRIES + 2), lambda path: write(path, short, ENTRIES + 1))
        is_refused(program, room, "no last line", bad(12), lambda path: write(path, short, 10, b""))


main()
