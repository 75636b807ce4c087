#!/usr/bin/env python3
"""Legal journals at the limits, with the time and the memory that `mokdrai audit`, `contents` and `upgrade` take for each.

    scripts/audit_costs.py PROGRAM

PROGRAM is the built program, as crates/mokdrai/out/mokdrai. Each journal is of the second form: one of 268,435,456 bytes
(the most) with few large saves, one of 524,288 short entries (the most) in sixteen shards, and one of as many of which
every second one spends an id that stays spent. Each has to be legal; the contents of its last version have to come
back, and `upgrade` has to write it as it is. One byte more than the limit has to end with 13. It is no part of the gate.
"""
import multiprocessing
import os
import subprocess
import sys
import tempfile
import time

MOST = 268_435_456
ENTRIES = 524_288
NAMES = sorted((f"{letter}.csv" for letter in "abcdefghijklmnop"), key=lambda name: sum(name.encode()) % 16)


def must(holds, what):
    if not holds:
        raise AssertionError(what)


def hexed(text):
    return text.encode().hex()


def line(stamp, name, act, told, contents="-", serial=0):
    """An entry that is accepted, under a token that stays good."""
    shard = sum(name.encode()) % 16
    token = f"ann.{hexed(name)}.w.{serial}.0.9000000"
    return f"{stamp} {shard} 0 5 5 {hexed(name)} {act} {token} 200 - - {told} {contents}\n"


def head(names):
    return "wopi journal 2 opened 0 first 1\n" + "".join(f"file {hexed(name)} 312c320a\n" for name in names)


def saves(journal, count=16):
    """Saves of one file, as many bytes as may be: the last contents, and a serial of the token, fill them up."""
    name = NAMES[0]
    journal.write(head([name]) + line(1, name, "lock 4c31", "v1"))
    size = MOST // (2 * count) - 1_000
    for number in range(2, count + 1):
        journal.write(line(number, name, f"put 4c31 {size}", f"v{number}", "31" * size))
    left = MOST - journal.tell() - len(f"end {count + 1}\n")
    for serial in (0, 10):
        bare = len(line(count + 1, name, f"put 4c31 {left // 2}", f"v{count + 1}", "", serial))
        if (left - bare) % 2 == 0:
            last = (left - bare) // 2
            journal.write(line(count + 1, name, f"put 4c31 {last}", f"v{count + 1}", "32" * last, serial))
            break
    journal.write(f"end {count + 1}\n")
    return count + 1, name, count + 1


def looks(journal):
    """Each shard's file is asked about in turn."""
    journal.write(head(NAMES))
    for stamp in range(1, ENTRIES + 1):
        journal.write(line(stamp, NAMES[stamp % 16], "info", "v1"))
    journal.write(f"end {ENTRIES}\n")
    return ENTRIES, NAMES[5], 1


def locks(journal):
    """Each shard's file is locked and unlocked, under an id of its own each time."""
    journal.write(head(NAMES))
    for stamp in range(1, ENTRIES + 1, 2):
        name, lock = NAMES[stamp // 2 % 16], hexed(str(stamp))
        journal.write(line(stamp, name, f"lock {lock}", "v1") + line(stamp + 1, name, f"unlock {lock}", "v1"))
    journal.write(f"end {ENTRIES}\n")
    return ENTRIES, NAMES[5], 1


def in_another_process(text, path):
    """Writes a journal, whose memory the program would else seem to have held."""
    def write(told):
        with open(path, "w", encoding="ascii", newline="\n") as journal:
            told.send(text(journal))
    ours, theirs = multiprocessing.Pipe(False)
    process = multiprocessing.get_context("fork").Process(target=write, args=(theirs,))
    process.start()
    told = ours.recv()
    process.join()
    must(process.exitcode == 0, "no text")
    return told


def run(program, words, path, out):
    """The status, the seconds, and the most MiB that it held."""
    with open(path, "rb") as taken, open(out, "wb") as written:
        begun = time.monotonic()
        process = subprocess.Popen([program, *words], stdin=taken, stdout=written, stderr=subprocess.DEVNULL)
        _, status, used = os.wait4(process.pid, 0)
    return os.waitstatus_to_exitcode(status), time.monotonic() - begun, used.ru_maxrss / 1024


def measure(program, room, what, text):
    path, out = os.path.join(room, "journal"), os.path.join(room, "out")
    entries, name, version = in_another_process(text, path)
    size = os.path.getsize(path)
    for words in (["audit"], ["contents", hexed(name), str(version)], ["upgrade"]):
        status, seconds, most = run(program, words, path, out)
        must(status == 0, f"{what}: {words[0]} ended with {status}")
        with open(out, "rb") as written:
            if words[0] == "audit":
                must(written.read() == f"legal {entries}\n".encode(), f"{what}: not legal")
            elif words[0] == "contents":
                must(written.read(4) in (b"1,2\n", b"2222"), f"{what}: other contents")
        if words[0] == "upgrade":
            must(subprocess.run(["cmp", "-s", path, out]).returncode == 0, f"{what}: another text")
        print(f"{what}, {size:,} bytes: {words[0]} {seconds:.1f} seconds, {most:,.0f} MiB at most", flush=True)


def main():
    program = sys.argv[1]
    with tempfile.TemporaryDirectory() as room:
        measure(program, room, "16 large saves", saves)
        measure(program, room, "most entries", looks)
        measure(program, room, "most entries, ids spent", locks)
        path, out = os.path.join(room, "journal"), os.path.join(room, "out")
        with open(path, "wb") as journal:
            journal.truncate(MOST + 1)
        for command in ("audit", "upgrade"):
            must(run(program, [command], path, out)[0] == 13, f"{command}: one byte more is read")


main()
