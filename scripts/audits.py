#!/usr/bin/env python3
"""Journals of random connections, and journals that are wrong somewhere, judged by `mokdrai audit` and by a reading of its own.

    scripts/audits.py PROGRAM [JOURNALS [SEED]]

PROGRAM is the built program, as crates/mokdrai/out/mokdrai. For each of JOURNALS (100) a `serve` of one to four workers
answers random requests on a few files: locks, saves, copies, deletions and others, under tokens that are good, out of
date, of another file or without the right to write. Its journal has to be legal. So has one that is made up here, in which
hours go by. Then one field of an entry of each is changed at random, and the time from one entry on; what `audit` says
has to be what the rules say, which are read here in the slowest way: each line by all lines before it. Contents of a
version that was saved have to come back by `contents`. It is no part of the gate.
"""
import dataclasses
import hashlib
import hmac
import os
import random
import socket
import subprocess
import sys
import tempfile
import time
from typing import Optional

KEY = "4a656665"
HALF_AN_HOUR = 1_800_000
NAMES = ["a.csv", "b.csv", "c.csv", "d.txt"]
IDS = ["L1", "L2", "L3"]
STATUSES = [200, 401, 404, 409, 412, 500]
WRITING = {"put", "lock", "refresh", "unlock", "relock", "look", "create", "delete"}


def hexed(text):
    return text.encode().hex()


@dataclasses.dataclass(frozen=True)
class Token:
    user: str
    name: str
    rights: str
    serial: int
    issued: int
    expires: int

    def text(self):
        return f"{self.user}.{hexed(self.name)}.{self.rights}.{self.serial}.{self.issued}.{self.expires}"


@dataclasses.dataclass(frozen=True)
class Entry:
    stamp: int
    shard: int
    owner: int
    moment: int
    now: int
    name: str
    act: tuple
    token: Token
    status: int
    lock: str
    reason: str
    version: str
    contents: str

    def saves(self):
        return self.act[0] in ("put", "create")

    def text(self):
        act = " ".join(self.act)
        brought = (self.contents if self.contents != "-" else "00" * int(self.act[2])) if self.saves() and self.status == 200 else ""
        contents = brought or "-"
        return (f"{self.stamp} {self.shard} {self.owner} {self.moment} {self.now} {hexed(self.name)} {act} {self.token.text()} "
                f"{self.status} {self.lock} {self.reason} {self.version} {contents}\n")


@dataclasses.dataclass(frozen=True)
class Journal:
    opened: int
    first: int
    files: tuple
    entries: tuple

    def text(self):
        rows = [f"wopi journal 2 opened {self.opened} first {self.first}\n"]
        rows += [f"file {hexed(name)} {contents}\n" for name, contents in self.files]
        return "".join(rows + [entry.text() for entry in self.entries] + [f"end {len(self.entries)}\n"])


ACT_WORDS = {"info": 1, "get": 2, "put": 3, "lock": 2, "getlock": 1, "refresh": 2, "unlock": 2, "relock": 3, "look": 1, "create": 3, "delete": 1}


def read(text):
    rows = [line.split(" ") for line in text.splitlines()]
    files = tuple((bytes.fromhex(row[1]).decode(), row[2]) for row in rows[1:-1] if row[0] == "file")
    entries = []
    for row in rows[1 + len(files):-1]:
        words = ACT_WORDS[row[6]]
        user, name, rights, serial, issued, expires = row[6 + words].split(".")
        token = Token(user, bytes.fromhex(name).decode(), rights, int(serial), int(issued), int(expires))
        status, lock, reason, version, contents = row[7 + words:]
        entries.append(Entry(*map(int, row[:5]), bytes.fromhex(row[5]).decode(), tuple(row[6:6 + words]), token, int(status), lock, reason, version, contents))
    return Journal(int(rows[0][4]), int(rows[0][6]), files, tuple(entries))


# ---- the rules


@dataclasses.dataclass
class File:
    version: int
    size: Optional[int]
    held: Optional[tuple] = None  # id, since, until
    spent: list = dataclasses.field(default_factory=list)  # id, until


def shard_of(name):
    return sum(name.encode()) % 16


def settle(file, now):
    if file.held and file.held[1] + HALF_AN_HOUR <= now:
        file.spent.append((file.held[0], file.held[2]))
        file.held = None
    file.spent = [one for one in file.spent if now < one[1]]


def refusal(file, entry, opened, now):
    """What the table says of a call that isn't accepted: its status and its reason."""
    act, token, held = entry.act[0], entry.token, file.held and file.held[0]
    if not (now < token.expires and opened <= token.issued) or (act != "create" and token.name != entry.name):
        return 401, "-"
    if (act != "create" and file.size is None) or (act in WRITING and token.rights == "r"):
        return 404, "-"
    shown = {"lock": entry.act[1:], "refresh": entry.act[1:], "unlock": entry.act[1:], "relock": entry.act[1:], "put": entry.act[1:2]}.get(act, ())
    if any(id == one[0] for id in shown for one in file.spent):
        return 409, "spent"
    if not held and (act in ("refresh", "unlock", "relock") or (act == "put" and file.size)):
        return 409, "not-locked"
    if held and (act == "delete" or (act in ("lock", "refresh", "unlock", "put", "relock") and entry.act[1] != held)):
        return 409, "locked"
    if act == "create" and file.size is not None and entry.act[1] == "no":
        return 409, "taken"
    if act == "create" and file.size is not None and held:
        return 409, "locked"
    if act == "get" and entry.act[1] != "-" and int(entry.act[1]) < (file.size or 0):
        return 412, "-"
    return None


def outcomes(file, entry, opened, now):
    """What may be said of the call on a settled file: status, lock, reason and version."""
    held = file.held[0] if file.held else "-"
    refused = refusal(file, entry, opened, now)
    if refused:
        return [(refused[0], held if refused[0] == 409 else "-", refused[1], "-")]
    act = entry.act[0]
    if act == "getlock":
        return [(200, held, "-", "-")]
    if act in ("refresh", "look"):
        return [(200, "-", "-", "-")]
    failed = (500, "-", "-", "-")
    if act == "delete":
        return [(200, "-", "-", "-"), failed]
    if act in ("put", "create"):
        return [(200, "-", "-", f"v{file.version + 1}"), failed]
    return [(200, "-", "-", f"v{file.version}")]


def accept(file, entry, now):
    act, expires = entry.act[0], entry.token.expires
    if act in ("lock", "refresh") or (act == "relock" and entry.act[1] == entry.act[2]):
        file.held = (entry.act[1], now, max(file.held[2], expires) if file.held else expires)
    elif act == "unlock":
        file.spent.append((file.held[0], file.held[2]))
        file.held = None
    elif act == "relock":
        file.spent.append((file.held[0], max(file.held[2], expires)))
        file.held = (entry.act[2], now, expires)
    elif act in ("put", "create"):
        file.version, file.size = file.version + 1, int(entry.act[2])
        if act == "put" and file.held:
            file.held = (file.held[0], file.held[1], max(file.held[2], expires))
    elif act == "delete":
        file.size = None


def file_behind(journal, count, name):
    """The file of a name behind so many entries."""
    sizes = [len(contents) // 2 if contents != "-" else 0 for known, contents in journal.files if known == name]
    file = File(journal.first, sizes[0]) if sizes else File(journal.first - 1, None)
    for entry in journal.entries[:count]:
        if entry.name == name:
            settle(file, entry.now)
            if entry.status == 200:
                accept(file, entry, entry.now)
    return file


def time_of(journal, count, entry):
    before = [one.now for one in journal.entries[:count] if one.shard == entry.shard]
    return max([journal.opened, entry.moment] + before)


def fault_of(journal, count):
    entry, before = journal.entries[count], journal.entries[:count]
    behind = not before or (before[-1].stamp, before[-1].shard) < (entry.stamp, entry.shard)
    if not behind or entry.shard != shard_of(entry.name) or entry.stamp <= max([0] + [one.stamp for one in before if one.owner == entry.owner]):
        return "order"
    if entry.now != time_of(journal, count, entry):
        return "now"
    file = file_behind(journal, count, entry.name)
    settle(file, entry.now)
    said = (entry.status, entry.lock, entry.reason, entry.version)
    return None if said in outcomes(file, entry, journal.opened, entry.now) else "ruling"


def verdict(journal):
    for count in range(len(journal.entries)):
        fault = fault_of(journal, count)
        if fault:
            return 14, f"line {count + 2 + len(journal.files)}: {fault}\n"
    return 0, f"legal {len(journal.entries)}\n"


# ---- journals


def any_act(random_):
    """An act as its line has it: lock ids are in hex there."""
    one, two, size = hexed(random_.choice(IDS)), hexed(random_.choice(IDS)), str(random_.choice([0, 0, 1, 3]))
    locking = [("lock", one), ("lock", one), ("refresh", one), ("unlock", one), ("relock", one, two), ("put", one, size), ("put", one, size), ("getlock",)]
    return random_.choice(locking * 2 + [("info",), ("get", "-"), ("get", size), ("put", "-", size), ("look",), ("create", random_.choice(["yes", "no"]), size), ("delete",)])


def any_token(random_, name, opened, now):
    return Token("ann", random_.choice([name] * 19 + NAMES), random_.choice("wwwwwwwwwwr"), random_.randrange(3), random_.choice([opened] * 19 + [0]),
                 now + random_.choice([0, 1_000, HALF_AN_HOUR, HALF_AN_HOUR + 1] + [9_000_000] * 8))


def made_up(random_):
    """A legal journal, whose times are of a day."""
    opened, first = random_.randrange(1, 9_000_000), random_.choice([1, 1, 7])
    names = sorted(set(NAMES[:1] + random_.sample(NAMES, random_.randrange(len(NAMES)))), key=lambda name: (shard_of(name), name))
    journal = Journal(opened, first, tuple((name, random_.choice(["-", "312c32"])) for name in names), ())
    moment, stamp = opened, 0
    for _ in range(random_.randrange(1, 25)):
        moment = max(0, moment + random_.choice([-5, 0, 1, 1_000, 1_000, 1_000, 1_000, 1_000, HALF_AN_HOUR - 1, HALF_AN_HOUR, 5_000_000]))
        stamp += random_.choice([1, 1, 1, 5])
        name = random_.choice(NAMES[:1] * 6 + NAMES)
        token = any_token(random_, name, opened, moment)
        entry = Entry(stamp, shard_of(name), random_.randrange(4), moment, 0, name, any_act(random_), token, 0, "-", "-", "-", "-")
        entry = dataclasses.replace(entry, now=time_of(journal, len(journal.entries), entry))
        file = file_behind(journal, len(journal.entries), name)
        settle(file, entry.now)
        said = outcomes(file, entry, opened, entry.now)
        status, lock, reason, version = said[-1] if random_.random() < 0.05 else said[0]
        entry = dataclasses.replace(entry, status=status, lock=lock, reason=reason, version=version)
        journal = dataclasses.replace(journal, entries=journal.entries + (entry,))
    return journal


def altered(random_, journal):
    """The journal with one field of one entry changed."""
    at = random_.randrange(len(journal.entries))
    old = journal.entries[at]
    near = [-HALF_AN_HOUR, -1_000, -1, 1, 1_000, HALF_AN_HOUR - 1, HALF_AN_HOUR, 9_000_000]
    number = int(old.version[1:]) if old.version != "-" else 1
    while True:
        field = random_.choice([field.name for field in dataclasses.fields(Entry) if field.name != "contents"])
        value = {
            "stamp": lambda: max(0, old.stamp + random_.choice([-2, -1, 1, 2, 100])),
            "shard": lambda: random_.randrange(16),
            "owner": lambda: random_.randrange(5),
            "moment": lambda: max(0, old.moment + random_.choice(near)),
            "now": lambda: max(0, old.now + random_.choice(near)),
            "name": lambda: random_.choice(NAMES),
            "act": lambda: any_act(random_),
            "token": lambda: dataclasses.replace(old.token, **random_.choice([
                {"name": random_.choice(NAMES)}, {"rights": random_.choice("rw")}, {"issued": max(0, journal.opened + random_.choice([-1, 0, 1]))},
                {"expires": max(0, old.now + random_.choice([-1, 0, 1, HALF_AN_HOUR]))}])),
            "status": lambda: random_.choice(STATUSES),
            "lock": lambda: random_.choice(["-"] + [hexed(id) for id in IDS]),
            "reason": lambda: random_.choice(["-", "locked", "not-locked", "spent", "taken"]),
            "version": lambda: random_.choice(["-", f"v{max(0, number - 1)}", f"v{number}", f"v{number + 1}"]),
        }[field]()
        if value != getattr(old, field):
            new = dataclasses.replace(old, **{field: value})
            if field == "act":
                new = dataclasses.replace(new, contents="-")
            return dataclasses.replace(journal, entries=journal.entries[:at] + (new,) + journal.entries[at + 1:])


def later(random_, journal):
    """The journal whose entries came later from one of them on, with the times that follow."""
    at = random_.randrange(len(journal.entries))
    delay = random_.choice([1, 1_000, HALF_AN_HOUR - 1_000, HALF_AN_HOUR, 4 * HALF_AN_HOUR])
    moved = dataclasses.replace(journal, entries=journal.entries[:at])
    for entry in journal.entries[at:]:
        entry = dataclasses.replace(entry, moment=entry.moment + delay)
        entry = dataclasses.replace(entry, now=time_of(moved, len(moved.entries), entry))
        moved = dataclasses.replace(moved, entries=moved.entries + (entry,))
    return moved


# ---- a host


def signed(token):
    text = f"v2.0.{token.text()}"
    return f"{text}.{hmac.new(bytes.fromhex(KEY), text.encode(), hashlib.sha256).hexdigest()}"


def request(random_, opened):
    name = random_.choice(NAMES)
    one, two = random_.choice(IDS), random_.choice(IDS)
    late = opened + 60_000_000
    token = Token("ann", random_.choice([name] * 9 + NAMES), random_.choice("wwwwwwwwr"), random_.randrange(3), random_.choice([late] * 19 + [0]),
                  random_.choice([late, late, late, opened + 5]))
    body = b"x" * random_.choice([0, 0, 1, 5])
    method, behind, headers = random_.choice([
        ("GET", "", []), ("GET", "/contents", []), ("GET", "/contents", ["X-WOPI-MaxExpectedSize: 2"]),
        ("POST", "/contents", ["X-WOPI-Override: PUT", f"X-WOPI-Lock: {one}"]), ("POST", "/contents", ["X-WOPI-Override: PUT"]),
        ("POST", "", ["X-WOPI-Override: LOCK", f"X-WOPI-Lock: {one}"]), ("POST", "", ["X-WOPI-Override: LOCK", f"X-WOPI-Lock: {one}"]),
        ("POST", "", ["X-WOPI-Override: LOCK", f"X-WOPI-Lock: {two}", f"X-WOPI-OldLock: {one}"]),
        ("POST", "", ["X-WOPI-Override: GET_LOCK"]), ("POST", "", ["X-WOPI-Override: REFRESH_LOCK", f"X-WOPI-Lock: {one}"]),
        ("POST", "", ["X-WOPI-Override: UNLOCK", f"X-WOPI-Lock: {one}"]), ("POST", "", ["X-WOPI-Override: DELETE"]),
        ("POST", "", ["X-WOPI-Override: PUT_RELATIVE", f"X-WOPI-RelativeTarget: {random_.choice(NAMES)}", "X-WOPI-OverwriteRelativeTarget: true"]),
        ("POST", "", ["X-WOPI-Override: PUT_RELATIVE", f"X-WOPI-SuggestedTarget: {random_.choice(NAMES)}"]),
    ])
    if method == "GET":
        body = b""
    head = [f"{method} /wopi/files/{hexed(name)}{behind}?access_token={signed(token)} HTTP/1.1", "Host: h", *headers, f"Content-Length: {len(body)}", "", ""]
    return "\r\n".join(head).encode() + body


def connect(port):
    for _ in range(500):
        try:
            return socket.create_connection(("127.0.0.1", port), timeout=30)
        except ConnectionRefusedError:
            time.sleep(0.002)
    raise SystemExit("no host answers")


def served(program, random_):
    """The journal of a host that was just used."""
    with socket.socket() as probe:
        probe.bind(("127.0.0.1", 0))
        port = probe.getsockname()[1]
    workers = random_.randrange(1, 5)
    with tempfile.TemporaryDirectory() as folder:
        for name in random_.sample(NAMES, random_.randrange(1, len(NAMES) + 1)):
            with open(os.path.join(folder, name), "wb") as file:
                file.write(random_.choice([b"", b"1,2\n"]))
        words = ["serve", folder, str(port), KEY, f"http://localhost:{port}", str(workers), "--journal", "64", "--each", "1"]
        host = subprocess.Popen([program, *words, "--first", str(random_.choice([1, 5]))], stdout=subprocess.PIPE, text=True)
        links = [connect(port) for _ in range(workers)]
        opened = int(time.time() * 1000)
        for _ in range(random_.randrange(1, 6)):
            for link in links:
                link.sendall(b"".join(request(random_, opened) for _ in range(random_.randrange(1, 4))))
        for link in links:
            link.shutdown(socket.SHUT_WR)
        for link in links:
            while link.recv(65_536):
                pass
            link.close()
        return host.communicate()[0], host.returncode


def run(program, words, text):
    done = subprocess.run([program, *words], input=text.encode(), capture_output=True)
    return done.returncode, done.stdout, done.stderr


def must(holds, what, text):
    if not holds:
        raise SystemExit(f"{what}\n{text}")


def judged(program, journal, what, counts):
    text = journal.text()
    status, output, notes = run(program, ["audit"], text)
    wanted = verdict(journal)
    must((status, output.decode(), notes) == (*wanted, b""), f"{what}: {status} {output} in place of {wanted}", text)
    word = "legal" if status == 0 else output.decode().split(": ")[1].strip()
    counts[what, word] = counts.get((what, word), 0) + 1
    return status


def brought_back(program, journal, text):
    saved = [(entry.name, entry.version[1:], entry.contents) for entry in journal.entries if entry.saves() and entry.status == 200]
    for name, version, contents in saved[:1] + [(name, str(journal.first), contents) for name, contents in journal.files[:1]]:
        wanted = b"" if contents == "-" else bytes.fromhex(contents)
        must(run(program, ["contents", hexed(name), version], text) == (0, wanted, b""), f"contents of {name} at {version}", text)
    must(run(program, ["contents", hexed(NAMES[0]), "0"], text) == (15, b"", b"no such version\n"), "no version 0", text)


def main():
    program = os.path.abspath(sys.argv[1])
    journals = int(sys.argv[2]) if len(sys.argv) > 2 else 100
    random_ = random.Random(int(sys.argv[3]) if len(sys.argv) > 3 else 1)
    counts, entries = {}, 0
    for _ in range(journals):
        text, status = served(program, random_)
        must(status == 0, f"serve ended with {status}", text)
        journal = read(text)
        must(journal.text() == text, "the journal is another text", text)
        must(judged(program, journal, "served", counts) == 0, "a host's journal isn't legal", text)
        brought_back(program, journal, text)
        entries += len(journal.entries)
        other = made_up(random_)
        must(judged(program, other, "made up", counts) == 0, "a journal that was made up isn't legal", other.text())
        for one in [journal, other]:
            if one.entries:
                judged(program, altered(random_, one), "altered", counts)
                judged(program, later(random_, one), "later", counts)
    print(f"{journals} journals of hosts with {entries} entries, as many that were made up")
    for (what, word), count in sorted(counts.items()):
        print(f"{what}: {word} {count}")


if __name__ == "__main__":
    main()
