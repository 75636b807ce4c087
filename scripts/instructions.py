#!/usr/bin/env python3
"""Instructions of one request, by valgrind's callgrind: scripts/instructions.py PROGRAM [--keep] [ENTRIES ..]

PROGRAM is the built one, as crates/mokdrai/out/mokdrai. Each number is the difference of two runs of one
`serve` of one worker, without and with a hundred more of the request, by a hundred. First over folders of 10,
1,000 and 10,000 files, on the last one; then over one file after so many entries, those of relocks of the file
(10, 1,000 and 30,000 where none are named). With --keep the host keeps logs, which lie in memory (/dev/shm).

Under glibc large pieces of memory are cleared and copied by one instruction that callgrind counts once for each
byte, so here by its loops, as small ones are.
"""
import os
import pathlib
import re
import socket
import subprocess
import sys
import tempfile
import time

KEY, PORT, LAST = "4a656665", 18093, "253402300799999"
BASE = f"http://127.0.0.1:{PORT}"
MANY, REPLIES = 100, 9000
KEEPS = "--keep" in sys.argv
LOOPS = "glibc.cpu.x86_rep_stosb_threshold=1000000000:glibc.cpu.x86_rep_movsb_threshold=1000000000"


def token(program, name):
    words = [program, "token", KEY, "ann", name, "w", "1", "253402300000000", LAST]
    return subprocess.run(words, capture_output=True, check=True, text=True).stdout.strip()


def request(method, path, fields, body=b""):
    head = [f"{method} {path} HTTP/1.1", "Host: localhost", *(f"{name}: {value}" for name, value in fields)]
    if method == "POST":
        head.append(f"Content-Length: {len(body)}")
    return "\r\n".join(head).encode() + b"\r\n\r\n" + body


class File:
    """The requests on one file, which is locked under one id after another."""

    def __init__(self, program, name):
        self.path = "/wopi/files/" + name.encode().hex()
        self.query = "?access_token=" + token(program, name)
        self.count = 0
        self.saves = 0

    def lock(self):
        fields = [("X-WOPI-Override", "LOCK"), ("X-WOPI-Lock", f"L{self.count}")]
        return request("POST", self.path + self.query, fields)

    def get(self):
        return request("GET", self.path + "/contents" + self.query, [])

    def put(self):
        """A save of other bytes than the last one, which the host has to keep."""
        self.saves += 1
        fields = [("X-WOPI-Override", "PUT"), ("X-WOPI-Lock", f"L{self.count}")]
        body = str(self.saves).encode().rjust(4096, b"x")
        return request("POST", self.path + "/contents" + self.query, fields, body)

    def relock(self):
        self.count += 1
        fields = [("X-WOPI-Override", "LOCK"), ("X-WOPI-OldLock", f"L{self.count - 1}"), ("X-WOPI-Lock", f"L{self.count}")]
        return request("POST", self.path + self.query, fields)


def connect(host):
    while host.poll() is None:
        try:
            return socket.create_connection(("127.0.0.1", PORT))
        except ConnectionRefusedError:
            time.sleep(0.05)
    raise SystemExit(f"the host ended: {host.stderr.read()}")


def reply_ends(reader):
    """Reads one reply, which has to be 200."""
    status = reader.readline()
    if b" 200 " not in status:
        raise SystemExit(f"a reply: {status!r}")
    length = 0
    while (line := reader.readline().strip()):
        if line.lower().startswith(b"content-length:"):
            length = int(line.split(b":")[1])
    reader.read(length)


def ask_all(host, requests):
    with connect(host) as link:
        reader = link.makefile("rb")
        for one in requests:
            link.sendall(one)
            reply_ends(reader)


def instructions(program, room, folder, requests):
    """The instructions of a host that answers all these."""
    parts = [requests[at : at + REPLIES] for at in range(0, len(requests), REPLIES)]
    words = ["valgrind", "--tool=callgrind", f"--callgrind-out-file={room}/out", program]
    words += ["serve", str(folder), str(PORT), KEY, BASE, "1", "--each", str(len(parts))]
    with tempfile.TemporaryDirectory(dir="/dev/shm") as logs:
        return counted(words + (["--keep", logs] if KEEPS else ["--journal", "32768"]), parts)


def counted(words, parts):
    """The instructions of a host that is begun so, and is asked these parts, each over a connection of its own."""
    loops = {**os.environ, "GLIBC_TUNABLES": LOOPS}
    host = subprocess.Popen(words, stdout=subprocess.DEVNULL, stderr=subprocess.PIPE, text=True, env=loops)
    for part in parts:
        ask_all(host, part)
    notes = host.communicate()[1]
    if host.returncode:
        raise SystemExit(notes)
    return int(re.search(r"Collected : (\d+)", notes).group(1))


def fill(folder, files):
    folder.mkdir()
    for number in range(files):
        (folder / f"f{number:05}.bin").write_bytes(b"y" * 4096)


def cost(program, room, files, before, ask):
    """The instructions of a request on the last file, after so many relocks of it."""
    counts = []
    for many in (0, MANY):
        with tempfile.TemporaryDirectory(dir=room) as place:
            folder = pathlib.Path(place) / "folder"
            fill(folder, files)
            one = File(program, f"f{files - 1:05}.bin")
            requests = [one.lock()] + [one.relock() for _ in range(before)]
            requests += [ask(one) for _ in range(many)]
            counts.append(instructions(program, room, folder, requests))
    return (counts[1] - counts[0]) // MANY


def main():
    program = str(pathlib.Path(sys.argv[1]).resolve())
    entries = [int(word) for word in sys.argv[2:] if word != "--keep"] or [10, 1000, 30000]
    kinds = {"PutFile": File.put, "UnlockAndRelock": File.relock, "Lock": File.lock, "GetFile": File.get}
    with tempfile.TemporaryDirectory() as room:
        for name, ask in kinds.items():
            row = [cost(program, room, files, 0, ask) for files in (10, 1000, 10000)]
            print(f"{name}, by files:", *row, flush=True)
        for name, ask in kinds.items():
            row = [cost(program, room, 1, before, ask) for before in entries]
            print(f"{name}, by entries:", *row, flush=True)


if __name__ == "__main__":
    main()
