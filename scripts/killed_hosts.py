#!/usr/bin/env python3
"""Shows that a host which is killed loses nothing that it told: scripts/killed_hosts.py PROGRAM [TIMES [FOLDER]]

Begins PROGRAM (the built one, as crates/mokdrai/out/mokdrai) with `serve --keep` over 32 files, has eight clients lock, relock,
refresh, save and unlock them, and kills it by SIGKILL at a random moment, TIMES times (100 where it is left out). All lies in a folder that is made under
FOLDER (/tmp where it is left out). After each kill the logs of that host are read, up to a half-written end, and then

- each lock, unlock and save that a client was told stands there: the file's version, its lock and its contents are those of the
  last reply, or those of what was in flight behind it, whole;
- the folder has the contents that the logs tell, or, of a save that was in flight as the host was killed, those before it;
- no version was told for two contents by any of the hosts.

Each host begins a new life, so the clients begin with new tokens and ids, and V lies above all versions before. It is no part of the
gate.
"""
import hashlib
import hmac
import os
import random
import signal
import socket
import subprocess
import sys
import tempfile
import threading
import time

KEY = "4a656665"
CLIENTS = 8
FILES = [f"file{number}.csv" for number in range(32)]
# How many bytes a save has at most.
SIZE = 65_536


def token(name):
    now = int(time.time() * 1000)
    text = f"v2.0.ann.{name.encode().hex()}.w.1.{now}.{now + 3_600_000}"
    return f"{text}.{hmac.new(bytes.fromhex(KEY), text.encode(), hashlib.sha256).hexdigest()}"


def request(name, key, act, lines, body=b""):
    behind = "/contents" if act == "PUT" else ""
    head = f"POST /wopi/files/{name.encode().hex()}{behind}?access_token={key} HTTP/1.1\r\nHost: h\r\n"
    fields = "".join(f"{field}: {value}\r\n" for field, value in lines.items())
    return f"{head}X-WOPI-Override: {act}\r\n{fields}Content-Length: {len(body)}\r\n\r\n".encode() + body


class File:
    """What a client knows of a file: the last reply's state, and that of what is in flight, if something is."""

    def __init__(self, contents):
        self.version, self.lock, self.contents, self.flight = None, None, contents, None

    def states(self):
        return [one for one in (self.told(), self.flight) if one]

    def told(self):
        return (self.version, self.lock, self.contents)


class Client(threading.Thread):
    """Makes one call after another, until the host is gone."""

    def __init__(self, port, number, files, told):
        super().__init__(daemon=True)
        self.names = sorted(files)[number::CLIENTS]
        self.port, self.files, self.told = port, files, told
        self.random, self.calls, self.wrong = random.Random(), 0, []
        self.keys = {name: token(name) for name in self.names}

    def run(self):
        try:
            with socket.create_connection(("127.0.0.1", self.port), timeout=60) as sock:
                held = b""
                while True:
                    held = self.call(sock, held)
        except OSError:
            return

    def call(self, sock, held):
        name = self.random.choice(self.names)
        file = self.files[name]
        act, lines, body, flight = self.choose(file)
        file.flight = flight
        sock.sendall(request(name, self.keys[name], act, lines, body))
        status, fields, held = reply(sock, held)
        if status != 200:
            self.wrong.append((name, act, status, fields))
            raise OSError("a call was refused")
        version = fields.get("x-wopi-itemversion")
        known = flight if act == "PUT" else (file.version, flight[1], file.contents)
        file.version, file.lock, file.contents = (version or known[0], known[1], known[2])
        file.flight = None
        self.calls += 1
        if act == "PUT":
            self.told.append((name, version, body))
        return held

    def choose(self, file):
        new = f"{self.random.getrandbits(64):x}"
        if not file.lock:
            return "LOCK", {"X-WOPI-Lock": new}, b"", (file.version, new, file.contents)
        kind = self.random.choice(["REFRESH_LOCK", "PUT", "PUT", "RELOCK", "UNLOCK"])
        if kind == "PUT":
            body = self.random.randbytes(self.random.randrange(1, SIZE))
            return "PUT", {"X-WOPI-Lock": file.lock}, body, (None, file.lock, body)
        if kind == "RELOCK":
            return "LOCK", {"X-WOPI-Lock": new, "X-WOPI-OldLock": file.lock}, b"", (file.version, new, file.contents)
        left = None if kind == "UNLOCK" else file.lock
        return kind, {"X-WOPI-Lock": file.lock}, b"", (file.version, left, file.contents)


def reply(sock, held):
    while (end := held.find(b"\r\n\r\n")) < 0:
        held += more(sock)
    status, *lines = held[:end].decode().split("\r\n")
    fields = {line.split(":")[0].lower(): line.split(":", 1)[1].strip() for line in lines}
    size = int(fields["content-length"])
    while len(held) < end + 4 + size:
        held += more(sock)
    return int(status[9:12]), fields, held[end + 4 + size:]


def more(sock):
    piece = sock.recv(1 << 18)
    if not piece:
        raise OSError("the host is gone")
    return piece


def lines_of(text):
    """The whole lines of a log, each with the contents behind it."""
    at = 0
    while (end := text.find(b"\n", at)) >= 0:
        words = text[at:end].decode().split(" ")
        brings = words[0].isdigit() and words[-1] != "-"
        size = int(words[-1]) if brings else 0
        if brings and len(text) <= end + 1 + size:
            return
        yield words, text[end + 1:end + 1 + size] if brings else None
        at = end + 1 + (size + 1 if brings else 0)


def step(state, words, contents):
    """What an accepted call leaves of its file."""
    name, act, rest = bytes.fromhex(words[5]).decode(), words[6], words[7:]
    version, lock, bytes_there = state[name]
    version = words[-2] if words[-2] != "-" else version
    if act == "lock":
        lock = bytes.fromhex(rest[0]).decode()
    elif act == "relock":
        lock = bytes.fromhex(rest[1]).decode()
    elif act == "unlock":
        lock = None
    state[name] = (version, lock, contents if contents is not None else bytes_there)


def read_log(path, files):
    """What a log tells of each file of its shard, by the lines that count, and the last one's name and contents before it."""
    state, before, last = {}, {}, None
    with open(path, "rb") as log:
        text = log.read()
    for words, contents in lines_of(text):
        if words[0] == "at":
            name = bytes.fromhex(words[1]).decode()
            state[name] = (words[2], None, files[name])
        elif words[0] == "off":
            state[last] = before[last]
        elif words[0].isdigit():
            last = bytes.fromhex(words[5]).decode()
            before[last] = state[last]
            if words[-5] == "200":
                step(state, words, contents)
    return state, before, last


def read_logs(logs, number, files):
    told, doubts = {}, {}
    for shard in range(16):
        path = f"{logs}/{shard}.{number}"
        if os.path.exists(path):
            state, before, last = read_log(path, files)
            told.update(state)
            if last:
                doubts[last] = before[last][2]
    return told, doubts


def begin(program, room, first):
    with socket.socket() as probe:
        probe.bind(("127.0.0.1", 0))
        port = probe.getsockname()[1]
    words = [program, "serve", f"{room}/files", str(port), KEY, f"http://localhost:{port}", str(CLIENTS)]
    words += ["--keep", f"{room}/logs", "--first", str(first)]
    host = subprocess.Popen(words, stderr=subprocess.PIPE, start_new_session=True)
    while host.poll() is None:
        try:
            socket.create_connection(("127.0.0.1", port), timeout=20).close()
            return host, port
        except ConnectionRefusedError:
            time.sleep(0.01)
    raise SystemExit(f"the host ended: {host.returncode}, {host.stderr.read()[:400]}")


def differs(name, file, told, doubt, folder):
    """What is wrong with a file behind a kill, if something is."""
    version, lock, contents = told
    fits = [one for one in file.states() if one[1] == lock and one[2] == contents and one[0] in (None, version)]
    if not fits:
        return f"{name}: the log tells {version}, {lock}, {len(contents)} bytes; the client {[(s[0], s[1], len(s[2])) for s in file.states()]}"
    with open(f"{folder}/{name}", "rb") as there:
        stands = there.read()
    if stands != contents and not (file.flight and stands == doubt):
        return f"{name}: the folder has {len(stands)} other bytes"
    return None


def main():
    program = os.path.abspath(sys.argv[1])
    times = int(sys.argv[2]) if len(sys.argv) > 2 else 100
    contents_of, calls, flights, wrong = {}, 0, 0, []
    with tempfile.TemporaryDirectory(dir=sys.argv[3] if len(sys.argv) > 3 else "/tmp") as room:
        os.mkdir(f"{room}/files")
        os.mkdir(f"{room}/logs")
        for name in FILES:
            with open(f"{room}/files/{name}", "wb") as file:
                file.write(b"1,2\n")
        for number in range(1, times + 1):
            files = {}
            for name in FILES:
                with open(f"{room}/files/{name}", "rb") as file:
                    files[name] = File(file.read())
            before = {name: file.contents for name, file in files.items()}
            first = number * 1_000_000
            for name, file in files.items():
                file.version = f"v{first}"
            host, port = begin(program, room, first)
            told = []
            clients = [Client(port, client, files, told) for client in range(CLIENTS)]
            for client in clients:
                client.start()
            time.sleep(random.uniform(0.01, 0.5))
            os.killpg(host.pid, signal.SIGKILL)
            host.wait()
            for client in clients:
                client.join()
                calls += client.calls
                wrong += client.wrong
            logged, doubts = read_logs(f"{room}/logs", number, before)
            for name, version, contents in told:
                digest = hashlib.sha256(contents).digest()
                if contents_of.setdefault((name, version), digest) != digest:
                    wrong.append(f"{name}: {version} was told for two contents")
            for shard in range(16):
                if os.path.exists(former := f"{room}/logs/{shard}.{number - 1}"):
                    os.remove(former)
            for name, file in files.items():
                flights += file.flight is not None
                # (a host that was killed before its logs had their beginnings answered nothing)
                state = logged.get(name, (f"v{first}", None, before[name]))
                if bad := differs(name, file, state, doubts.get(name), f"{room}/files"):
                    wrong.append(bad)
    print(f"{times} kills, {calls} calls that were answered, {flights} in flight as the host was killed, {len(wrong)} wrong")
    for bad in wrong[:20]:
        print("WRONG:", bad)
    sys.exit(1 if wrong else 0)


if __name__ == "__main__":
    main()
