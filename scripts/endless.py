#!/usr/bin/env python3
"""Ten million calls against `mokdrai serve --keep`, and the memory of the host: scripts/endless.py PROGRAM [CALLS [FOLDER]]

Starts PROGRAM (the built one, as crates/mokdrai/out/mokdrai) over a hundred files, with eight workers and its logs beside them, all in a folder that is made
under FOLDER (/dev/shm where it is left out, so that no disk is measured). Eight clients send locks, relocks, refreshes, reads, unlocks
and saves of other bytes each time, some thirty to a write, and look at each reply's status. The host's resident memory is read
after a tenth of the calls and after all of them: it may differ by a tenth, and no call may be refused for room. At the end
the status has to be 0, and each log has to have a line for each call of its shard. It is no part of the gate.
"""
import hashlib
import hmac
import os
import random
import socket
import subprocess
import sys
import tempfile
import threading
import time

KEY = "4a656665"
CLIENTS = 8
FILES = [f"file{number}.csv" for number in range(100)]
# How many bytes a save has.
SIZE = 4096


def token(name):
    """One that is issued now, and lasts for five seconds: the ids that end under it are refused for no longer."""
    now = int(time.time() * 1000)
    text = f"v2.0.ann.{name.encode().hex()}.w.1.{now}.{now + 5000}"
    return f"{text}.{hmac.new(bytes.fromhex(KEY), text.encode(), hashlib.sha256).hexdigest()}"


TOKENS = {}


def head(method, name, behind, lines, length=0):
    path = f"/wopi/files/{name.encode().hex()}{behind}?access_token={TOKENS[name]}"
    return f"{method} {path} HTTP/1.1\r\nHost: h\r\n{lines}Content-Length: {length}\r\n\r\n".encode()


def rounds(client, names, number):
    """One round of a client: a lock of a file, what is done under it, and its end."""
    name = names[number % len(names)]
    TOKENS[name] = token(name)
    one, other = f"c{client}-{number}", f"d{client}-{number}"
    override = lambda act, lock, more="": f"X-WOPI-Override: {act}\r\nX-WOPI-Lock: {lock}\r\n{more}"
    body = (f"{client} {number} " * SIZE)[:SIZE].encode()
    yield head("POST", name, "", override("LOCK", one))
    yield head("GET", name, "/contents", "")
    yield head("POST", name, "/contents", override("PUT", one), SIZE) + body
    for _ in range(10):
        yield head("POST", name, "", override("REFRESH_LOCK", one))
        yield head("GET", name, "/contents", "")
    yield head("POST", name, "", override("LOCK", other, f"X-WOPI-OldLock: {one}\r\n"))
    yield head("POST", name, "", "X-WOPI-Override: GET_LOCK\r\n")
    yield head("POST", name, "", override("UNLOCK", other))


class Replies:
    """Counts the replies of a link, and those whose status isn't 200."""

    def __init__(self, sock):
        self.sock, self.held, self.other = sock, b"", {}

    def take(self, count):
        while count:
            end = self.held.find(b"\r\n\r\n")
            if end < 0:
                self.more()
                continue
            lines = self.held[:end].split(b"\r\n")
            size = next(int(line[15:]) for line in lines if line[:15].lower() == b"content-length:")
            while len(self.held) < end + 4 + size:
                self.more()
            status = lines[0][9:12].decode()
            if status != "200":
                self.other[status] = self.other.get(status, 0) + 1
            self.held = self.held[end + 4 + size:]
            count -= 1

    def more(self):
        piece = self.sock.recv(1 << 20)
        if not piece:
            raise SystemExit("the host closed")
        self.held += piece


class Client(threading.Thread):
    def __init__(self, port, client, calls):
        super().__init__(daemon=True)
        self.port, self.client, self.calls, self.made, self.other = port, client, calls, 0, {}

    def run(self):
        names = FILES[self.client::CLIENTS]
        replies, number = None, 0
        while self.made < self.calls:
            # (a host ends a connection behind its 10,000th reply)
            if number % 300 == 0:
                replies = self.begin(replies)
            batch = list(rounds(self.client, names, number))
            replies.sock.sendall(b"".join(batch))
            replies.take(len(batch))
            self.made += len(batch)
            number += 1
        self.other = replies.other
        replies.sock.close()

    def begin(self, before):
        """A new connection, which goes on counting."""
        if before:
            before.sock.close()
        replies = Replies(socket.create_connection(("127.0.0.1", self.port), timeout=120))
        replies.other = before.other if before else {}
        return replies


def resident(pid):
    with open(f"/proc/{pid}/status") as file:
        return next(int(line.split()[1]) for line in file if line.startswith("VmRSS:"))


def main():
    program = os.path.abspath(sys.argv[1])
    calls = int(sys.argv[2]) if len(sys.argv) > 2 else 10_000_000
    within = sys.argv[3] if len(sys.argv) > 3 else "/dev/shm"
    with socket.socket() as probe:
        probe.bind(("127.0.0.1", 0))
        port = probe.getsockname()[1]
    with tempfile.TemporaryDirectory(dir=within) as room:
        folder, logs = f"{room}/files", f"{room}/logs"
        os.mkdir(folder)
        os.mkdir(logs)
        for name in FILES:
            with open(f"{folder}/{name}", "wb") as file:
                file.write(b"x" * SIZE)
        words = ["serve", folder, str(port), KEY, f"http://localhost:{port}", str(CLIENTS), "--keep", logs]
        stop = {**os.environ, "MOKDRAI_STOP": f"{room}/stop"}
        host = subprocess.Popen([program, *words], stderr=subprocess.PIPE, env=stop)
        for _ in range(400):
            try:
                socket.create_connection(("127.0.0.1", port)).close()
                break
            except ConnectionRefusedError:
                time.sleep(0.05)
        begun = time.monotonic()
        clients = [Client(port, client, calls // CLIENTS) for client in range(CLIENTS)]
        for client in clients:
            client.start()
        early = None
        while any(client.is_alive() for client in clients):
            time.sleep(0.2)
            made = sum(client.made for client in clients)
            if early is None and made >= calls // 10:
                early = resident(host.pid)
                print(f"{made} calls: {early} KiB resident, {time.monotonic() - begun:.0f} seconds", flush=True)
            # (what was read of the logs is no part of what is shown, and memory is what they lie in)
            if made and within == "/dev/shm":
                for name in os.listdir(logs):
                    if os.path.getsize(f"{logs}/{name}") > 1 << 30:
                        raise SystemExit("the logs fill the memory: give a FOLDER on a disk")
        made, took = sum(client.made for client in clients), time.monotonic() - begun
        late = resident(host.pid)
        print(f"{made} calls: {late} KiB resident, {took:.0f} seconds, {made / took:.0f} calls a second")
        # (the built program ends once it finds this file behind a connection, as it does behind ./mokdrai)
        open(f"{room}/stop", "w").close()
        for _ in range(CLIENTS):
            try:
                socket.create_connection(("127.0.0.1", port)).close()
            except OSError:
                pass
        notes = host.communicate(timeout=120)[1]
        lines = 0
        for name in sorted(os.listdir(logs)):
            lines += int(subprocess.run(["grep", "-acE", r"^[0-9]+ [0-9]+ [0-9]+ [0-9]+ [0-9]+ [0-9a-f]+ (info|get|put|lock|getlock|refresh|unlock|relock|look|create|delete) ", f"{logs}/{name}"], capture_output=True, text=True).stdout)
        print(f"{lines} lines in the logs, status {host.returncode}{' ' + notes.decode() if notes else ''}")
        other = {}
        for client in clients:
            for status, count in client.other.items():
                other[status] = other.get(status, 0) + count
        print("other statuses:", other or "none")
        grew = early and abs(late - early) / early
        return 0 if not other and host.returncode == 0 and lines == made and grew is not None and grew < 0.1 else 1


if __name__ == "__main__":
    sys.exit(main())
