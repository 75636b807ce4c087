#!/usr/bin/env python3
"""Shows that a save which is killed leaves the old or the new bytes: scripts/killed_saves.py [PROGRAM [TIMES]]

Runs PROGRAM (./mokdrai where it is left out) as `once` over a folder of its own, has it save 8 MiB under a lock, and
kills it by SIGKILL: of three times once at a random moment of the run, once at one between the end of the body and the
reply, and once as soon as the reply is there, while its input goes on. Then the file has to have its old bytes or the new ones and nothing else, and the next start has to answer just
these. After TIMES kills (100 where it is left out) it says how often the old and the new bytes were found, how often a
reply had come, and how often a half-written file was left under the name that the folder's writes go to first; a reply
is never followed by the old bytes. It is no part of the gate.
"""
import hashlib
import hmac
import os
import random
import subprocess
import sys
import tempfile
import threading
import time

KEY = "4a656665"
BASE = "http://localhost:8880"
FILE = "a.csv"
SIZE = 8 << 20


def token(name):
    text = f"v2.0.ann.{name.encode().hex()}.w.1.253402300000000.253402300799999"
    return f"{text}.{hmac.new(bytes.fromhex(KEY), text.encode(), hashlib.sha256).hexdigest()}"


def request(method, behind, lines, length=0):
    path = f"/wopi/files/{FILE.encode().hex()}{behind}?access_token={token(FILE)}"
    return f"{method} {path} HTTP/1.1\r\nHost: h\r\n{lines}Content-Length: {length}\r\n\r\n".encode()


LOCK = request("POST", "", "X-WOPI-Override: LOCK\r\nX-WOPI-Lock: L1\r\n")
PUT = request("POST", "/contents", "X-WOPI-Override: PUT\r\nX-WOPI-Lock: L1\r\n", SIZE)
GET = request("GET", "/contents", "")


class Save:
    """A run that saves some bytes, and what is known of it."""

    def __init__(self, program, folder, contents, goes_on=False):
        words = [program, "once", folder, KEY, BASE]
        self.process = subprocess.Popen(words, stdin=subprocess.PIPE, stdout=subprocess.PIPE, stderr=subprocess.DEVNULL)
        self.contents, self.goes_on, self.output = contents, goes_on, b""
        self.sent, self.answered = threading.Event(), threading.Event()
        self.threads = [threading.Thread(target=self.feed), threading.Thread(target=self.read)]
        for thread in self.threads:
            thread.start()

    def feed(self):
        try:
            self.process.stdin.write(LOCK + PUT + self.contents)
            self.process.stdin.flush()
            if not self.goes_on:
                self.process.stdin.close()
        except OSError:
            pass
        self.sent.set()

    def read(self):
        while piece := self.process.stdout.read1(65536):
            self.output += piece
            if self.replies() == 2:
                self.answered.set()
        self.answered.set()

    def replies(self):
        return self.output.count(b"HTTP/1.1 200 OK\r\n")

    def end(self):
        self.process.wait()
        for thread in self.threads:
            thread.join()
        self.process.stdout.close()
        if self.goes_on:
            self.process.stdin.close()
        return self.replies()


def contents_at_the_next_start(program, folder):
    run = subprocess.run([program, "once", folder, KEY, BASE], input=GET, capture_output=True)
    head, _, body = run.stdout.partition(b"\r\n\r\n")
    if run.returncode != 0 or not head.startswith(b"HTTP/1.1 200 OK\r\n"):
        raise SystemExit(f"the next start: status {run.returncode}, {head[:80]}, {run.stderr[:80]}")
    return body


def whole_run(program, folder, contents):
    """How long a save takes that nobody kills, and how long from the end of its body on."""
    begun = time.monotonic()
    save = Save(program, folder, contents)
    save.sent.wait()
    sent = time.monotonic()
    replies = save.end()
    if replies != 2 or save.process.returncode != 0:
        raise SystemExit(f"a save that nobody kills: status {save.process.returncode}, {save.output[:200]}")
    return time.monotonic() - begun, time.monotonic() - sent


def main():
    top = os.path.dirname(os.path.dirname(os.path.abspath(__file__)))
    program = os.path.abspath(sys.argv[1]) if len(sys.argv) > 1 else os.path.join(top, "mokdrai")
    times = int(sys.argv[2]) if len(sys.argv) > 2 else 100
    found, replied, halves, faults = {"old": 0, "new": 0}, 0, 0, 0
    with tempfile.TemporaryDirectory() as folder:
        path, beside = os.path.join(folder, FILE), os.path.join(folder, f".{FILE}.tmp")
        with open(path, "wb") as file:
            file.write(b"1,2\n")
        old = os.urandom(SIZE)
        whole, last = whole_run(program, folder, old)
        for number in range(times):
            new = os.urandom(SIZE)
            save = Save(program, folder, new, goes_on=number % 3 == 2)
            if number % 3 == 0:
                time.sleep(random.uniform(0, whole))
            elif number % 3 == 1:
                save.sent.wait()
                time.sleep(random.uniform(0, last))
            else:
                save.answered.wait()
            save.process.kill()
            has_reply = save.end() == 2
            with open(path, "rb") as file:
                kept = file.read()
            what = "old" if kept == old else "new" if kept == new else None
            if what is None or (has_reply and what == "old"):
                print(f"kill {number}: {len(kept)} other bytes" if what is None else f"kill {number}: a reply, and the old bytes")
                faults += 1
            else:
                found[what] += 1
            replied += has_reply
            halves += os.path.exists(beside)
            if contents_at_the_next_start(program, folder) != kept:
                print(f"kill {number}: the next start answers other bytes")
                faults += 1
            old = kept
    print(f"{times} kills: {found['old']} left the old bytes, {found['new']} the new; {replied} came after the reply, "
          f"{halves} left a half-written file beside; {faults} faults")
    return 1 if faults else 0


if __name__ == "__main__":
    sys.exit(main())
