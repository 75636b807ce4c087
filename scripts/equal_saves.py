#!/usr/bin/env python3
"""Shows what memory saves take that change nothing: scripts/equal_saves.py PROGRAM [SAVES [BYTES]]

PROGRAM is the built one, as crates/mokdrai/out/mokdrai: it is run as a `serve` of one worker over a folder of its own,
whose one file is locked. BYTES (65,536) are saved to it SAVES times (1,000): first the same bytes each time, then others
each time. It tells the process's memory (VmRSS) before, between and after, and what a save of either kind took. It is no
part of the gate.
"""
import http.client
import subprocess
import sys
import tempfile
import time

KEY = "4a656665"
PORT = 18096
FILE = "a.csv"


def memory(process):
    with open(f"/proc/{process.pid}/status") as status:
        return next(int(line.split()[1]) for line in status if line.startswith("VmRSS"))


def ask(link, token, operation, behind, body):
    path = f"/wopi/files/{FILE.encode().hex()}{behind}?access_token={token}"
    link.request("POST", path, body, {"X-WOPI-Override": operation, "X-WOPI-Lock": "L1"})
    reply = link.getresponse()
    reply.read()
    if reply.status != 200:
        sys.exit(f"{operation} was answered {reply.status}")


def begin(program, folder, saves):
    base = f"http://127.0.0.1:{PORT}"
    words = [program, "serve", folder, str(PORT), KEY, base, "1", "--journal", str(2 * saves + 16)]
    process = subprocess.Popen(words, stdout=subprocess.DEVNULL)
    time.sleep(1)
    return process, http.client.HTTPConnection("127.0.0.1", PORT)


def main():
    if len(sys.argv) < 2:
        sys.exit(__doc__)
    program, saves, size = (sys.argv[1:] + ["1000", "65536"][len(sys.argv) - 2:])[:3]
    saves, size = int(saves), int(size)
    live = ["1", "253402300000000", "253402300799999"]
    token = subprocess.check_output([program, "token", KEY, "ann", FILE, "w", *live], text=True).strip()
    with tempfile.TemporaryDirectory() as folder:
        with open(f"{folder}/{FILE}", "wb") as file:
            file.write(b"1,2\n")
        process, link = begin(program, folder, saves)
        try:
            ask(link, token, "LOCK", "", None)
            at_first = memory(process)
            for _ in range(saves):
                ask(link, token, "PUT", "/contents", b"x" * size)
            between = memory(process)
            for number in range(saves):
                ask(link, token, "PUT", "/contents", b"%08d" % number + b"x" * (size - 8))
            at_last = memory(process)
        finally:
            process.terminate()
            process.wait()
    print(f"{at_first} KiB before, {between} after {saves} equal saves, {at_last} after {saves} others")
    print(f"an equal save took {(between - at_first) / saves:.1f} KiB, another one {(at_last - between) / saves:.1f}")


if __name__ == "__main__":
    main()
