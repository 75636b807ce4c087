#!/usr/bin/env python3
"""When a `serve` tells of a shard that is nearly full: scripts/nearly_full.py PROGRAM

PROGRAM is the built one, as crates/mokdrai/out/mokdrai. A host with room for ten calls a shard is asked for one file
again and again. Behind eight calls its notes have to stay empty, behind the ninth they have to say so within three
seconds, while it serves, and at the end the line has to stand there once. It is no part of the gate.
"""
import os
import re
import sys
import time

from links import Host, Wrong, get, must

SECONDS = 3


def notes_within(host, seconds):
    """What the notes have got by then, or as soon as there is a line."""
    os.set_blocking(host.process.stderr.fileno(), False)
    told, until = b"", time.monotonic() + seconds
    while time.monotonic() < until and not told.endswith(b"\n"):
        told += host.process.stderr.read() or b""
        time.sleep(0.01)
    return told


def ask(host, wanted=200):
    client = host.client()
    get(client, wanted)
    client.close()


def main():
    host = Host(os.path.abspath(sys.argv[1]), 2, more=["--journal", "10"])
    for _ in range(8):
        ask(host)
    early = notes_within(host, SECONDS)
    must(early == b"", f"behind eight calls {early}")
    ask(host)
    begun = time.monotonic()
    told = notes_within(host, SECONDS)
    took = time.monotonic() - begun
    must(re.fullmatch(rb"shard [0-9]+ nearly full\n", told), f"behind nine calls {told}")
    ask(host)
    ask(host, 500)
    host.begin_end()
    status = host.process.wait(10)
    rest = host.process.stderr.read()
    must(status == 0 and not rest, f"status {status}, {rest}")
    print(f"told {took:.1f} s behind the ninth of ten calls, once")


if __name__ == "__main__":
    try:
        main()
    except Wrong as fault:
        for process in Host.running:
            process.kill()
        sys.exit(str(fault))
