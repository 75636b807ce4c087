#!/usr/bin/env python3
"""Shows what `serve --keep LOGS` says of a LOGS that can't be used: scripts/bad_logs.py [PROGRAM]

Runs PROGRAM (./mokdrai where it is left out) over a folder of its own with each kind of LOGS in turn: one that isn't there,
a file, one that may not be written to, one with a name that isn't UTF-8, one beside a host that has it, and one whose logs
may have no more than 4 KiB, so that a line is written in part (with SIGXFSZ ignored, as ./mokdrai does). Each has to end with status 16, `journal fault` and a line
that has the path and the cause, and the folder has to stay as it was. Behind the last one every call that was answered has
to stand in its log. As root the folder that may not be written to is left out. It is no part of the gate.
"""
import hashlib
import hmac
import os
import pathlib
import re
import signal
import socket
import subprocess
import sys
import tempfile
import time

KEY = "4a656665"
ID = b"a.csv".hex()


def token():
    text = f"v2.0.ann.{ID}.w.1.253402300000000.253402300799999"
    return f"{text}.{hmac.new(bytes.fromhex(KEY), text.encode(), hashlib.sha256).hexdigest()}"


def request(number):
    head = [f"POST /wopi/files/{ID}?access_token={token()} HTTP/1.1", "Host: h", "Content-Length: 0"]
    head += ["X-WOPI-Override: LOCK" if number == 0 else "X-WOPI-Override: REFRESH_LOCK", "X-WOPI-Lock: L1"]
    return "\r\n".join([*head, "", ""]).encode()


def free_port():
    with socket.socket() as probe:
        probe.bind(("127.0.0.1", 0))
        return probe.getsockname()[1]


def begin(program, folder, logs, limit=""):
    port = free_port()
    words = [program, "serve", str(folder), str(port), KEY, f"http://localhost:{port}", "2", "--keep", str(logs)]
    shell = ["bash", "-c", f'{limit}exec "$@"', "bash", *words]
    return port, subprocess.Popen(shell, stdout=subprocess.PIPE, stderr=subprocess.PIPE)


def connect(host, port):
    while host.poll() is None:
        try:
            return socket.create_connection(("127.0.0.1", port), timeout=20)
        except ConnectionRefusedError:
            time.sleep(0.05)
    return None


def refused(program, what, folder, logs, cause):
    """A host over these logs ends at once, and tells the cause."""
    _, host = begin(program, folder, logs)
    output, notes = host.communicate(timeout=20)
    notes = notes.decode()
    fine = host.returncode == 16 and not output and "journal fault\n" in notes and re.search(cause, notes, re.I)
    print(f"{'fine' if fine else 'WRONG'}: {what}: status {host.returncode}: {notes.strip()!r}")
    return bool(fine)


def held(program, folder, logs, other):
    """So does a second one beside a host that has them; the first goes on."""
    port, first = begin(program, folder, logs)
    link = connect(first, port)
    fine = refused(program, "another host has them", other, logs, "another host has this folder")
    link.sendall(request(0))
    fine = link.recv(65536).startswith(b"HTTP/1.1 200") and fine
    link.close()
    first.send_signal(signal.SIGTERM)
    first.communicate(timeout=60)
    return fine and first.returncode == 0


def full(program, folder, logs):
    """A log that can't grow any more: what was answered stands in it, and the host ends."""
    port, host = begin(program, folder, logs, "trap '' XFSZ; ulimit -f 4; ")
    link = connect(host, port)
    link.sendall(b"".join(request(number) for number in range(100)))
    got = b""
    while piece := link.recv(65536):
        got += piece
    answered = got.count(b"HTTP/1.1 200 ")
    notes = host.communicate(timeout=60)[1].decode()
    text = next(logs.glob("11.*")).read_bytes()
    lines = len(re.findall(rb"^\d+ 11 \d+ .*\n", text, re.M))
    fine = host.returncode == 16 and 0 < answered < 100 and answered <= lines and len(text) <= 4096
    fine = fine and "journal fault\n" in notes and "11." in notes
    print(f"{'fine' if fine else 'WRONG'}: full: {answered} answered, {lines} lines, {len(text)} bytes: {notes.strip()!r}")
    return fine


def main():
    program = os.path.abspath(sys.argv[1] if len(sys.argv) > 1 else "./mokdrai")
    with tempfile.TemporaryDirectory() as name:
        room = pathlib.Path(name)
        folder, other = room / "files", room / "others"
        for one in (folder, other):
            one.mkdir()
            (one / "a.csv").write_bytes(b"1,2\n")
        (room / "file").write_bytes(b"")
        for one in ("closed", "odd", "held", "full"):
            (room / one).mkdir()
        (room / "closed").chmod(0o555)
        open(os.fsencode(room / "odd") + b"/\xff", "wb").close()
        fine = [
            refused(program, "not there", folder, room / "none", "none: No such file"),
            refused(program, "a file", folder, room / "file", "file: Not a directory"),
            refused(program, "a name that isn't UTF-8", folder, room / "odd", "odd: "),
            held(program, folder, room / "held", other),
            full(program, folder, room / "full"),
        ]
        if os.geteuid():
            fine.append(refused(program, "may not be written to", folder, room / "closed", "Permission denied"))
        fine.append((folder / "a.csv").read_bytes() == b"1,2\n")
    sys.exit(0 if all(fine) else 1)


main()
