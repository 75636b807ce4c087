#!/usr/bin/env python3
"""Shows what a save past the limit of a file's size comes to: scripts/file_limit.py [PROGRAM]

Runs PROGRAM (./mokdrai where it is left out) as `once` over a folder of its own, in a shell whose files may have 4 KiB. A
save of 20,000 bytes has to be answered 500 with `store fault`, and the file has to have its old bytes, for the next
request and in the folder. The system sends SIGXFSZ at such a write, which would end a program that doesn't ignore it.
It is no part of the gate.
"""
import hashlib
import hmac
import os
import subprocess
import sys
import tempfile

KEY = "4a656665"
ID = b"a.csv".hex()
OLD = b"1,2\n"
BODY = b"x" * 20_000


def token():
    text = f"v2.0.ann.{ID}.w.1.253402300000000.253402300799999"
    return f"{text}.{hmac.new(bytes.fromhex(KEY), text.encode(), hashlib.sha256).hexdigest()}"


def request(method, behind, *fields, body=b""):
    head = [f"{method} /wopi/files/{ID}{behind}?access_token={token()} HTTP/1.1", "Host: h", f"Content-Length: {len(body)}", *fields]
    return "\r\n".join([*head, "", ""]).encode() + body


def main():
    program = os.path.abspath(sys.argv[1] if len(sys.argv) > 1 else "./mokdrai")
    lock = "X-WOPI-Lock: L1"
    asked = (
        request("POST", "", "X-WOPI-Override: LOCK", lock)
        + request("POST", "/contents", "X-WOPI-Override: PUT", lock, body=BODY)
        + request("GET", "/contents", "Connection: close")
    )
    with tempfile.TemporaryDirectory() as folder:
        path = os.path.join(folder, "a.csv")
        with open(path, "wb") as file:
            file.write(OLD)
        words = [program, "once", folder, KEY, "http://h"]
        ran = subprocess.run(["bash", "-c", 'ulimit -f 4; exec "$@"', "bash", *words], input=asked, capture_output=True)
        with open(path, "rb") as file:
            left = file.read()
    fine = ran.returncode == 0 and b"store fault" in ran.stdout and ran.stdout.endswith(OLD) and left == OLD
    print(f"status {ran.returncode}; {'store fault, and the old bytes' if fine else ran.stdout}")
    sys.exit(0 if fine else 1)


main()
