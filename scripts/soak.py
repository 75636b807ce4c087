#!/usr/bin/env python3
"""Ten thousand connections of eight clients against `mokdrai serve`, and its journal against the replies.

    scripts/soak.py PROGRAM [CONNECTIONS]

Starts PROGRAM (as ./mokdrai) over a folder of its own at a port of its own, with eight workers. Each client opens
one connection after another and sends a few requests on each; some send a head byte by byte, and some go away in
the middle of a body. At the end the entries of the journal have to be the replies that the clients got, each as
often as it came, and the status 0. It is no part of the gate.
"""
import collections
import hashlib
import hmac
import http.client
import os
import random
import socket
import subprocess
import sys
import tempfile
import threading
import time

KEY = "4a656665"
CLIENTS = 8
FILES = [f"file{number}.csv" for number in range(32)]
REASONS = {"locked": "locked", "not locked": "not-locked", "lock id spent": "spent", "name taken": "taken"}


def token(name):
    text = f"v2.0.ann.{name.encode().hex()}.w.1.253402300000000.253402300799999"
    return f"{text}.{hmac.new(bytes.fromhex(KEY), text.encode(), hashlib.sha256).hexdigest()}"


TOKENS = {name: token(name) for name in FILES}


def hexed(text):
    return text.encode().hex() or "-"


def requests(random_, client, number):
    """What one connection asks for: method, path behind the id, headers, body, and the act as the journal has it."""
    name = random_.choice(FILES)
    lock = f"c{client}-{number}"
    body = b"x" * random_.randrange(1, 3000)
    head = {"X-WOPI-Lock": lock}
    asks = [
        ("POST", "", {"X-WOPI-Override": "LOCK", **head}, b"", f"lock {hexed(lock)}"),
        ("POST", "/contents", {"X-WOPI-Override": "PUT", **head}, body, f"put {hexed(lock)} {len(body)}"),
        ("GET", "/contents", {}, b"", "get -"),
        ("POST", "", {"X-WOPI-Override": "GET_LOCK"}, b"", "getlock"),
        ("POST", "", {"X-WOPI-Override": "REFRESH_LOCK", **head}, b"", f"refresh {hexed(lock)}"),
        ("POST", "", {"X-WOPI-Override": "UNLOCK", **head}, b"", f"unlock {hexed(lock)}"),
    ]
    kept = [ask for ask in asks if random_.random() < 0.6]
    return name, kept


def told(name, act, method, reply):
    """The reply as the journal's line tells it: file, act, status, lock, reason, version."""
    lock = reply.getheader("X-WOPI-Lock")
    has_lock = reply.status == 409 or (reply.status == 200 and act == "getlock")
    reason = REASONS[reply.getheader("X-WOPI-LockFailureReason")] if reply.status == 409 else "-"
    return (name.encode().hex(), act, str(reply.status), hexed(lock) if has_lock else "-", reason,
            reply.getheader("X-WOPI-ItemVersion") or "-")


def connect(port):
    for _ in range(200):
        try:
            return socket.create_connection(("127.0.0.1", port), timeout=30)
        except ConnectionRefusedError:
            time.sleep(0.05)
    raise SystemExit("no host answers")


def serve_client(port, client, connections, replies, faults):
    random_ = random.Random(client)
    for number in range(connections):
        name, asks = requests(random_, client, number)
        path = f"/wopi/files/{name.encode().hex()}"
        query = f"?access_token={TOKENS[name]}"
        sock = connect(port)
        if number % 97 == 5:
            sock.sendall(f"POST {path}/contents{query} HTTP/1.1\r\nHost: h\r\nX-WOPI-Override: PUT\r\nContent-Length: 999\r\n\r\nab".encode())
            sock.close()
            continue
        if number % 101 == 7:
            for byte in f"GET {path}/contents{query} HTTP/1.1\r\nHost: h\r\n\r\n".encode():
                sock.send(bytes([byte]))
            reply = http.client.HTTPResponse(sock, method="GET")
            reply.begin()
            reply.read()
            replies[client].append(told(name, "get -", "GET", reply))
            sock.close()
            continue
        link = http.client.HTTPConnection("127.0.0.1", port)
        link.sock = sock
        for method, behind, headers, body, act in asks:
            link.request(method, path + behind + query, body=body if method == "POST" else None, headers=headers)
            reply = link.getresponse()
            reply.read()
            if reply.status not in (200, 409):
                faults.append((client, number, act, reply.status))
            replies[client].append(told(name, act, method, reply))
        link.close()


def entries(journal):
    lines = journal.decode().splitlines()
    if not lines or not lines[0].startswith("wopi journal 2 opened ") or not lines[-1].startswith("end "):
        raise SystemExit("the journal isn't whole")
    for line in lines[1:-1]:
        words = line.split(" ")
        if words[0] == "file":
            continue
        place = next(at for at in range(6, len(words)) if words[at].startswith("ann."))
        yield (words[5], " ".join(words[6:place]), *words[place + 1:place + 5])


def main():
    program = os.path.abspath(sys.argv[1])
    each = int(sys.argv[2]) // CLIENTS if len(sys.argv) > 2 else 1250
    with socket.socket() as probe:
        probe.bind(("127.0.0.1", 0))
        port = probe.getsockname()[1]
    with tempfile.TemporaryDirectory() as folder:
        for name in FILES:
            with open(os.path.join(folder, name), "wb") as file:
                file.write(b"1,2\n")
        words = ["serve", folder, str(port), KEY, f"http://localhost:{port}", str(CLIENTS), "--journal", "32768", "--each", str(each)]
        host = subprocess.Popen([program, *words], stdout=subprocess.PIPE)
        out = []
        reader = threading.Thread(target=lambda: out.append(host.stdout.read()))
        reader.start()
        replies, faults = [[] for _ in range(CLIENTS)], []
        begun = time.monotonic()
        clients = [threading.Thread(target=serve_client, args=(port, client, each, replies, faults)) for client in range(CLIENTS)]
        for client in clients:
            client.start()
        for client in clients:
            client.join()
        took = time.monotonic() - begun
        status = host.wait(timeout=60)
        reader.join()
    got = collections.Counter(reply for list_ in replies for reply in list_)
    kept = collections.Counter(entries(out[0]))
    print(f"{CLIENTS * each} connections, {sum(got.values())} replies, {sum(kept.values())} entries, {took:.1f} seconds, status {status}")
    for what, left in (("a reply without its entry", got - kept), ("an entry without its reply", kept - got)):
        for one in list(left)[:5]:
            print(f"{what}: {one}")
    for fault in faults[:5]:
        print(f"another status: {fault}")
    return 0 if got == kept and status == 0 and not faults else 1


if __name__ == "__main__":
    sys.exit(main())
