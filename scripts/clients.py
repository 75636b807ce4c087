#!/usr/bin/env python3
"""What other people's clients get of `mokdrai serve`, a line for each.

    scripts/clients.py [PROGRAM [FILES]]

Starts PROGRAM (./mokdrai where it is left out) over a folder and a port of its own for each try: Python's http.client
over one kept connection and with chunked bodies, pipelined requests, curl with `Expect: 100-continue`, a head that
comes byte by byte, a client that goes away in the middle of a body, one that closes before it reads, a silent client
beside another, nginx as a reverse proxy that keeps its connections, a restart at the same port, an end while eight
clients go on, a port that is taken, and a folder of FILES files (10,000 where it is left out). It asks for curl and
nginx where it finds them. Each host is ended by SIGTERM, and has to end with status 0 and a whole journal. It is no
part of the gate.
"""
import hashlib
import hmac
import http.client
import os
import shutil
import signal
import socket
import subprocess
import sys
import tempfile
import threading
import time

KEY = "4a656665"
FILE = "a.csv"
MIB = os.urandom(1 << 20)
NGINX = """worker_processes 1; daemon off; pid {room}/nginx.pid; error_log {room}/nginx.log;
events {{ worker_connections 64; }}
http {{
  access_log off; client_max_body_size 32m;
  client_body_temp_path {room}/body; proxy_temp_path {room}/proxy; fastcgi_temp_path {room}/fastcgi;
  uwsgi_temp_path {room}/uwsgi; scgi_temp_path {room}/scgi;
  upstream host {{ server 127.0.0.1:{to}; keepalive 2; }}
  server {{
    listen 127.0.0.1:{port};
    location / {{ proxy_pass http://host; proxy_http_version 1.1; proxy_set_header Connection ""; }}
  }}
}}
"""


class Wrong(Exception):
    """A try whose outcome is another."""


def must(holds, what):
    if not holds:
        raise Wrong(what)


def token(name):
    text = f"v2.0.ann.{name.encode().hex()}.w.1.253402300000000.253402300799999"
    return f"{text}.{hmac.new(bytes.fromhex(KEY), text.encode(), hashlib.sha256).hexdigest()}"


def path(behind="", name=FILE):
    return f"/wopi/files/{name.encode().hex()}{behind}?access_token={token(name)}"


def free_port():
    with socket.socket() as probe:
        probe.bind(("127.0.0.1", 0))
        return probe.getsockname()[1]


def connect(port, seconds=60):
    until = time.monotonic() + seconds
    while True:
        try:
            return socket.create_connection(("127.0.0.1", port), timeout=30)
        except ConnectionRefusedError:
            must(time.monotonic() < until, "no host answers")
            time.sleep(0.002)


class Host:
    """A `serve` over a folder with one file, which is ended by SIGTERM."""

    running = []

    def __init__(self, program, room, workers, port=None):
        self.room, self.port = room, port or free_port()
        self.folder = os.path.join(room, "files")
        if not os.path.isdir(self.folder):
            os.mkdir(self.folder)
            self.put(FILE, b"1,2\n")
        self.journal = os.path.join(room, f"journal-{time.monotonic_ns()}")
        with open(self.journal, "wb") as out:
            words = ["serve", self.folder, str(self.port), KEY, f"http://localhost:{self.port}", str(workers)]
            self.process = subprocess.Popen([program, *words], stdout=out, stderr=subprocess.PIPE)
        Host.running.append(self.process)

    def put(self, name, contents):
        with open(os.path.join(self.folder, name), "wb") as file:
            file.write(contents)

    def contents(self, name=FILE):
        with open(os.path.join(self.folder, name), "rb") as file:
            return file.read()

    def connection(self):
        link = http.client.HTTPConnection("127.0.0.1", self.port, timeout=30)
        link.sock = connect(self.port)
        return link

    def end(self, status=0, signalled=True):
        """Ends it, and gives the acts of its journal."""
        if signalled:
            self.process.send_signal(signal.SIGTERM)
        notes = self.process.communicate(timeout=60)[1]
        Host.running.remove(self.process)
        must(self.process.returncode == status, f"status {self.process.returncode}, {notes}")
        with open(self.journal) as file:
            lines = file.read().splitlines()
        acts = [line.split(" ")[6] for line in lines[1:-1] if not line.startswith("file ")]
        must(lines[0].startswith("wopi journal 2 opened ") and lines[-1] == f"end {len(acts)}", "the journal isn't whole")
        return acts


def ask(link, override, body=None, behind="", method="POST", wanted=200, **more):
    """One request under the lock L1, and its reply's body."""
    headers = {"X-WOPI-Lock": "L1", **({"X-WOPI-Override": override} if override else {})}
    link.request(method, path(behind), body=body, headers=headers, **more)
    reply = link.getresponse()
    got = reply.read()
    must(reply.status == wanted, f"{override or method}: {reply.status} {got[:80]}")
    return got


def read_replies(sock, count):
    """The statuses of so many replies on a connection, and the bodies."""
    statuses, bodies = [], []
    file = sock.makefile("rb")
    for _ in range(count):
        statuses.append(int(file.readline().split()[1]))
        length = 0
        while (line := file.readline()) not in (b"\r\n", b""):
            if line.lower().startswith(b"content-length:"):
                length = int(line.split(b":")[1])
        bodies.append(file.read(length))
    return statuses, bodies


def kept_connection(program, room):
    host = Host(program, room, 1)
    link = host.connection()
    ask(link, "LOCK")
    for number in range(200):
        body = f"{number}\n".encode() * 40
        ask(link, "PUT", body, "/contents")
        must(ask(link, None, None, "/contents", "GET") == body, "other contents")
    ask(link, "UNLOCK")
    link.close()
    must(host.end() == ["lock", *["put", "get"] * 200, "unlock"], "other entries")
    return "402 requests"


def chunked(program, room):
    host = Host(program, room, 1)
    link = host.connection()
    ask(link, "LOCK")
    pieces = [MIB[at:at + 1000] for at in range(0, len(MIB), 1000)]
    ask(link, "PUT", iter(pieces), "/contents", encode_chunked=True)
    must(ask(link, None, None, "/contents", "GET") == MIB and host.contents() == MIB, "other contents")
    link.close()
    host.end()
    return f"1 MiB in {len(pieces)} chunks"


def pipelined(program, room):
    host = Host(program, room, 1)
    sock = connect(host.port)
    asks = [("LOCK", b"", "")] + [("PUT", f"{number}".encode(), "/contents") for number in range(300)] + [("UNLOCK", b"", "")]
    text = b"".join(
        f"POST {path(behind)} HTTP/1.1\r\nHost: h\r\nX-WOPI-Override: {override}\r\nX-WOPI-Lock: L1\r\nContent-Length: {len(body)}\r\n\r\n".encode() + body
        for override, body, behind in asks
    )
    sock.sendall(text)
    statuses, _ = read_replies(sock, len(asks))
    sock.close()
    must(statuses == [200] * len(asks) and host.contents() == b"299", f"statuses {set(statuses)}")
    must(host.end() == ["lock", *["put"] * 300, "unlock"], "other entries")
    return f"{len(asks)} requests in {len(text)} bytes"


def continued(program, room):
    if not shutil.which("curl"):
        return "not tried: no curl"
    host = Host(program, room, 1)
    connect(host.port).close()
    body = os.path.join(room, "body")
    with open(body, "wb") as file:
        file.write(MIB)
    base = f"http://127.0.0.1:{host.port}"
    head = ["-H", "X-WOPI-Lock: L1", "-H"]
    subprocess.run(["curl", "-sf", "-X", "POST", *head, "X-WOPI-Override: LOCK", base + path()], check=True)
    begun = time.monotonic()
    words = ["curl", "-svf", "--expect100-timeout", "20", "-H", "Expect: 100-continue", *head, "X-WOPI-Override: PUT"]
    said = subprocess.run([*words, "--data-binary", f"@{body}", base + path("/contents")], capture_output=True)
    took = time.monotonic() - begun
    must(said.returncode == 0 and b"100 Continue" in said.stderr, said.stderr[-200:])
    must(host.contents() == MIB and took < 10, f"{took:.1f} seconds")
    host.end()
    return f"1 MiB, {took:.2f} seconds"


def byte_by_byte(program, room):
    host = Host(program, room, 1)
    sock = connect(host.port)
    sock.setsockopt(socket.IPPROTO_TCP, socket.TCP_NODELAY, 1)
    text = f"GET {path('/contents')} HTTP/1.1\r\nHost: h\r\n\r\n".encode()
    for at in range(len(text)):
        sock.send(text[at:at + 1])
    statuses, bodies = read_replies(sock, 1)
    sock.close()
    must((statuses, bodies) == ([200], [b"1,2\n"]), f"{statuses} {bodies}")
    host.end()
    return f"{len(text)} bytes"


def goes_away(program, room):
    host = Host(program, room, 1)
    link = host.connection()
    ask(link, "LOCK")
    link.close()
    head = f"POST {path('/contents')} HTTP/1.1\r\nHost: h\r\nX-WOPI-Override: PUT\r\nX-WOPI-Lock: L1\r\n"
    for half in (head[:70], head + "Content-Length: 9\r\n\r\nhalf", head + "Transfer-Encoding: chunked\r\n\r\n9\r\nhalf"):
        sock = connect(host.port)
        sock.sendall(half.encode())
        sock.close()
    sock = connect(host.port)
    sock.sendall((head + "Content-Length: 9\r\n\r\nhalf").encode())
    sock.setsockopt(socket.SOL_SOCKET, socket.SO_LINGER, b"\1\0\0\0\0\0\0\0")
    sock.close()
    link = host.connection()
    must(ask(link, None, None, "/contents", "GET") == b"1,2\n", "other contents")
    link.close()
    must(host.end() == ["lock", "get"], "other entries")
    return "four times, the last with a reset"


def reads_nothing(program, room):
    host = Host(program, room, 1)
    host.put(FILE, b"1,2\n")
    link = host.connection()
    ask(link, "LOCK")
    ask(link, "PUT", MIB, "/contents")
    link.close()
    text = f"GET {path('/contents')} HTTP/1.1\r\nHost: h\r\n\r\n".encode()
    sock = connect(host.port)
    sock.sendall(text * 50)
    sock.close()
    link = host.connection()
    must(ask(link, None, None, "/contents", "GET") == MIB, "other contents")
    link.close()
    host.end()
    return "50 replies of 1 MiB that nobody reads"


def silent(program, room):
    host = Host(program, room, 2)
    mute = connect(host.port)
    mute.sendall(b"GET /wopi/fi")
    took = []
    for _ in range(20):
        begun = time.monotonic()
        link = host.connection()
        must(ask(link, None, None, "/contents", "GET") == b"1,2\n", "other contents")
        link.close()
        took.append(time.monotonic() - begun)
    mute.close()
    must(host.end() == ["get"] * 20, "other entries")
    return f"20 connections beside it, the slowest in {max(took) * 1000:.0f} ms"


def through_nginx(program, room):
    if not shutil.which("nginx"):
        return "not tried: no nginx"
    host, port = Host(program, room, 2), free_port()
    os.chmod(room, 0o755)
    conf = os.path.join(room, "nginx.conf")
    with open(conf, "w") as file:
        file.write(NGINX.format(room=room, to=host.port, port=port))
    proxy = subprocess.Popen(["nginx", "-c", conf], stderr=subprocess.DEVNULL)
    try:
        link = http.client.HTTPConnection("127.0.0.1", port, timeout=30)
        link.sock = connect(port)
        connect(host.port).close()
        ask(link, "LOCK")
        for _ in range(20):
            ask(link, "PUT", MIB, "/contents")
            must(ask(link, None, None, "/contents", "GET") == MIB, "other contents")
        ask(link, "UNLOCK")
        link.close()
    finally:
        proxy.terminate()
        proxy.wait(timeout=30)
    must(host.contents() == MIB, "other contents")
    must(host.end() == ["lock", *["put", "get"] * 20, "unlock"], "other entries")
    return "42 requests, 20 MiB each way"


def restarted(program, room):
    host = Host(program, room, 1)
    port = host.port
    for _ in range(3):
        link = host.connection()
        ask(link, None, None, "/contents", "GET")
        # (the host closes first, so that its end of the connection waits a minute in the system)
        ask(link, None, None, "/contents", "GET", wanted=200)
        link.sock.sendall(f"GET {path('/contents')} HTTP/1.1\r\nHost: h\r\nConnection: close\r\n\r\n".encode())
        read_replies(link.sock, 1)
        must(link.sock.recv(1) == b"", "it isn't closed")
        link.close()
        must(host.end() == ["get"] * 3, "other entries")
        host = Host(program, room, 1, port)
    connect(port).close()
    host.end()
    return "three times"


def ended_under_load(program, room):
    host, counts = Host(program, room, 4), [0] * 8
    connect(host.port).close()

    def go_on(place):
        for _ in range(400):
            link = http.client.HTTPConnection("127.0.0.1", host.port, timeout=30)
            try:
                counts[place] += ask(link, None, None, "/contents", "GET") == b"1,2\n"
            except (OSError, http.client.HTTPException):
                return
            finally:
                link.close()

    clients = [threading.Thread(target=go_on, args=(place,)) for place in range(len(counts))]
    for client in clients:
        client.start()
    time.sleep(0.3)
    acts = host.end()
    for client in clients:
        client.join()
    must(len(acts) == sum(counts), f"{len(acts)} entries and {sum(counts)} replies")
    return f"{len(acts)} replies of eight clients, and as many entries"


def taken(program, room):
    host = Host(program, room, 1)
    connect(host.port).close()
    beside = os.path.join(room, "beside")
    os.mkdir(beside)
    other = Host(program, beside, 2, host.port)
    must(other.end(10, signalled=False) == [], "other entries")
    link = host.connection()
    must(ask(link, None, None, "/contents", "GET") == b"1,2\n", "other contents")
    link.close()
    host.end()
    return "status 10, and the first host serves on"


def many_files(program, room):
    count = int(sys.argv[2]) if len(sys.argv) > 2 else 10_000
    folder = os.path.join(room, "files")
    os.mkdir(folder)
    for number in range(count):
        with open(os.path.join(folder, f"file{number:05}.csv"), "wb") as file:
            file.write(b"1,2\n" * 100)
    begun = time.monotonic()
    subprocess.run("cat * > /dev/null", shell=True, cwd=folder, check=True)
    read = time.monotonic() - begun
    begun = time.monotonic()
    host = Host(program, room, 1)
    link = host.connection()
    link.request("GET", path("/contents", "file00007.csv"))
    must(len(link.getresponse().read()) == 400, "other contents")
    answered = time.monotonic() - begun
    link.close()
    host.end()
    return f"{count} files: answers after {answered:.2f} seconds; `cat` reads them in {read:.2f}"


TRIES = {
    "http.client over one connection": kept_connection,
    "http.client with chunks": chunked,
    "pipelined": pipelined,
    "Expect: 100-continue": continued,
    "a head byte by byte": byte_by_byte,
    "gone in the middle of a message": goes_away,
    "gone before it reads": reads_nothing,
    "beside a silent client": silent,
    "through nginx": through_nginx,
    "a restart at the same port": restarted,
    "ended under load": ended_under_load,
    "a port that is taken": taken,
    "many files": many_files,
}


def end_all():
    """Ends what a try that went wrong has left."""
    for process in Host.running:
        process.terminate()
        try:
            process.communicate(timeout=10)
        except subprocess.TimeoutExpired:
            print(f"process {process.pid} goes on", flush=True)
    Host.running.clear()


def main():
    here = os.path.dirname(os.path.abspath(__file__))
    program = os.path.abspath(sys.argv[1]) if len(sys.argv) > 1 else os.path.join(here, "..", "mokdrai")
    faults = 0
    for name, attempt in TRIES.items():
        with tempfile.TemporaryDirectory() as room:
            try:
                print(f"{name}: {attempt(program, room)}", flush=True)
            except (Wrong, OSError, http.client.HTTPException, subprocess.SubprocessError) as fault:
                faults += 1
                print(f"{name}: WRONG: {type(fault).__name__} {fault}", flush=True)
                end_all()
    print(f"{faults} faults")
    return 1 if faults else 0


if __name__ == "__main__":
    sys.exit(main())
