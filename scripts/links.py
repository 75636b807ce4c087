#!/usr/bin/env python3
"""What a `serve` does with connections that are silent, slow, many, or kept: scripts/links.py PROGRAM

PROGRAM is the built one, as crates/mokdrai/out/mokdrai. Each try begins it over a folder and a port of its own with
`--idle 2 --patience 3 --grace 3`, ends it in order, and says in a line what came of it: silent clients and clients that
read nothing are given up after 2 seconds, heads and bodies that drip after 3, a 413 arrives at a client that still
sends, 500 clients that keep their connections are all served by 16 workers, kept connections don't hold the end up,
and a body that goes on for ever does so for 3 seconds, and a host that lacks descriptors serves on. The status has to
be 0 each time, and no file torn. It is no part of the gate.
"""
import hashlib
import hmac
import http.client
import os
import resource
import shutil
import socket
import subprocess
import sys
import tempfile
import threading
import time

KEY = "4a656665"
FILE = "a.csv"
OPTIONS = ["--idle", "2", "--patience", "3", "--grace", "3"]
CLIENTS = 500
NGINX = """worker_processes 2; daemon off; pid {room}/nginx.pid; error_log {room}/nginx.log;
events {{ worker_connections 2048; }}
http {{
  access_log off;
  client_body_temp_path {room}/body; proxy_temp_path {room}/proxy; fastcgi_temp_path {room}/fastcgi;
  uwsgi_temp_path {room}/uwsgi; scgi_temp_path {room}/scgi;
  upstream host {{ server 127.0.0.1:{to}; keepalive 8; }}
  server {{
    listen 127.0.0.1:{port};
    location / {{ proxy_pass http://host; proxy_http_version 1.1; proxy_set_header Connection ""; }}
  }}
}}
"""


class Wrong(Exception):
    """A try whose outcome is another."""


def must(holds, what):
    if not holds:
        raise Wrong(what)


def path(behind=""):
    name = FILE.encode().hex()
    text = f"v2.0.ann.{name}.w.1.253402300000000.253402300799999"
    code = hmac.new(bytes.fromhex(KEY), text.encode(), hashlib.sha256).hexdigest()
    return f"/wopi/files/{name}{behind}?access_token={text}.{code}"


def head(method, behind, *lines):
    return "\r\n".join([f"{method} {path(behind)} HTTP/1.1", "Host: h", *lines, "", ""]).encode()


class Host:
    """A `serve` over a folder with one file."""

    running = []

    def __init__(self, program, workers, contents=b"1,2\n", more=(), descriptors=1024):
        self.room = tempfile.TemporaryDirectory()
        self.folder, self.stop, self.wake = (os.path.join(self.room.name, name) for name in ("files", "stop", "wake"))
        os.mkdir(self.folder)
        with open(os.path.join(self.folder, FILE), "wb") as file:
            file.write(contents)
        os.mkfifo(self.wake)
        self.waking = os.open(self.wake, os.O_RDWR)
        with socket.socket() as probe:
            probe.bind(("127.0.0.1", 0))
            self.port = probe.getsockname()[1]
        words = ["serve", self.folder, str(self.port), KEY, "http://localhost", str(workers), *OPTIONS, *more]
        around = {**os.environ, "MOKDRAI_STOP": self.stop, "MOKDRAI_WAKE": self.wake}
        self.process = subprocess.Popen(
            [program, *words], stdout=subprocess.DEVNULL, stderr=subprocess.PIPE, env=around,
            preexec_fn=lambda: resource.setrlimit(resource.RLIMIT_NOFILE, (descriptors, descriptors)))
        Host.running.append(self.process)
        self.connect().close()

    def connect(self):
        until = time.monotonic() + 60
        while True:
            try:
                return socket.create_connection(("127.0.0.1", self.port), timeout=60)
            except ConnectionRefusedError:
                must(time.monotonic() < until, f"no host answers, {self.process.poll()}")
                time.sleep(0.01)

    def client(self):
        client = http.client.HTTPConnection("127.0.0.1", self.port, timeout=60)
        client.sock = self.connect()
        return client

    def contents(self):
        with open(os.path.join(self.folder, FILE), "rb") as file:
            return file.read()

    def begin_end(self):
        open(self.stop, "w").close()
        os.write(self.waking, b"\n")

    def end(self, seconds=10):
        """Ends it in order, and tells how long that took."""
        begun = time.monotonic()
        if not os.path.exists(self.stop):
            self.begin_end()
        try:
            notes = self.process.communicate(timeout=seconds)[1]
        except subprocess.TimeoutExpired:
            self.process.kill()
            raise Wrong(f"still running after {seconds} seconds") from None
        must(self.process.returncode == 0, f"status {self.process.returncode}, {notes}")
        Host.running.remove(self.process)
        os.close(self.waking)
        self.room.cleanup()
        return time.monotonic() - begun


def get(client, wanted=200):
    client.request("GET", path("/contents"))
    reply = client.getresponse()
    body = reply.read()
    must(reply.status == wanted, f"status {reply.status}")
    return body


def served_after(host):
    """The seconds until another client is served."""
    begun = time.monotonic()
    client = host.client()
    get(client)
    client.close()
    return time.monotonic() - begun


def drip(sock, until, byte=b"x"):
    """Sends a byte at a time until the other end closes, and tells whether it did."""
    sock.settimeout(0.2)
    while time.monotonic() < until:
        try:
            sock.send(byte)
            if sock.recv(1000) == b"":
                return True
        except TimeoutError:
            pass
        except OSError:
            return True
    return False


def silent(program):
    host = Host(program, 4)
    held = [host.connect() for _ in range(4)]
    time.sleep(0.2)
    took = served_after(host)
    must(1 < took < 5, f"took {took:.1f} s")
    held.clear()
    host.end()
    return f"4 silent clients hold 4 workers for {took:.1f} s"


def dripping(program, first, what):
    host = Host(program, 1)
    sock = host.connect()
    sock.sendall(first)
    begun = time.monotonic()
    must(drip(sock, begun + 20), "it drips on")
    took = time.monotonic() - begun
    must(2.5 < took < 6, f"took {took:.1f} s")
    served_after(host)
    must(host.contents() == b"1,2\n", "the file changed")
    host.end()
    return f"a {what} that drips is given up after {took:.1f} s"


def slow_head(program):
    return dripping(program, head("GET", "")[:20], "head")


def slow_body(program):
    fields = ["X-WOPI-Override: PUT", "X-WOPI-Lock: L1", "Content-Length: 100000"]
    return dripping(program, head("POST", "/contents", *fields), "body")


def unreading(program):
    host = Host(program, 1, b"x" * (6 << 20))
    socks = []
    for _ in range(3):
        sock = socket.socket()
        sock.setsockopt(socket.SOL_SOCKET, socket.SO_RCVBUF, 4096)
        sock.connect(("127.0.0.1", host.port))
        sock.sendall(head("GET", "/contents") * 3)
        socks.append(sock)
    time.sleep(0.2)
    took = served_after(host)
    must(took < 15, f"took {took:.1f} s")
    host.end(60)
    return f"3 clients that read nothing hold 1 worker for {took:.1f} s"


def too_large(program):
    host = Host(program, 1)
    for size in (16777217, 40 << 20):
        client = host.client()
        client.request("POST", path("/contents"), b"x" * size, {"X-WOPI-Override": "PUT", "X-WOPI-Lock": "L1"})
        status = client.getresponse().status
        must(status == 413, f"status {status}")
        client.close()
    sock = host.connect()
    sock.sendall(head("POST", "/contents", "Transfer-Encoding: chunked") + b"zz\r\n" + b"x" * 1000000)
    must(sock.recv(12) == b"HTTP/1.1 400", "no 400")
    sock.close()
    host.end()
    return "a 413 and a 400 arrive while the body is sent"


def too_large_by_others(program):
    """The 413 arrives at curl and at Python's http.client, which send the whole body first."""
    host = Host(program, 2)
    body = b"x" * (20 << 20)
    client = host.client()
    told = []
    try:
        client.request("POST", path("/contents"), body, {"X-WOPI-Override": "PUT"})
    except (BrokenPipeError, ConnectionResetError):
        pass
    told.append(client.getresponse().status)
    client.close()
    if shutil.which("curl"):
        words = ["curl", "-s", "-o", os.devnull, "-w", "%{http_code}", "-H", "X-WOPI-Override: PUT", "--data-binary", "@-"]
        ran = subprocess.run([*words, f"http://127.0.0.1:{host.port}{path('/contents')}"], input=body, capture_output=True)
        told.append(int(ran.stdout))
    must(set(told) == {413}, f"told {told}")
    host.end()
    return f"{len(told)} others are told 413"


def serve_all(port):
    """The seconds in which all clients are served that keep their connections to this port."""
    faults, began = [], time.monotonic()
    done = threading.Barrier(CLIENTS + 1)

    def one():
        try:
            client = http.client.HTTPConnection("127.0.0.1", port, timeout=60)
            must(get(client) == b"1,2\n", "other bytes")
            done.wait(60)
        except Exception as fault:
            faults.append(repr(fault))
            done.abort()

    threads = [threading.Thread(target=one) for _ in range(CLIENTS)]
    for thread in threads:
        thread.start()
    try:
        done.wait(60)
    except threading.BrokenBarrierError:
        pass
    took = time.monotonic() - began
    for thread in threads:
        thread.join()
    must(not faults, f"{len(faults)} faults: {faults[:3]}")
    return took


def many(program):
    host = Host(program, 16)
    held = [host.connect() for _ in range(8)]
    took = serve_all(host.port)
    held.clear()
    host.end()
    return f"{CLIENTS} clients that keep their connections are served by 16 workers, beside 8 silent ones, in {took:.1f} s"


def behind_nginx(program):
    if not shutil.which("nginx"):
        return "no nginx here"
    host = Host(program, 16)
    with tempfile.TemporaryDirectory() as room, socket.socket() as probe:
        os.chmod(room, 0o755)
        probe.bind(("127.0.0.1", 0))
        port = probe.getsockname()[1]
        probe.close()
        with open(os.path.join(room, "nginx.conf"), "w") as file:
            file.write(NGINX.format(room=room, port=port, to=host.port))
        proxy = subprocess.Popen(["nginx", "-c", os.path.join(room, "nginx.conf")], stderr=subprocess.DEVNULL)
        try:
            time.sleep(1)
            took = [serve_all(port) for _ in range(3)]
            ended = host.end()
        finally:
            proxy.terminate()
            proxy.wait()
    return f"{CLIENTS} clients are served behind nginx in {max(took):.1f} s, three times, and its kept connections hold the end up for {1000 * ended:.0f} ms"


def kept(program):
    host = Host(program, 1)
    first = host.client()
    get(first)
    took = served_after(host)
    must(took < 1, f"took {took:.1f} s")
    host.end()
    host = Host(program, 1)
    first = host.client()
    get(first)
    time.sleep(1)
    get(first)
    host.end()
    return f"a kept connection is closed {1000 * took:.0f} ms after another client came, and else kept"


def ending(program):
    host = Host(program, 16)
    clients = [host.client() for _ in range(16)]
    for client in clients:
        get(client)
    took = host.end()
    must(took < 2, f"took {took:.1f} s")
    return f"16 kept connections hold the end up for {1000 * took:.0f} ms"


def grace(program):
    host = Host(program, 2)
    sock = host.connect()
    sock.sendall(head("POST", "/contents", "X-WOPI-Override: PUT", "X-WOPI-Lock: L1", "Content-Length: 16000000"))
    sending = threading.Thread(target=drip, args=(sock, time.monotonic() + 20, b"x" * 2000))
    sending.start()
    time.sleep(0.5)
    took = host.end(20)
    sending.join()
    must(2.5 < took < 6, f"took {took:.1f} s")
    return f"a body that goes on holds the end up for {took:.1f} s"


def shortage(program):
    """A host that has no descriptor for a connection goes on."""
    host = Host(program, 16, descriptors=12)
    clients = [host.connect() for _ in range(100)]
    time.sleep(1)
    must(host.process.poll() is None, f"it ended with {host.process.poll()}")
    for client in clients:
        client.close()
    took = served_after(host)
    must(took < 5, f"took {took:.1f} s")
    host.end()
    return f"with 12 descriptors a client is served {1000 * took:.0f} ms behind 100 that came at once"


def saved(program):
    """A message that is on its way at the end is answered."""
    host = Host(program, 2)
    client = host.client()
    client.request("POST", path(), None, {"X-WOPI-Override": "LOCK", "X-WOPI-Lock": "L1", "Content-Length": "0"})
    must(client.getresponse().read() == b"" , "the lock")
    client.sock.sendall(head("POST", "/contents", "X-WOPI-Override: PUT", "X-WOPI-Lock: L1", "Content-Length: 4") + b"3,")
    time.sleep(0.2)
    host.begin_end()
    time.sleep(1)
    client.sock.sendall(b"4\n")
    must(client.sock.recv(15) == b"HTTP/1.1 200 OK", "no reply")
    must(host.contents() == b"3,4\n", "another file")
    client.close()
    host.end()
    return "a save that is on its way at the end is answered"


TRIES = [silent, slow_head, slow_body, unreading, too_large, too_large_by_others, kept, many, behind_nginx, ending, grace, shortage, saved]


def main():
    program = os.path.abspath(sys.argv[1])
    names = sys.argv[2:]
    wrong = 0
    for each in TRIES:
        if names and each.__name__ not in names:
            continue
        try:
            print(each(program), flush=True)
        except (Wrong, OSError, http.client.HTTPException) as fault:
            wrong += 1
            print(f"{each.__name__}: {fault!r}", flush=True)
            for process in Host.running:
                process.kill()
            Host.running.clear()
    return 1 if wrong else 0


if __name__ == "__main__":
    sys.exit(main())
