#!/usr/bin/env python3
"""Shows that a crowd of clients is served, directly and through proxies: scripts/crowds.py [PROGRAM [CLIENTS]]

Starts PROGRAM (./mokdrai where it is left out) as a `serve` of 16 workers over a folder of its own. CLIENTS (500) come at
once: directly, through nginx (two processes that each keep eight connections to the host), and through Apache as it
comes. One in ten connects and says nothing. Each other client asks for a file five times over one connection that it
keeps, with a pause before each request. Then the same with `--links 64`, and with as many as all clients need. Every
request of every client that speaks has to be answered 200 within 30 seconds. The host is ended by SIGTERM while kept
connections are still open, and has to end in order with an entry for each request. It is no part of the gate.
"""
import hashlib
import hmac
import http.client
import os
import random
import shutil
import signal
import socket
import subprocess
import sys
import tempfile
import threading
import time

KEY = "4a656665"
TEXT = b"1,2\n"
REQUESTS = 5
NGINX = """worker_processes 2; daemon off; pid {room}/nginx.pid; error_log {room}/nginx.log;
events {{ worker_connections 2048; }}
http {{
  access_log off; client_max_body_size 16m;
  client_body_temp_path {room}/body; proxy_temp_path {room}/proxy; fastcgi_temp_path {room}/fastcgi;
  uwsgi_temp_path {room}/uwsgi; scgi_temp_path {room}/scgi;
  upstream host {{ server 127.0.0.1:{to}; keepalive 8; }}
  server {{
    listen 127.0.0.1:{port} backlog=1024;
    location / {{ proxy_pass http://host; proxy_http_version 1.1; proxy_set_header Connection ""; }}
  }}
}}
"""
APACHE = """ServerName localhost
ServerRoot {room}
PidFile {room}/apache.pid
ErrorLog {room}/apache.log
DefaultRuntimeDir {room}
Mutex file:{room}
Listen 127.0.0.1:{port}
LoadModule mpm_event_module {modules}/mod_mpm_event.so
LoadModule authz_core_module {modules}/mod_authz_core.so
LoadModule proxy_module {modules}/mod_proxy.so
LoadModule proxy_http_module {modules}/mod_proxy_http.so
User {user}
ServerLimit 32
MaxRequestWorkers 800
ProxyPass / http://127.0.0.1:{to}/
"""
MODULES = "/usr/lib/apache2/modules"


def token():
    text = f"v2.0.ann.{b'a.csv'.hex()}.w.1.253402300000000.253402300799999"
    return f"{text}.{hmac.new(bytes.fromhex(KEY), text.encode(), hashlib.sha256).hexdigest()}"


def free_port():
    with socket.socket() as probe:
        probe.bind(("127.0.0.1", 0))
        return probe.getsockname()[1]


def wait_for(port):
    until = time.monotonic() + 30
    while True:
        try:
            socket.create_connection(("127.0.0.1", port), timeout=5).close()
            return
        except OSError:
            if time.monotonic() > until:
                raise
            time.sleep(0.05)


def begin_host(program, room, options):
    folder = os.path.join(room, "files")
    shutil.rmtree(folder, ignore_errors=True)
    os.mkdir(folder)
    with open(os.path.join(folder, "a.csv"), "wb") as file:
        file.write(TEXT)
    port = free_port()
    words = ["serve", folder, str(port), KEY, f"http://localhost:{port}", "16", "--journal", "32768", *options]
    journal = open(os.path.join(room, "journal"), "wb")
    host = subprocess.Popen([program, *words], stdout=journal, stdin=subprocess.DEVNULL)
    wait_for(port)
    return host, port


def begin_nginx(room, to):
    port, conf = free_port(), os.path.join(room, "nginx.conf")
    with open(conf, "w") as file:
        file.write(NGINX.format(room=room, to=to, port=port))
    return subprocess.Popen(["nginx", "-c", conf], stderr=subprocess.DEVNULL), port


def begin_apache(room, to):
    port, conf = free_port(), os.path.join(room, "apache.conf")
    user = "www-data" if os.geteuid() == 0 else "#-1"
    with open(conf, "w") as file:
        file.write(APACHE.format(room=room, to=to, port=port, modules=MODULES, user=user))
    return subprocess.Popen(["apache2", "-f", conf, "-DFOREGROUND"], stderr=subprocess.DEVNULL), port


def crowd(port, clients):
    """The replies that were right, what went wrong, and the connections of the silent, which are still open."""
    path = f"/wopi/files/{b'a.csv'.hex()}/contents?access_token={token()}"
    right, wrong, silent, lock = [], [], [], threading.Lock()

    def speak(number):
        chance = random.Random(number)
        link = http.client.HTTPConnection("127.0.0.1", port, timeout=30)
        for _ in range(REQUESTS):
            time.sleep(chance.random())
            begun = time.monotonic()
            for again in (True, False):
                try:
                    link.request("GET", path)
                    reply = link.getresponse()
                    body = reply.read()
                    break
                except (http.client.RemoteDisconnected, ConnectionResetError, BrokenPipeError) as fault:
                    # A kept connection may be closed by the host between two requests; a client then asks anew.
                    link.close()
                    reply, body = fault, b""
                    if not again:
                        break
                except OSError as fault:
                    link.close()
                    reply, body = fault, b""
                    break
            with lock:
                if getattr(reply, "status", None) == 200 and body == TEXT:
                    right.append(time.monotonic() - begun)
                else:
                    wrong.append(f"client {number}: {reply if isinstance(reply, Exception) else reply.status}")
        link.close()

    def stay_silent():
        try:
            link = socket.create_connection(("127.0.0.1", port), timeout=30)
        except OSError as fault:
            with lock:
                wrong.append(f"a silent client: {fault}")
            return
        with lock:
            silent.append(link)

    threads = []
    for number in range(clients):
        threads.append(threading.Thread(target=stay_silent) if number % 10 == 0 else threading.Thread(target=speak, args=(number,)))
    for thread in threads:
        thread.start()
    for thread in threads:
        thread.join()
    return right, wrong, silent


def run(program, room, clients, through, options):
    host, port = begin_host(program, room, options)
    proxy, outer = None, port
    begun = time.monotonic()
    try:
        if through == "nginx":
            proxy, outer = begin_nginx(room, port)
        elif through == "Apache":
            proxy, outer = begin_apache(room, port)
        wait_for(outer)
        right, wrong, silent = crowd(outer, clients)
        seconds = time.monotonic() - begun
        ended = time.monotonic()
        host.send_signal(signal.SIGTERM)
        status = host.wait(timeout=60)
        ended = time.monotonic() - ended
        for link in silent:
            link.close()
    finally:
        if proxy:
            proxy.terminate()
            proxy.wait(timeout=30)
        if host.poll() is None:
            host.kill()
    with open(os.path.join(room, "journal")) as file:
        last = file.read().splitlines()[-1]
    speakers = clients - (clients + 9) // 10
    faults = list(wrong)
    if len(right) != speakers * REQUESTS and not wrong:
        faults.append("replies are missing")
    if status != 0:
        faults.append(f"status {status}")
    if int(last.split()[1]) < len(right):
        faults.append(f"the journal's last line is {last}")
    slowest = max(right, default=0)
    print(f"{clients} clients, {len(silent)} of them silent, {through}, {' '.join(options) or 'WORKERS alone'}: {len(right)} of "
          f"{speakers * REQUESTS} answered in {seconds:.1f} s, the slowest in {slowest:.2f} s; ended in {ended:.1f} s"
          + "".join(f"\n  {fault}" for fault in faults[:5]), flush=True)
    return not faults


def main():
    program = os.path.abspath(sys.argv[1] if len(sys.argv) > 1 else "./mokdrai")
    clients = int(sys.argv[2]) if len(sys.argv) > 2 else 500
    fine = True
    for options in ([], ["--links", "64"], ["--links", "600"]):
        for through in ("directly", "nginx", "Apache"):
            if through == "nginx" and not shutil.which("nginx") or through == "Apache" and not os.path.isdir(MODULES):
                print(f"through {through}: not tried, it isn't there")
                continue
            with tempfile.TemporaryDirectory() as room:
                os.chmod(room, 0o755)
                fine = run(program, room, clients, through, options) and fine
    sys.exit(0 if fine else 1)


main()
