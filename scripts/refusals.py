#!/usr/bin/env python3
"""Refuses each allocation and each call on files and streams in turn: scripts/refusals.py [PROGRAM [MOST]]

Runs PROGRAM (the built program of crates/mokdrai where it is left out: it has to be a program, and no script) over
folders and ports of its own, once for each place at which something is refused: `once` at a lock and at a save,
`replay` at a late save, `edit` at two saves, `serve` at one lock, and over logs at a lock and a save, `token`, and `upgrade`
of three entries. What is refused is the N-th call of malloc, calloc or realloc, or the N-th of those on files and streams, by a shim that this
script has cc compile and the loader put before the C library; where a command makes no N-th such call, its next case
comes, at the latest after MOST places (2,000 where it is left out).

Each run has to end by a status of its command with that status's line on the notes, its output has to be a front of
what it is where nothing is refused, or to have a 503 or a 500 in place of a reply, the file has to have its old bytes or
those of an accepted save, and the next start has to answer these. Over logs each reply of a 200 has to have its entry in
the log, and a save its contents; the next host has to begin logs of its own there. It is no part of the gate.
"""
import hashlib
import hmac
import os
import re
import signal
import socket
import subprocess
import sys
import tempfile
import time

KEY = "4a656665"
BASE = "http://localhost:8880"
OLD, NEW = b"1,2\n", b"1,9\n"
LINES = {0: b"", 3: b"read fault\n", 4: b"write fault\n", 5: b"folder fault\n", 6: b"out of memory\n", 10: b"listener fault\n",
         16: b"journal fault\n"}
SHIM = r"""
#define _GNU_SOURCE
#include <dlfcn.h>
#include <errno.h>
#include <stdlib.h>
#include <sys/types.h>
#include <unistd.h>

int creat(const char *, mode_t);

static long left;
static int kind;

__attribute__((constructor)) static void begin(void) {
  const char *what = getenv("REFUSED"), *place = getenv("PLACE");
  if (what && place) {
    left = atol(place);
    kind = what[0];
  }
  unsetenv("LD_PRELOAD");
}

static void tell(void) {
  int fd = creat(getenv("REFUSED_AT"), 0600);
  if (fd >= 0) close(fd);
}

static int refused(int of) {
  if (kind != of || __atomic_load_n(&left, __ATOMIC_SEQ_CST) <= 0) return 0;
  if (__atomic_sub_fetch(&left, 1, __ATOMIC_SEQ_CST)) return 0;
  kind = 0;
  tell();
  return 1;
}

extern void *__libc_malloc(size_t), *__libc_calloc(size_t, size_t), *__libc_realloc(void *, size_t);

void *malloc(size_t n) { return refused('m') ? (errno = ENOMEM, NULL) : __libc_malloc(n); }
void *calloc(size_t n, size_t m) { return refused('m') ? (errno = ENOMEM, NULL) : __libc_calloc(n, m); }
void *realloc(void *p, size_t n) { return refused('m') ? (errno = ENOMEM, NULL) : __libc_realloc(p, n); }

#define CALL(result, name, declared, given)                                  \
  result name declared {                                                     \
    static result(*next) declared;                                           \
    if (!next) next = (result(*) declared)dlsym(RTLD_NEXT, #name);            \
    if (refused('c')) {                                                      \
      errno = EIO;                                                           \
      return (result)-1;                                                     \
    }                                                                        \
    return next given;                                                       \
  }

CALL(ssize_t, read, (int fd, void *at, size_t n), (fd, at, n))
CALL(ssize_t, write, (int fd, const void *at, size_t n), (fd, at, n))
CALL(ssize_t, recv, (int fd, void *at, size_t n, int how), (fd, at, n, how))
CALL(ssize_t, send, (int fd, const void *at, size_t n, int how), (fd, at, n, how))
CALL(int, socket, (int family, int kind_of, int protocol), (family, kind_of, protocol))
CALL(int, bind, (int fd, const void *address, unsigned size), (fd, address, size))
CALL(int, listen, (int fd, int most), (fd, most))
CALL(int, connect, (int fd, const void *address, unsigned size), (fd, address, size))
CALL(int, accept, (int fd, void *address, void *size), (fd, address, size))
CALL(int, accept4, (int fd, void *address, void *size, int how), (fd, address, size, how))
CALL(int, open, (const char *name, int how, mode_t mode), (name, how, mode))
CALL(int, open64, (const char *name, int how, mode_t mode), (name, how, mode))
CALL(int, openat, (int fd, const char *name, int how, mode_t mode), (fd, name, how, mode))
CALL(int, openat64, (int fd, const char *name, int how, mode_t mode), (fd, name, how, mode))
CALL(int, rename, (const char *from, const char *to), (from, to))
CALL(int, renameat, (int fd, const char *from, int other, const char *to), (fd, from, other, to))
CALL(int, unlink, (const char *name), (name))
CALL(int, unlinkat, (int fd, const char *name, int how), (fd, name, how))
CALL(int, fsync, (int fd), (fd))
CALL(int, fdatasync, (int fd), (fd))
CALL(int, flock, (int fd, int how), (fd, how))
CALL(int, ftruncate, (int fd, off_t size), (fd, size))
CALL(int, ftruncate64, (int fd, off_t size), (fd, size))
CALL(ssize_t, getdents64, (int fd, void *at, size_t n), (fd, at, n))
"""


class Wrong(Exception):
    """A run whose outcome no refusal explains."""


def must(holds, what):
    if not holds:
        raise Wrong(what)


def token():
    text = "v2.0.ann.612e637376.w.1.253402300000000.253402300799999"
    return f"{text}.{hmac.new(bytes.fromhex(KEY), text.encode(), hashlib.sha256).hexdigest()}"


TOKEN = token()


def request(method, behind, lines, body=b""):
    path = f"/wopi/files/612e637376{behind}?access_token={TOKEN}"
    return f"{method} {path} HTTP/1.1\r\nHost: h\r\n{lines}Content-Length: {len(body)}\r\n\r\n".encode() + body


LOCK = request("POST", "", "X-WOPI-Override: LOCK\r\nX-WOPI-Lock: L1\r\n")
SAVE = request("POST", "/contents", "X-WOPI-Override: PUT\r\nX-WOPI-Lock: L1\r\n", NEW)
GET = request("GET", "/contents", "")
SCHEDULE = (b"file 612e637376 312c320a\nsession 612e637376 n 9000000\nopen 1\ndeliver 1 0\nanswer 1\ndeliver 2 0\nanswer 2\n"
            b"deliver 3 0\nanswer 3\nsave 1 41\nlose 1\nlose 1\nlose 1\nsave 1 42\ndeliver 7 10\nanswer 4\ndeliver 8 11\n"
            b"answer 5\ndeliver 4 12\n")
SCRIPT = b"open\nset 1 2 9\nsave\nset 1 1 7\nsave\nclose\n"
FIRST_FORM = b"""wopi journal 1 opened 0
file 612e637376 312c320a
1 11 0 5 612e637376 lock 4c31 ann.612e637376.w.2.0.9000000 200 - - v1 -
2 11 0 9 612e637376 put 4c31 2 ann.612e637376.w.2.0.9000000 200 - - v2 3432
3 11 1 7 612e637376 lock 4232 bob.612e637376.w.3.0.9000000 409 4c31 locked - -
end
"""
WORDS = ["token", KEY, "ann", "a.csv", "w", "1", "253402300000000", "253402300799999"]


class Room:
    """A folder with the file, and the program, with or without a refusal."""

    def __init__(self, program, shim, kind, place):
        self.program, self.kind = program, kind
        self.held = tempfile.TemporaryDirectory()
        self.top = self.held.name
        self.folder = os.path.join(self.top, "files")
        os.mkdir(self.folder)
        with open(os.path.join(self.folder, "a.csv"), "wb") as file:
            file.write(OLD)
        self.logs = os.path.join(self.top, "logs")
        os.mkdir(self.logs)
        self.told = os.path.join(self.top, "refused")
        refusing = {"LD_PRELOAD": shim, "REFUSED": kind, "PLACE": str(place), "REFUSED_AT": self.told}
        self.refusing = {**os.environ, **refusing} if place else None

    def was_refused(self):
        return os.path.exists(self.told)

    def run(self, words, given, refusing=True):
        env = self.refusing if refusing else None
        run = subprocess.run([self.program, *words], input=given, capture_output=True, env=env, timeout=60)
        return run.returncode, run.stdout, run.stderr

    def host(self, each, refusing, more=()):
        """A `serve` of one worker that ends after so many connections, and its port."""
        with socket.socket() as probe:
            probe.bind(("127.0.0.1", 0))
            port = probe.getsockname()[1]
        words = ["serve", self.folder, str(port), KEY, BASE, "1", "--each", str(each), *more]
        env = self.refusing if refusing else None
        out = open(os.path.join(self.top, "journal"), "wb")
        host = subprocess.Popen([self.program, *words], stdout=out, stderr=subprocess.PIPE, env=env)
        out.close()
        for _ in range(500):
            if host.poll() is not None or listens(port):
                break
            time.sleep(0.01)
        return host, port

    def journal(self):
        with open(os.path.join(self.top, "journal"), "rb") as file:
            return file.read()

    def kept(self):
        with open(os.path.join(self.folder, "a.csv"), "rb") as file:
            return file.read()

    def log(self, number):
        with open(os.path.join(self.logs, f"11.{number}"), "rb") as file:
            return file.read()

    def answers_what_it_keeps(self):
        status, output, notes = self.run(["once", self.folder, KEY, BASE], GET, refusing=False)
        must(status == 0 and output.endswith(b"\r\n\r\n" + self.kept()), f"the next start: status {status}, {notes}")


def listens(port):
    """Whether somebody listens at the port; nobody is connected to."""
    with open("/proc/net/tcp") as table:
        return any(line.split()[1].endswith(f":{port:04X}") and line.split()[3] == "0A" for line in list(table)[1:])


def is_told(status, notes, ends):
    must(status in ends, f"status {status}, {notes}")
    # a second line may tell the cause
    must(notes.split(b"\n")[0] in (LINES[status].rstrip(b"\n"), b""), f"status {status}, but the notes say {notes}")
    must(notes or status in (0, 6), f"status {status}, and nothing on the notes")


STAND_INS = re.compile(rb"HTTP/1\.1 (503 Service Unavailable\r\nContent-Length: 0\r\n(Connection: close\r\n)?\r\n"
                       rb"|500 Internal Server Error\r\nContent-Length: 11\r\nContent-Type: text/plain\r\n\r\nstore fault)")


def are_replies(output, wanted):
    """The statuses of the replies, each of which is the wanted one or one that tells of a refusal; the last may be cut."""
    statuses = []
    for reply in wanted:
        stand_in = STAND_INS.match(output)
        text = stand_in.group() if stand_in else reply
        must(output.startswith(text) or text.startswith(output), f"another reply: {output[:80]}")
        if not output.startswith(text):
            return statuses
        statuses.append(int(text[9:12]))
        output = output[len(text):]
        if b"Connection: close" in text:
            break
    must(output == b"", f"more than the replies: {output[:80]}")
    return statuses


def reply(version, body=b"", status=b"200 OK"):
    kind = b"Content-Type: application/octet-stream\r\n" if body else b""
    return b"HTTP/1.1 %s\r\nContent-Length: %d\r\n%sX-WOPI-ItemVersion: v%d\r\n\r\n%s" % (status, len(body), kind, version, body)


def locked_once(room):
    status, output, notes = room.run(["once", room.folder, KEY, BASE], LOCK)
    is_told(status, notes, (0, 3, 4, 5, 6))
    statuses = are_replies(output, [reply(1)])
    must(room.kept() == OLD, "other contents")
    must(status != 6 or not statuses, "want of memory after a reply")
    return status


def saved_once(room):
    status, output, notes = room.run(["once", room.folder, KEY, BASE], LOCK + SAVE)
    is_told(status, notes, (0, 3, 4, 5, 6))
    conflict = b"HTTP/1.1 409 Conflict\r\nContent-Length: 0\r\nX-WOPI-Lock: \r\nX-WOPI-LockFailureReason: not locked\r\n\r\n"
    try:
        statuses = are_replies(output, [reply(1), reply(2)])
    except Wrong:
        statuses = are_replies(output, [reply(1), conflict])
        must(statuses[0] == 503, f"a conflict though the lock was given: {output[:200]}")
    must(room.kept() in (OLD, NEW), f"other contents: {room.kept()[:80]}")
    must(statuses[1:] != [200] or room.kept() == NEW, "a save that was accepted and isn't there")
    return status


def replayed(room):
    status, output, notes = room.run(["replay"], SCHEDULE)
    is_told(status, notes, (0, 3, 4, 6))
    whole = room.run(["replay"], SCHEDULE, refusing=False)[1]
    must(whole.startswith(output), f"another trace: {output[:80]}")
    must(status != 0 or output == whole, "status 0, and a part of the trace")
    must(status != 6 or not output, "want of memory after a part of the trace")
    return status


def edited(room):
    """At a host to which nothing is refused."""
    host, port = room.host(1_000_000, refusing=False)
    try:
        status, output, notes = room.run(["edit", f"127.0.0.1:{port}", "612e637376", TOKEN, "n"], SCRIPT)
    finally:
        host.send_signal(signal.SIGKILL)
        host.communicate()
    # (a request whose answer was lost is sent again, so that a save may count twice)
    whole = b"opened v 1\nsaved v\nsaved v\nclosed\n"
    if status in (9, 11):
        *lines, last = output.splitlines() or [b""]
        must(notes == b"" and re.fullmatch(rb"no answer|bad reply \d+", last), f"the output ends {output[-80:]}")
        output = b"".join(line + b"\n" for line in lines)
    else:
        is_told(status, notes, (0, 3, 4, 6))
    output = re.sub(rb"v\d+", b"v", output)
    must(whole.startswith(output), f"another output: {output[:80]}")
    must(status != 0 or output == whole, "status 0, and a part of the output")
    must(room.kept() in (OLD, NEW, b"7,9\n"), f"other contents: {room.kept()[:80]}")
    return status


def ask(port, requests=LOCK):
    try:
        with socket.create_connection(("127.0.0.1", port), timeout=20) as link:
            link.sendall(requests)
            link.shutdown(socket.SHUT_WR)
            got = b""
            while piece := link.recv(4096):
                got += piece
            return got
    except OSError:
        return b""


def served(room):
    host, port = room.host(1, refusing=True)
    got = ask(port)
    notes = ended(host, port)
    status = host.returncode
    is_told(status, notes, (0, 4, 5, 6, 10))
    statuses = are_replies(got, [reply(1)])
    lines = room.journal().splitlines()
    must(not lines or lines[0].startswith(b"wopi journal 2 opened "), f"another journal: {lines[:1]}")
    whole = bool(lines) and lines[-1].startswith(b"end ")
    must(status in (4, 5, 6) or whole, f"status {status}, and the journal isn't whole")
    if whole and statuses == [200]:
        must(any(b" lock 4c31 " in line for line in lines), "a reply without its entry")
    must(room.kept() == OLD, "other contents")
    return status


def ended(host, port):
    """What a host of one connection has on its notes when it ends."""
    try:
        return host.communicate(timeout=20)[1]
    except subprocess.TimeoutExpired:
        # (a connection that couldn't be taken leaves a worker that waits for the next one)
        ask(port)
        return host.communicate(timeout=20)[1]


PUT = re.compile(rb"\n\d+ \d+ \d+ \d+ \d+ 612e637376 put 4c31 4 \S+ 200 - - v2 4\n" + re.escape(NEW) + rb"\n(?!off)")


def logged(room):
    """Of a 200 the log has the entry; it begins with the file, where the host came to that."""
    host, port = room.host(1, refusing=True, more=("--keep", room.logs))
    got = ask(port, LOCK + SAVE)
    notes, status = ended(host, port), host.returncode
    is_told(status, notes, (0, 5, 6, 10, 16))
    conflict = b"HTTP/1.1 409 Conflict\r\nContent-Length: 0\r\nX-WOPI-Lock: \r\nX-WOPI-LockFailureReason: not locked\r\n\r\n"
    try:
        statuses = are_replies(got, [reply(1), reply(2)])
    except Wrong:
        statuses = are_replies(got, [reply(1), conflict])
        must(statuses[0] == 503, f"a conflict though the lock was given: {got[:200]}")
    log = room.log(1) if statuses else b""
    must(not statuses or re.match(rb"wopi journal 3 shard 11 .*\nat 612e637376 v1 4\n", log), f"another log: {log[:80]}")
    must(statuses[:1] != [200] or b" lock 4c31 " in log, "a lock without its entry")
    must(statuses[1:] != [200] or PUT.search(log), f"a save without its entry: {log[-200:]}")
    must(statuses[1:] != [200] or room.kept() == NEW, "a save that was accepted and isn't there")
    must(room.kept() in (OLD, NEW), f"other contents: {room.kept()[:80]}")
    must(room.kept() == OLD or b" put 4c31 " in log, "a save that its log doesn't have")
    before = len(os.listdir(room.logs))
    host, port = room.host(1, refusing=False, more=("--keep", room.logs))
    got = ask(port)
    notes = ended(host, port)
    must(host.returncode == 0 and got.startswith(b"HTTP/1.1 200 "), f"the next host: status {host.returncode}, {notes}")
    must(len(os.listdir(room.logs)) == before + 16, "the next host wrote into older logs")
    return status


def written(room):
    status, output, notes = room.run(WORDS, b"")
    is_told(status, notes, (0, 4, 6))
    whole = TOKEN.encode() + b"\n"
    must(whole.startswith(output), f"another token: {output[:80]}")
    must(status != 0 or output == whole, "status 0, and a part of the token")
    must(status != 6 or not output, "want of memory after a part of the token")
    must(room.kept() == OLD, "other contents")
    return status


def upgraded(room):
    status, output, notes = room.run(["upgrade"], FIRST_FORM)
    is_told(status, notes, (0, 3, 4, 6))
    whole = room.run(["upgrade"], FIRST_FORM, refusing=False)[1]
    must(whole.startswith(b"wopi journal 2 ") and whole.startswith(output), f"another journal: {output[:80]}")
    must(status != 0 or output == whole, "status 0, and a part of the journal")
    must(status != 6 or not output, "want of memory after a part of the journal")
    must(room.kept() == OLD, "other contents")
    return status


CASES = {
    "once, at a lock": locked_once,
    "once, at a save": saved_once,
    "replay": replayed,
    "edit": edited,
    "serve": served,
    "serve, over logs": logged,
    "token": written,
    "upgrade": upgraded,
}


def tried(program, shim, kind, name, most):
    """Refuses at one place after another, and says how often each status came, and how often something was wrong."""
    statuses, faults = {}, 0
    for place in range(1, most + 1):
        room = Room(program, shim, kind, place)
        try:
            status = CASES[name](room)
            if not room.was_refused():
                return place - 1, statuses, faults
            room.answers_what_it_keeps()
            statuses[status] = statuses.get(status, 0) + 1
        except (Wrong, subprocess.TimeoutExpired) as wrong:
            print(f"  {name}, place {place}: {wrong}", flush=True)
            faults += 1
        finally:
            room.held.cleanup()
    return most, statuses, faults


def main():
    top = os.path.dirname(os.path.dirname(os.path.abspath(__file__)))
    program = os.path.abspath(sys.argv[1]) if len(sys.argv) > 1 else os.path.join(top, "crates/mokdrai/out/mokdrai")
    most = int(sys.argv[2]) if len(sys.argv) > 2 else 2_000
    faults = 0
    with tempfile.TemporaryDirectory() as room:
        shim, source = os.path.join(room, "shim.so"), os.path.join(room, "shim.c")
        with open(source, "w") as file:
            file.write(SHIM)
        subprocess.run(["cc", "-shared", "-fPIC", "-O1", "-w", "-o", shim, source, "-ldl"], check=True)
        for kind, what in (("m", "allocations"), ("c", "calls on files and streams")):
            for name in CASES:
                count, statuses, wrong = tried(program, shim, kind, name, most)
                told = ", ".join(f"{statuses[status]} with status {status}" for status in sorted(statuses))
                print(f"{name}: {count} {what} refused in turn: {told or 'none'}; {wrong} faults", flush=True)
                faults += wrong
    return 1 if faults else 0


if __name__ == "__main__":
    sys.exit(main())
