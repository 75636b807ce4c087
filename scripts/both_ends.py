#!/usr/bin/env python3
"""Checks on a run of both ends what the law of both ends asks for, and what it says.

    scripts/both_ends.py [PROGRAM]

Starts PROGRAM (./mokdrai where it is left out) as `serve` over a folder with one sheet, and as `edit` over that sheet,
with a relay between them. The relay passes each request on to the byte, and each reply with a head that it writes
anew: with another Content-Type and a field more, without a version where the session looks at none, and with a page of
its own in the place of a body that the session doesn't look at. It keeps both as they were passed on. It loses the reply to one save,
and brings one request once more after the lock has gone over to the next id. Beside them others read, and ask for the
lock with an id of their own. Then the exchanges and the journal are looked at alone:

- each premise of the law (docs/PROVED.md): every entry that presents one of the session's ids came of a request that
  had gone out before; the token of each request is one under the host's key, for the file; every reply of 200 or 409
  that was taken has, in what the session looks at of it, what the host says of such an entry (the status; of a 409 the
  lock id and the reason; of a 200 to GetFile the version and the body, and to PutFile the version); and there is an
  order of both that is true of time;
- what the law then says: the lines `saved` of the script are those of the replies that were taken of a Put and are 200,
  one for each, in their order; each has its accepted entry, with the contents that its Put carried and the version that
  was told; these contents are replaced by nothing but a later save of the session; each save replaces what the save
  before it left, or what the session read when it opened; and behind the end of its lock none is accepted;
- that `audit` calls the journal legal, as it does each that `serve` wrote whole.

It writes the exchanges, the entries and what was found, and ends with status 0 where all holds. It is no part of the
gate.
"""
import hashlib
import hmac
import os
import re
import shutil
import signal
import socket
import subprocess
import sys
import tempfile
import threading
import time
from collections import namedtuple

KEY, NAME, NONCE = "4a656665", "a.csv", "n1"
ID = NAME.encode().hex()
SCRIPT = b"open\nset 1 1 7\nsave\nset 1 2 8\nsave\nset 1 2 9\nsave\nrefresh\nclose\n"

Exchange = namedtuple("Exchange", "request reply asked sent_at ended_at")
Entry = namedtuple("Entry", "stamp shard_ pass_ moment now file act token status lock reason version contents")


class Wrong(Exception):
    """What was to hold doesn't."""


def must(holds, what):
    if not holds:
        raise Wrong(what)


def now():
    return time.time_ns() // 1_000_000


def code_of(text):
    return hmac.new(bytes.fromhex(KEY), text.encode(), hashlib.sha256).hexdigest()


def token(user, serial, issued):
    text = f"v2.0.{user}.{ID}.w.{serial}.{issued}.253402300799999"
    return f"{text}.{code_of(text)}"


def own_id(number):
    return f"{NONCE}-{number}".encode().hex()


def is_own_id(word):
    """Whether it is the hex of the nonce, a dash and a decimal."""
    try:
        return re.fullmatch(rf"{NONCE}-[0-9]*", bytes.fromhex(word).decode("latin-1")) is not None
    except ValueError:
        return False


# messages


def parted(message):
    """The first line, the fields and the body."""
    head, _, body = message.partition(b"\r\n\r\n")
    first, *lines = head.decode("latin-1").split("\r\n")
    return first, {name.lower(): value for name, _, value in (line.partition(": ") for line in lines)}, body


def act_of(request):
    """What a request asks for, in the journal's words, and the body that it brings."""
    first, fields, body = parted(request)
    method, target, _ = first.split(" ")
    behind = target.partition("?")[0].removeprefix(f"/wopi/files/{ID}")
    lock, old = (fields.get(name, "").encode().hex() or "-" for name in ("x-wopi-lock", "x-wopi-oldlock"))
    if method == "GET":
        return ("info" if behind == "" else "get -"), body
    match fields["x-wopi-override"]:
        case "PUT":
            return f"put {lock} {len(body)}", body
        case "LOCK" if old != "-":
            return f"relock {old} {lock}", body
        case "LOCK":
            return f"lock {lock}", body
        case "REFRESH_LOCK":
            return f"refresh {lock}", body
        case "UNLOCK":
            return f"unlock {lock}", body
    raise Wrong(f"a request that no session makes: {first}")


def asked_of(request):
    """The same, with what lies behind the target: the file and the token."""
    act, body = act_of(request)
    first, _, _ = parted(request)
    must(first.split(" ")[1].startswith(f"/wopi/files/{ID}"), "another file")
    return act, body


def told_by(entry, contents):
    """What a session looks at of the answer that tells the entry."""
    kind = entry.act.split(" ")[0]
    seen = {"status": entry.status}
    if entry.status == "409":
        seen["lock"] = "" if entry.lock == "-" else bytes.fromhex(entry.lock).decode()
        seen["reason"] = REASONS.get(entry.reason)
    if entry.status == "200" and kind in ("get", "put"):
        seen["version"] = entry.version
    if entry.status == "200" and kind == "get":
        seen["body"] = contents
    return seen


REASONS = {"locked": "locked", "not-locked": "not locked", "spent": "lock id spent", "taken": "name taken"}


def is_told(reply, entry, contents):
    """Whether the reply tells the entry, in what a session looks at."""
    first, fields, body = parted(reply)
    said = {
        "status": first.split(" ")[1],
        "lock": fields.get("x-wopi-lock") or "",
        "reason": fields.get("x-wopi-lockfailurereason"),
        "version": fields.get("x-wopi-itemversion"),
        "body": body,
    }
    return all(said[part] == seen for part, seen in told_by(entry, contents).items())


# the two ends, and what lies between them


def connect(port, seconds=60):
    until = time.monotonic() + seconds
    while True:
        try:
            return socket.create_connection(("127.0.0.1", port), timeout=30)
        except ConnectionRefusedError:
            must(time.monotonic() < until, "no host answers")
            time.sleep(0.01)


def read_all(sock):
    pieces = []
    while piece := sock.recv(65536):
        pieces.append(piece)
    return b"".join(pieces)


def read_request(sock):
    """A request, to the end of its body."""
    held = b""
    while b"\r\n\r\n" not in held:
        piece = sock.recv(65536)
        must(piece, "a request that ends early")
        held += piece
    length = int(parted(held)[1].get("content-length", "0"))
    end = held.index(b"\r\n\r\n") + 4 + length
    while len(held) < end:
        held += sock.recv(65536)
    return held


def free_port():
    with socket.socket() as probe:
        probe.bind(("127.0.0.1", 0))
        return probe.getsockname()[1]


def asks(port, request):
    """A request, and its reply."""
    with connect(port) as sock:
        sock.sendall(request)
        return read_all(sock)


def request_of(method, text, behind="", **fields):
    more = "".join(f"{name.replace('_', '-')}: {value}\r\n" for name, value in fields.items())
    return f"{method} /wopi/files/{ID}{behind}?access_token={text} HTTP/1.1\r\nHost: h\r\n{more}Connection: close\r\n\r\n".encode()


PAGE = b"<p>passed on by a relay</p>"


def passed_on(request, reply):
    """The reply as a proxy may pass it on: all that a session looks at is the same."""
    kind = act_of(request)[0].split(" ")[0]
    head, _, body = reply.partition(b"\r\n\r\n")
    status = head.split(b" ")[1]
    head = re.sub(rb"(?mi)^Content-Type: [^\r]*", b"Content-Type: text/html", head)
    if status != b"200" or kind not in ("get", "put"):
        head = re.sub(rb"(?i)\r\nX-WOPI-ItemVersion: [^\r]*", b"", head)
    head = re.sub(rb"(?i)\r\nX-WOPI-Lock: ?(?=\r|$)", b"", head)
    if status != b"200" or kind not in ("get", "info"):
        body = PAGE
        head = re.sub(rb"(?mi)^Content-Length: [^\r]*", b"Content-Length: %d" % len(body), head)
    return head + b"\r\nVia: 1.1 relay\r\n\r\n" + body


class Relay:
    """Passes one exchange after another on, and keeps them. What `meanwhile` does comes behind an exchange's reply from
    the host and before that reply is passed on; where it answers False, the reply is lost."""

    def __init__(self, to, meanwhile):
        self.to, self.meanwhile, self.exchanges = to, meanwhile, []
        self.listener = socket.create_server(("127.0.0.1", 0))
        self.port = self.listener.getsockname()[1]
        self.thread = threading.Thread(target=self.run, daemon=True)
        self.thread.start()

    def run(self):
        while True:
            try:
                link, _ = self.listener.accept()
            except OSError:
                return
            with link:
                sent_at = now()
                request = read_request(link)
                reply = asks(self.to, request)
                passed = self.meanwhile(request, reply)
                reply = passed_on(request, reply)
                if passed:
                    link.sendall(reply)
                ended_at = now()
                self.exchanges.append(Exchange(request, reply if passed else None, asked_of(request), sent_at, ended_at))

    def close(self):
        # (a thread that waits in accept keeps the socket open, so it is woken)
        self.listener.shutdown(socket.SHUT_RDWR)
        self.listener.close()
        self.thread.join(timeout=30)


def run_both(program, room):
    """The exchanges of an `edit`, what it wrote, and the journal of its `serve`."""
    folder, port = os.path.join(room, "files"), free_port()
    os.mkdir(folder)
    with open(os.path.join(folder, NAME), "wb") as file:
        file.write(b"1,2\n")
    with open(os.path.join(room, "journal"), "wb") as out:
        words = ["serve", folder, str(port), KEY, f"http://localhost:{port}", "4"]
        host = subprocess.Popen([program, *words], stdout=out, stderr=subprocess.PIPE)
    try:
        connect(port).close()
        begun = now()
        mine, theirs = token("ann", 1, begun), token("bob", 2, begun)
        held = {"saves": 0, "first": None}

        def meanwhile(request, reply):
            act = act_of(request)[0].split(" ")
            if act[0] == "get":
                # others ask for the lock, and read
                other = asks(port, request_of("POST", theirs, X_WOPI_Override="LOCK", X_WOPI_Lock="m1-1", Content_Length=0))
                must(b" 409 " in other.split(b"\r\n")[0], "the lock went to others")
                asks(port, request_of("GET", theirs, "/contents"))
            if act[0] == "put":
                held["saves"] += 1
                if held["saves"] == 1:
                    # the reply to the first save is lost: the session sends it again
                    held["first"] = request
                    return False
                if act[1] == own_id(2):
                    # the first save comes once more, behind the second
                    late = asks(port, held["first"])
                    must(b" 409 " in late.split(b"\r\n")[0], "the late save was accepted")
            return True

        relay = Relay(port, meanwhile)
        words = ["edit", f"localhost:{relay.port}", ID, mine, NONCE]
        edit = subprocess.run([program, *words], input=SCRIPT, capture_output=True, timeout=120)
        relay.close()
        must(edit.returncode == 0, f"edit ended with {edit.returncode}: {edit.stdout} {edit.stderr}")
        host.send_signal(signal.SIGTERM)
        notes = host.communicate(timeout=60)[1]
        must(host.returncode == 0, f"serve ended with {host.returncode}: {notes}")
    finally:
        if host.poll() is None:
            host.send_signal(signal.SIGTERM)
            host.communicate(timeout=60)
    with open(os.path.join(room, "journal")) as file:
        return relay.exchanges, edit.stdout.decode(), file.read()


# what is read of a journal


def entry_of(line):
    parts = line.split(" ")
    head, rest = parts[:6], parts[6:]
    words = {"info": 0, "get": 1, "put": 2, "lock": 1, "getlock": 0, "refresh": 1, "unlock": 1, "relock": 2, "look": 0, "create": 2, "delete": 0}[rest[0]]
    return Entry(*head, " ".join(rest[:words + 1]), *rest[words + 1:])


def read_journal(text):
    """The opening contents, and the entries of the file's shard."""
    lines = text.splitlines()
    must(lines[0].startswith("wopi journal 2 opened ") and lines[-1] == f"end {len(lines) - 2 - sum(line.startswith('file ') for line in lines)}", "the journal isn't whole")
    opening = bytes.fromhex(next(line.split(" ")[2] for line in lines if line.startswith(f"file {ID} ")))
    entries = [entry_of(line) for line in lines[1:-1] if not line.startswith("file ")]
    shard = str(sum(NAME.encode()) % 16)
    return opening, [entry for entry in entries if entry.shard_ == shard]


def contents_after(entries, opening):
    """The file's contents before each entry, and behind the last."""
    contents = [opening]
    for entry in entries:
        new = entry.file == ID and entry.status == "200" and entry.act.split(" ")[0] in ("put", "create")
        contents.append(bytes.fromhex(entry.contents.replace("-", "")) if new else contents[-1])
    return contents


# the premises


def presents_own(entry):
    return entry.file == ID and any(is_own_id(word) for word in entry.act.split(" ")[1:])


def token_in(request):
    return parted(request)[0].partition("access_token=")[2].split(" ")[0]


def is_at_host(request):
    """Whether the request's token is one under the host's key, for the session's file."""
    text, _, code = token_in(request).rpartition(".")
    return code == code_of(text) and text.split(".")[3] == ID


def makes(exchange, entry):
    """Whether a message of the exchange's request makes such an entry."""
    act, body = exchange.asked
    user, file, rights, serial, issued, expires = token_in(exchange.request).split(".")[2:8]
    same_body = entry.act.split(" ")[0] != "put" or entry.status != "200" or bytes.fromhex(entry.contents.replace("-", "")) == body
    return entry.file == ID and entry.act == act and entry.token == f"{user}.{file}.{rights}.{serial}.{issued}.{expires}" and same_body


def order_of(exchanges, entries, contents):
    """An order of the requests, the entries and the replies that meets each premise, as lines."""
    order, out, at = [], [], 0

    def go_on():
        nonlocal at
        entry = entries[at]
        came = [i for i in out if makes(exchanges[i], entry)]
        if came:
            must(exchanges[came[0]].sent_at <= int(entry.moment), f"the entry {entry.stamp} stands before its request")
            order.append(f"    arrives  {entry.stamp} {entry.act} {entry.status} (request {came[0] + 1})")
        else:
            must(not presents_own(entry), f"the entry {entry.stamp} presents an id of the session, and no request of it went out before")
            order.append(f"    passes   {entry.stamp} {entry.act} {entry.status}")
        at += 1

    for i, exchange in enumerate(exchanges):
        must(is_at_host(exchange.request), f"the token of request {i + 1} is none at this host")
        out.append(i)
        order.append(f"    sends    {exchange.asked[0]} (request {i + 1})")
        if exchange.reply is None:
            order.append(f"    lost     (request {i + 1})")
            continue
        status = parted(exchange.reply)[0].split(" ")[1]
        if status in ("200", "409"):
            tells = lambda place: makes(exchange, entries[place]) and is_told(exchange.reply, entries[place], contents[place])
            before = [place for place in range(len(entries)) if tells(place) and int(entries[place].moment) <= exchange.ended_at]
            must(before, f"no entry tells the reply to request {i + 1}")
            while at <= before[-1]:
                go_on()
        order.append(f"    replied  {status} (request {i + 1})")
    while at < len(entries):
        go_on()
    return order


# what the law says


def check_order(exchanges, accepted, entries, contents):
    """Each accepted save replaces what the one before it left, the first one what was read at the opening; and none is
    accepted behind an accepted Unlock. (In this run no lock expires.)"""
    opened = next(parted(exchange.reply)[2] for exchange in exchanges
                  if exchange.asked[0].startswith("get") and exchange.reply and parted(exchange.reply)[0].split(" ")[1] == "200")
    left = opened
    for number, place in accepted:
        must(contents[place] == left, f"the save under id {number} replaces what the session hasn't seen")
        left = contents[place + 1]
    ends = [place for place, entry in enumerate(entries) if presents_own(entry) and entry.act.startswith("unlock ") and entry.status == "200"]
    must(all(place < end for end in ends for _, place in accepted), "a save is accepted behind the end of its lock")


def check_saves(exchanges, written, entries, contents):
    """Each line `saved` is that of a reply to a Put, and has its accepted entry with what that Put carried, which is
    replaced only by a later save of the session."""
    saved = re.findall(r"^saved (v[0-9]+)$", written, re.M)
    puts = [(parted(exchange.reply)[1].get("x-wopi-itemversion"), exchange.asked[1])
            for exchange in exchanges if exchange.asked[0].startswith("put ") and exchange.reply and parted(exchange.reply)[0].split(" ")[1] == "200"]
    must(saved == [version for version, _ in puts], f"the lines tell {saved}, and the replies {[version for version, _ in puts]}")
    accepted = [(int(bytes.fromhex(entry.act.split(" ")[1]).decode().rpartition("-")[2]), place)
                for place, entry in enumerate(entries) if presents_own(entry) and entry.act.startswith("put ") and entry.status == "200"]
    must([number for number, _ in accepted] == sorted(number for number, _ in accepted), "a save is accepted behind a later one")
    check_order(exchanges, accepted, entries, contents)
    for version, carried in puts:
        number, place = next(((number, place) for number, place in accepted if entries[place].version == version), (None, None))
        must(place is not None, f"{version} was told as saved and never accepted")
        must(contents[place + 1] == carried, f"{version} was accepted with other contents than its Put carried")
        for later in range(place + 1, len(entries)):
            if contents[later + 1] != contents[place + 1]:
                must(any(n > number and p == later for n, p in accepted), f"{version} was replaced by {entries[later]}")
                break
    return saved


def check_audit(program, journal):
    """What `audit` says of a journal that `serve` wrote whole: that it is legal, and how many entries it has."""
    entries = journal.splitlines()[-1].removeprefix("end ")
    said = subprocess.run([program, "audit"], input=journal.encode(), capture_output=True, timeout=120)
    must(said.returncode == 0 and said.stdout.decode() == f"legal {entries}\n", f"audit ended with {said.returncode}: {said.stdout} {said.stderr}")


def main():
    program = os.path.abspath(sys.argv[1] if len(sys.argv) > 1 else "./mokdrai")
    room = tempfile.mkdtemp(prefix="both-ends-")
    try:
        exchanges, written, journal = run_both(program, room)
        opening, entries = read_journal(journal)
        contents = contents_after(entries, opening)
        print("written by edit:", *(f"    {line}" for line in written.splitlines()), sep="\n")
        print("in an order that is true of time:", *order_of(exchanges, entries, contents), sep="\n")
        saved = check_saves(exchanges, written, entries, contents)
        check_audit(program, journal)
        print(f"premises hold; {len(saved)} saves were told, each accepted and replaced only by a later one")
        return 0
    except Wrong as wrong:
        print(f"wrong: {wrong}")
        return 1
    finally:
        shutil.rmtree(room, ignore_errors=True)


if __name__ == "__main__":
    sys.exit(main())
