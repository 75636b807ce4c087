#!/usr/bin/env python3
"""Drives the demo's editor in headless Chromium: scripts/demo_editor.py [PROGRAM [PICTURES]]

Begins a `serve` of PROGRAM (./mokdrai where it is left out; it has to be that script, since it is ended by SIGTERM) over
a folder of its own, the editor of demo/editor before it, and two people in two windows: the list, an open sheet, a save,
a second window that is refused, a lock that has run out, a late save that is refused, a save that gets no answer and comes
late all the same, a host that is begun again, a window that goes away. Then the page that opens a file in a frame, behind
nginx with TLS. Locks last 30 minutes; so here another client unlocks under the editor's own lock id, which is how an ended
lock looks to it. What the windows say, the files and the journal have to fit together. Where PICTURES is named, four
pictures are put into that folder. It wants chromium, chromedriver (Debian's chromium-driver), nginx and openssl. It is no
part of the gate.
"""
import base64
import contextlib
import json
import os
import pathlib
import re
import signal
import socket
import subprocess
import sys
import tempfile
import threading
import time
import urllib.error
import urllib.parse
import urllib.request

TOP = pathlib.Path(__file__).resolve().parent.parent
sys.path.insert(0, str(TOP / "demo" / "editor"))
import tokens  # noqa: E402
import wopi  # noqa: E402

KEY = "4a656665"
PEOPLE = "name,town,since\nAda,London,1843\nGrace,New York,1952\nKonrad,Berlin,1941\n"
STOCK = "part,pieces\nnut,40\nbolt,38\n"
ELEMENT = "element-6066-11e4-a52e-4f735466cecf"
SECONDS = 60


class Wrong(Exception):
    """Something isn't as it should be."""


def must(holds, what):
    if not holds:
        raise Wrong(what)


def until(holds, what):
    """Waits for something to hold, and gives it."""
    end = time.monotonic() + SECONDS
    while True:
        found = holds()
        if found:
            return found
        must(time.monotonic() < end, what)
        time.sleep(0.05)


def free_port():
    with socket.socket() as taken:
        taken.bind(("127.0.0.1", 0))
        return taken.getsockname()[1]


class Browser:
    """Chromium, by the commands of WebDriver."""

    def __init__(self, room):
        self.port = free_port()
        self.driver = subprocess.Popen(["chromedriver", f"--port={self.port}"], stdout=subprocess.DEVNULL)
        words = ["--headless=new", "--window-size=1000,590", "--hide-scrollbars", f"--user-data-dir={room}/browser"]
        if os.geteuid() == 0:
            words.append("--no-sandbox")
        self.address = f"http://127.0.0.1:{self.port}"
        until(self.is_up, "no chromedriver")
        options = {"goog:chromeOptions": {"args": words}, "acceptInsecureCerts": True}
        session = self.do("POST", "/session", {"capabilities": {"alwaysMatch": options}})
        self.address += f"/session/{session['sessionId']}"
        self.first = self.do("GET", "/window")

    def is_up(self):
        with contextlib.suppress(OSError):
            return self.do("GET", "/status")["ready"]
        return False

    def do(self, method, path, what=None):
        body = None if method != "POST" else json.dumps(what or {}).encode()
        request = urllib.request.Request(self.address + path, body, {"Content-Type": "application/json"}, method=method)
        try:
            with urllib.request.urlopen(request, timeout=60) as response:
                return json.load(response)["value"]
        except urllib.error.HTTPError as fault:
            raise Wrong(f"{path}: {json.load(fault)['value']['message']}") from fault

    def new_window(self):
        # It is opened from a window that is there; the first one stays.
        self.do("POST", "/window", {"handle": self.first})
        return self.do("POST", "/window/new", {"type": "window"})["handle"]

    def end(self):
        with contextlib.suppress(Wrong, OSError):
            self.do("DELETE", "")
        self.driver.terminate()
        self.driver.wait()


class Window:
    """One window of the browser, in which one person works."""

    def __init__(self, browser, address):
        self.browser = browser
        self.handle = browser.new_window()
        self.in_frame = False
        self.do("POST", "/url", {"url": address})

    def do(self, method, path, what=None):
        self.browser.do("POST", "/window", {"handle": self.handle})
        if self.in_frame:
            self.browser.do("POST", "/frame", {"id": 0})
        return self.browser.do(method, path, what)

    def run(self, script, *words):
        return self.do("POST", "/execute/sync", {"script": script, "args": list(words)})

    def find(self, selector):
        return self.do("POST", "/element", {"using": "css selector", "value": selector})[ELEMENT]

    def text(self, selector):
        return self.run("const found = document.querySelector(arguments[0]); return found ? found.innerText : ''", selector)

    def press(self, selector):
        self.do("POST", f"/element/{self.find(selector)}/click")

    def open(self, name):
        """Presses Open in the row of a file."""
        rows = "[...document.querySelectorAll('#files tbody tr')]"
        place = f"return {rows}.findIndex((row) => row.innerText.startsWith(arguments[0]))"
        at = until(lambda: self.run(place, name) + 1, f"{name} isn't in the list")
        self.press(f"#files tbody tr:nth-child({at}) button")

    def fill(self, cell, text):
        """Types a text into a cell, in place of what is there."""
        field = self.find(f'[aria-label="{cell}"]')
        self.do("POST", f"/element/{field}/clear")
        self.do("POST", f"/element/{field}/value", {"text": text})

    def cell(self, name):
        return self.run("return document.querySelector(arguments[0]).value", f'[aria-label="{name}"]')

    def is_told(self, headline):
        """Waits for a headline of the page that begins so, and gives what stands below it."""
        until(lambda: self.text("#told strong").startswith(headline), f"not told: {headline}; but {self.text('#told')}")
        return self.text("#told span")

    def picture(self, folder, name):
        if folder:
            self.do("POST", "/execute/sync", {"script": "document.activeElement.blur()", "args": []})
            (folder / f"{name}.png").write_bytes(base64.b64decode(self.do("GET", "/screenshot")))

    def close(self):
        self.do("DELETE", "/window")


class Relay:
    """What lies between the editor and the host: it hands all on, but may keep a save back and give no answer to it."""

    def __init__(self, to):
        self.to = to
        self.keeps = False
        self.kept = []
        self.socket = socket.create_server(("127.0.0.1", 0))
        self.port = self.socket.getsockname()[1]
        threading.Thread(target=self.take, daemon=True).start()

    def take(self):
        while True:
            link, _ = self.socket.accept()
            threading.Thread(target=self.serve, args=(link,), daemon=True).start()

    def serve(self, link):
        with link:
            request = read_message(link)
            if self.keeps and b"X-WOPI-Override: PUT\r\n" in request:
                self.keeps = False
                self.kept.append(request)
            elif request:
                # Where the host is away, no answer comes.
                with contextlib.suppress(ConnectionError):
                    link.sendall(self.hand_on(request))

    def hand_on(self, request):
        with socket.create_connection(("127.0.0.1", self.to)) as host:
            host.sendall(request)
            return b"".join(iter(lambda: host.recv(65536), b""))


def read_message(link):
    """One request, whole; b"" where it isn't."""
    found = b""
    while True:
        head, ends, body = found.partition(b"\r\n\r\n")
        length = re.search(rb"(?i)\r\ncontent-length: (\d+)", head)
        if ends and len(body) >= int(length[1] if length else 0):
            return found
        more = link.recv(65536)
        if not more:
            return b""
        found += more


class Desk:
    """A folder, a host over it, and the editor at the host."""

    def __init__(self, program, room, refresh, proxy=None):
        self.program = program
        self.folder = pathlib.Path(tempfile.mkdtemp(dir=room))
        (self.folder / "people.csv").write_text(PEOPLE)
        (self.folder / "stock.csv").write_text(STOCK)
        (self.folder / "notes.txt").write_text("Call Grace.\n")
        self.port = free_port()
        self.relay = Relay(self.port)
        self.base = proxy or f"http://localhost:{self.relay.port}"
        self.running = []
        self.hosts = 0
        self.host = self.begin_host()
        self.editor_port = free_port()
        self.address = proxy or f"http://localhost:{self.editor_port}"
        self.editor = self.begin_editor(refresh)

    def begin_host(self):
        """The next host over the folder, at versions above those of the one before."""
        first = 1 + 5000 * self.hosts
        self.hosts += 1
        self.journal = self.folder.with_suffix(f".{self.hosts}.journal")
        words = [self.program, "serve", self.folder, str(self.port), KEY, self.base, "8", "--first", str(first)]
        with self.journal.open("wb") as journal:
            host = self.begin(words, stdout=journal)
        until(lambda: is_open(self.port), "no host")
        return host

    def begin_editor(self, refresh):
        script = TOP / "demo" / "editor" / "serve.py"
        words = [sys.executable, script, self.base, KEY, f"--port={self.editor_port}", f"--address={self.address}"]
        editor = self.begin([*words, f"--refresh={refresh}"], stdout=subprocess.DEVNULL)
        until(lambda: is_open(self.editor_port), "no editor")
        return editor

    def begin(self, words, **how):
        self.running.append(subprocess.Popen(words, **how))
        return self.running[-1]

    def __enter__(self):
        return self

    def __exit__(self, *_):
        for each in self.running:
            each.terminate()

    def window(self, browser, user):
        return Window(browser, f"{self.address}/?user={user}")

    def file(self, name, user="other", rights="w"):
        """The file as another client has it."""
        file_id = name.encode().hex()
        token = tokens.Key(KEY).for_file(user, file_id, rights)
        return wopi.File(f"http://localhost:{self.port}/wopi/files/{file_id}", token)

    def lock_of(self, name):
        return self.file(name).post("GET_LOCK", {}).lock

    def end_lock(self, name):
        """Unlocks behind the editor's back."""
        must(self.file(name).unlock(self.lock_of(name)).status == 200, "not unlocked")

    def text(self, name):
        return (self.folder / name).read_text()

    def end_host(self):
        """Ends the host, and gives the lines of its journal, which has to be legal."""
        self.host.send_signal(signal.SIGTERM)
        must(self.host.wait(SECONDS) == 0, "the host ended with a fault")
        journal = self.journal.read_bytes()
        judged = subprocess.run([self.program, "audit"], input=journal, stdout=subprocess.PIPE, check=True).stdout
        must(judged.startswith(b"legal "), f"the journal: {judged}")
        return journal.decode().splitlines()

    def end(self):
        self.editor.send_signal(signal.SIGTERM)
        must(self.editor.wait(SECONDS) == 0, "the editor ended with a fault")
        return self.end_host()


def is_open(port):
    with socket.socket() as link:
        return link.connect_ex(("127.0.0.1", port)) == 0


# The cases. Each leaves no window and no lock.


def open_edit_save(desk, browser, pictures):
    ann = desk.window(browser, "ann")
    until(lambda: "people.csv" in ann.text("#files"), "no list")
    must("Open" not in ann.text("#files tbody tr:first-child"), "notes.txt can be opened")
    ann.picture(pictures, "editor-list")
    ann.open("people.csv")
    ann.is_told("The file is locked for you")
    must(desk.lock_of("people.csv").startswith("ann-"), "not locked for ann")
    ann.fill("B3", "Arlington")
    must("aren't saved" in ann.text("#unsaved"), "edits aren't told")
    ann.press("#close")
    ann.do("POST", "/alert/dismiss")
    ann.picture(pictures, "editor-open")
    ann.press("#save")
    must("v2" in ann.is_told("Saved"), "another version")
    must(desk.text("people.csv") == PEOPLE.replace("New York", "Arlington"), "the file has something else")
    must(ann.text("#unsaved") == "", "saved edits are told as not saved")
    ann.press("#close")
    ann.is_told("Closed")
    must(desk.lock_of("people.csv") == "", "still locked")
    ann.close()


def second_window(desk, browser, pictures):
    """The headline: a second window is refused, a late save too, and both people's work is kept."""
    ann, bob = desk.window(browser, "ann"), desk.window(browser, "bob")
    ann.open("people.csv")
    ann.is_told("The file is locked for you")
    bob.open("people.csv")
    bob.is_told("ann has this file open")
    must(bob.run("return [...document.querySelectorAll('#sheet input')].every((each) => each.readOnly)"), "bob may edit")
    bob.picture(pictures, "editor-refused")
    ann.fill("C2", "1842")
    desk.end_lock("people.csv")
    bob.press("#again")
    bob.is_told("The file is locked for you")
    bob.fill("B4", "Zuse's town")
    bob.press("#save")
    bob.is_told("Saved")
    of_bob = desk.text("people.csv")
    late_save(desk, ann, bob, of_bob, pictures)
    must(desk.text("people.csv") == of_bob, "bob's work was touched")
    must("1842" in desk.text("people (ann).csv"), "ann's work isn't in the copy")
    for each in (ann, bob):
        each.close()


def late_save(desk, ann, bob, of_bob, pictures):
    ann.press("#save")
    must("Nothing of the other's work was touched" in ann.is_told("Not saved: your lock has ended, and bob"), "the detail")
    must(desk.text("people.csv") == of_bob, "the late save was accepted")
    ann.picture(pictures, "editor-late-save")
    ann.press("#save")
    ann.is_told("Not saved: your lock has ended, and bob has the file now")
    bob.press("#close")
    bob.is_told("Closed")
    ann.press("#save")
    ann.is_told("Not saved: somebody changed the file meanwhile")
    must(desk.lock_of("people.csv") == "", "ann keeps a lock that is of no use")
    must(ann.cell("C2") == "1842", "ann's edit is gone")
    ann.press("#copy")
    ann.is_told("A copy was saved")


def lock_ended_alone(desk, browser, _):
    """A lock has ended, and nobody changed the file: the next save takes a new one."""
    ann = desk.window(browser, "ann")
    ann.open("stock.csv")
    ann.is_told("The file is locked for you")
    ann.fill("B2", "41")
    desk.end_lock("stock.csv")
    ann.press("#save")
    must("Nobody has the file locked now" in ann.is_told("Not saved: your lock has ended"), "the detail")
    must(desk.text("stock.csv") == STOCK, "saved all the same")
    ann.press("#save")
    ann.is_told("Saved")
    must(desk.text("stock.csv") == STOCK.replace("40", "41"), "the file has something else")
    ann.press("#close")
    ann.is_told("Closed")
    ann.close()


def no_answer(desk, browser, _):
    """A save is kept on its way, the next one is saved, and the first one comes late."""
    ann = desk.window(browser, "ann")
    ann.open("stock.csv")
    ann.is_told("The file is locked for you")
    ann.fill("B3", "1")
    desk.relay.keeps = True
    ann.press("#save")
    ann.is_told("Not saved: the host gave no answer")
    ann.fill("B3", "2")
    ann.press("#save")
    ann.is_told("Saved")
    now = desk.text("stock.csv")
    must("bolt,2" in now, "the file has something else")
    late = desk.relay.hand_on(desk.relay.kept.pop())
    must(late.split()[1] == b"409" and b"lock id spent" in late, "the late save wasn't refused")
    must(desk.text("stock.csv") == now, "the late save was accepted")
    ann.press("#close")
    ann.is_told("Closed")
    ann.close()


def host_begun_again(desk, browser, _):
    """A host that is begun again knows no lock: the second save takes a new one, under a new token."""
    ann = desk.window(browser, "ann")
    ann.open("stock.csv")
    ann.is_told("The file is locked for you")
    ann.fill("A2", "washer")
    desk.end_host()
    ann.press("#save")
    ann.is_told("Not saved: the host gave no answer")
    desk.host = desk.begin_host()
    ann.press("#save")
    ann.is_told("Not saved: your lock has ended")
    ann.press("#save")
    must("v5002" in ann.is_told("Saved"), "another version")
    must("washer,41" in desk.text("stock.csv"), "the file has something else")
    ann.press("#close")
    ann.is_told("Closed")
    ann.close()


def text_is_kept(desk, browser, _):
    """What nobody edits comes back as it was: a byte order mark, CR LF, line breaks in cells, blank and short rows."""
    before = '\ufeffa,"b\r\nc","d ""e"""\r\n\r\n""\r\nshort\r\n1,2,3\r\n'
    written = desk.file("people.csv").put_relative("odd.csv", before.encode())
    must(written.status == 200, "no odd.csv")
    ann = desk.window(browser, "ann")
    ann.open("odd.csv")
    ann.is_told("The file is locked for you")
    ann.fill("B5", "ä, ß")
    ann.press("#save")
    ann.is_told("Saved")
    after = (desk.folder / "odd.csv").read_bytes().decode()
    must(after == before.replace("1,2,3", '1,"ä, ß",3'), "the file has something else")
    ann.press("#close")
    ann.is_told("Closed")
    ann.close()


def strangers_refused(desk, browser, _):
    """Other pages can't have anything done here, and other hosts' files aren't opened."""
    elsewhere = "http://elsewhere.example"
    must(post(f"{desk.address}/list", b'{"user":"ann"}', "application/json", elsewhere) == 403, "a page isn't refused")
    opening = f"{desk.address}/open?WOPISrc={elsewhere}/wopi/files/61"
    must(post(opening, b"access_token=a", "application/x-www-form-urlencoded", "null") == 403, "a host isn't refused")


def post(address, body, kind, origin):
    """The status of a request that another page makes."""
    request = urllib.request.Request(address, body, {"Content-Type": kind, "Origin": origin})
    try:
        with urllib.request.urlopen(request, timeout=SECONDS) as response:
            return response.status
    except urllib.error.HTTPError as fault:
        return fault.code


def window_goes_away(desk, browser, _):
    ann = desk.window(browser, "ann")
    ann.open("people.csv")
    ann.is_told("The file is locked for you")
    ann.close()
    until(lambda: desk.lock_of("people.csv") == "", "a window that is gone keeps its lock")


def lock_refreshed(desk, browser):
    """The page renews the lock by itself, and tells when it has ended."""
    ann = desk.window(browser, "ann")
    ann.open("people.csv")
    ann.is_told("The file is locked for you")
    until(lambda: "renewed" in ann.text("#lock"), "the lock isn't renewed")
    desk.end_lock("people.csv")
    ann.is_told("Your lock has ended")
    ann.press("#close")
    ann.is_told("Closed")
    ann.close()


def opened_in_a_frame(desk, browser, page):
    """The page that posts a token into a frame."""
    text = (TOP / "demo" / "opening-page.html").read_text()
    page.write_text(text.replace("http://localhost:8890", desk.address))
    file = desk.file("people.csv", "ann")
    given = {"WOPISrc": file.source.replace(f"http://localhost:{desk.port}", desk.base),
             "access_token": file.token, "access_token_ttl": file.token.split(".")[-2]}
    ann = Window(browser, f"file://{page}#{urllib.parse.urlencode(given)}")
    ann.in_frame = True
    ann.is_told("The file is locked for you")
    ann.fill("A2", "Lovelace")
    ann.press("#save")
    ann.is_told("Saved")
    must("Lovelace,London" in desk.text("people.csv"), "the file has something else")
    ann.press("#close")
    ann.is_told("Closed")
    ann.in_frame = False
    ann.close()


def behind_nginx(program, browser, room):
    """The host and the editor behind demo/nginx.conf, with TLS."""
    make_certificate(room)
    os.environ["SSL_CERT_FILE"] = f"{room}/files.pem"
    port = free_port()
    with Desk(program, room, 240, f"https://localhost:{port}") as desk:
        ports = {"8880": desk.port, "8890": desk.editor_port, "8443": port}
        text = re.sub("|".join(ports), lambda found: str(ports[found[0]]), (TOP / "demo" / "nginx.conf").read_text())
        (room / "nginx.conf").write_text(text.replace("files.example.org", "localhost"))
        desk.begin(["nginx", "-p", room, "-c", "nginx.conf", "-e", room / "error.log", "-g", "daemon off;"])
        until(lambda: is_open(port), "no nginx")
        opened_in_a_frame(desk, browser, room / "opening-page.html")
        sizes_at_the_proxy(desk)
        desk.end()
    print("behind_nginx", flush=True)


def sizes_at_the_proxy(desk):
    """The host's limit is nginx's."""
    file = desk.file("stock.csv")
    file.source = f"{desk.base}/wopi/files/{b'stock.csv'.hex()}"
    must(file.lock("large-1").status == 200, "not locked")
    for size, status in ((16 * 1024 * 1024, 200), (16 * 1024 * 1024 + 1, 413)):
        must(file.put("large-1", bytes(size)).status == status, f"not {status} at {size} bytes")


def make_certificate(room):
    words = ["openssl", "req", "-x509", "-newkey", "rsa:2048", "-nodes", "-days", "2", "-subj", "/CN=localhost",
             "-addext", "subjectAltName=DNS:localhost", "-keyout", room / "files.key", "-out", room / "files.pem"]
    subprocess.run(words, check=True, stderr=subprocess.DEVNULL)


def at_a_desk(program, browser, room, pictures):
    with Desk(program, room, 240) as desk:
        for case in (open_edit_save, second_window, lock_ended_alone, no_answer, host_begun_again, text_is_kept,
                     strangers_refused, window_goes_away):
            case(desk, browser, pictures)
            print(case.__name__, flush=True)
        desk.end()


def at_a_quick_desk(program, browser, room):
    """Here the page renews its lock each second."""
    with Desk(program, room, 1) as desk:
        lock_refreshed(desk, browser)
        must(any(" refresh " in line for line in desk.end()), "no refresh in the journal")
    print("lock_refreshed", flush=True)


def main():
    program = os.path.abspath(sys.argv[1] if len(sys.argv) > 1 else TOP / "mokdrai")
    pictures = pathlib.Path(sys.argv[2]) if len(sys.argv) > 2 else None
    with tempfile.TemporaryDirectory() as name:
        room = pathlib.Path(name)
        # The workers of an nginx that root begins have another user.
        room.chmod(0o711)
        browser = Browser(room)
        try:
            at_a_desk(program, browser, room, pictures)
            at_a_quick_desk(program, browser, room)
            behind_nginx(program, browser, room)
        finally:
            browser.end()
    return 0


if __name__ == "__main__":
    sys.exit(main())
