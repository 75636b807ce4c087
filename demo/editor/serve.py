#!/usr/bin/env python3
"""A small editor for CSV files at a WOPI host: serve.py BASE KEY [--port P] [--address A] [--refresh S]

It is what an online editor's server is: a WOPI client. The page that it hands out (page.html) asks this server alone. The
tokens, the lock ids and all requests to the host stay here. BASE is that of the host, and KEY its key, or `@` and the path
of a file that has it; with the key the server makes tokens for whatever name a person gives. So it listens at 127.0.0.1
alone, for trials. ADDRESS is where browsers find it: http://localhost:PORT where it is left out.
"""
import argparse
import contextlib
import dataclasses
import html
import http.server
import json
import pathlib
import re
import secrets
import signal
import sys
import threading
import urllib.parse

import opened
import sheets
import tokens
import wopi

PAGE = pathlib.Path(__file__).with_name("page.html")
MOST_BYTES = 64 * 1024 * 1024
DISCOVERY = """<?xml version="1.0" encoding="utf-8"?>
<wopi-discovery>
  <net-zone name="external-http">
    <app name="csv"><action name="edit" ext="csv" urlsrc="{address}/open?"/></app>
  </net-zone>
</wopi-discovery>
"""


class Refused(Exception):
    """A request of a window that isn't done, with what is told of that."""

    def __init__(self, headline, detail=""):
        super().__init__(headline)
        self.told = opened.Told(headline, detail)


class Editor:
    """All that windows have open, and the host that it is at."""

    def __init__(self, base, key, address, refresh):
        self.base = base
        self.key = key
        self.address = address
        self.refresh_seconds = refresh
        self.openings = {}
        self.posted = {}

    # What a window asks for by POST, each with what it sent.

    def list(self, sent):
        """The names, sizes and versions of the folder's files."""
        reply = wopi.children(self.base, self.key.for_folder(user_of(sent), "w"))
        if reply.status != 200:
            raise Refused("The host gave no list", opened.what_it_said(reply))
        parts = ("Name", "Size", "Version")
        return {"files": [{part: file[part] for part in parts} for file in reply.json()["ChildFiles"]]}

    def begin(self, sent):
        """Opens a file for a window: one that was posted by a page, or one of the list."""
        posted = sent["posted"]
        opening = self.posted_opening(posted) if posted else self.listed_opening(sent["name"], user_of(sent))
        try:
            told = opening.open()
            sheet = sheets.Sheet(opening.contents)
        except opened.CannotOpen as fault:
            opening.close()
            return dataclasses.asdict(fault.told)
        except sheets.NoSheet as fault:
            opening.close()
            raise Refused(f"{opening.name} can't be shown", str(fault)) from fault
        number = secrets.token_hex(16)
        self.openings[number] = (opening, sheet)
        return {
            **dataclasses.asdict(told),
            "opening": number,
            "name": opening.name,
            "user": opening.user,
            "rows": sheet.rows,
            "refresh": self.refresh_seconds,
        }

    def save(self, sent):
        opening, sheet = self.opening(sent)
        return dataclasses.asdict(opening.save(sheet.bytes_of(rows_of(sent))))

    def copy(self, sent):
        opening, sheet = self.opening(sent)
        return dataclasses.asdict(opening.copy(sheet.bytes_of(rows_of(sent))))

    def refresh(self, sent):
        return dataclasses.asdict(self.opening(sent)[0].refresh())

    def close(self, sent):
        opening, _ = self.opening(sent)
        del self.openings[sent["opening"]]
        return dataclasses.asdict(opening.close())

    # Their parts.

    def opening(self, sent):
        if sent["opening"] not in self.openings:
            raise Refused("This window's file isn't open any more", "Your edits are still here: download the table.")
        return self.openings[sent["opening"]]

    def listed_opening(self, name, user):
        file_id = name.encode().hex()

        def new_token():
            return self.key.for_file(user, file_id, "w")

        file = wopi.File(f"{self.base}/wopi/files/{file_id}", new_token())
        return opened.Opened(file, name, user, new_token)

    def posted_opening(self, number):
        if number not in self.posted:
            raise Refused("This page was used before", "Open the file again from its page.")
        source, token = self.posted.pop(number)
        file = wopi.File(source, token)
        reply = file.info()
        if reply.status != 200:
            raise Refused("The file can't be opened", opened.what_it_said(reply))
        return opened.Opened(file, reply.json()["BaseFileName"], reply.json()["UserId"], lambda: None)

    def take_post(self, source, token):
        """Keeps what a page posted for the window that it opens, and gives its number. Other hosts' files are refused."""
        if not re.fullmatch(re.escape(self.base) + "/wopi/files/[0-9a-f]+", source):
            raise Refused("This editor is at another host", f"It opens files of {self.base} alone.")
        number = secrets.token_hex(16)
        self.posted[number] = (source, token)
        return number

    def close_all(self):
        """Gives up all locks, at the end."""
        for opening, _ in list(self.openings.values()):
            opening.close()


def user_of(sent):
    if not re.fullmatch("[A-Za-z0-9_-]{1,64}", sent["user"]):
        raise Refused("That name can't be used", "A name has 1 to 64 letters, digits, _ and -.")
    return sent["user"]


def rows_of(sent):
    rows = sent["rows"]
    if not all(isinstance(cell, str) for row in rows for cell in row):
        raise ValueError("cells are texts")
    return rows


class Handler(http.server.BaseHTTPRequestHandler):
    """Requests of browsers. Those that ask for something to be done come from this server's own page alone."""

    server_version = "demo-editor"
    editor = None

    def do_GET(self):
        if self.path.partition("?")[0] == "/":
            self.give_page("")
        elif self.path == "/hosting/discovery":
            self.give(200, "application/xml", DISCOVERY.format(address=html.escape(self.editor.address)))
        else:
            self.give(404, "text/plain", "There is no such page.\n")

    def do_POST(self):
        length = self.headers.get("Content-Length", "")
        if not length.isdecimal() or int(length) > MOST_BYTES:
            self.give(413, "text/plain", "A length up to 64 MiB is wanted.\n")
            return
        body = self.rfile.read(int(length))
        if self.path.startswith("/open?"):
            self.take_post(body)
        elif self.headers.get("Origin") != self.editor.address or self.headers.get_content_type() != "application/json":
            self.give(403, "text/plain", f"This is for the page at {self.editor.address} alone.\n")
        else:
            self.give_json(body)

    def take_post(self, body):
        """The page of a file that another page opens here, by its address and by a token in a form."""
        source = urllib.parse.parse_qs(self.path.partition("?")[2]).get("WOPISrc", [""])[0]
        token = urllib.parse.parse_qs(body.decode(errors="replace")).get("access_token", [""])[0]
        try:
            self.give_page(self.editor.take_post(source, token))
        except Refused as refused:
            self.give(403, "text/plain", f"{refused.told.headline}. {refused.told.detail}\n")

    def give_json(self, body):
        actions = {"/" + name: getattr(self.editor, name) for name in ("list", "begin", "save", "copy", "refresh", "close")}
        try:
            result = actions[self.path](json.loads(body))
        except Refused as refused:
            result = dataclasses.asdict(refused.told)
        except wopi.NoAnswer as fault:
            result = dataclasses.asdict(opened.Told("The host gave no answer", f"Try again. ({fault})"))
        except (KeyError, TypeError, ValueError) as fault:
            self.give(400, "text/plain", f"That isn't what this page sends: {fault}\n")
            return
        self.give(200, "application/json", json.dumps(result))

    def give_page(self, posted):
        """The page; that of the list isn't shown within others, as it may open any file."""
        policy = "default-src 'self' 'unsafe-inline'"
        if not posted:
            policy += "; frame-ancestors 'none'"
        self.give(200, "text/html", PAGE.read_text().replace("POSTED", posted), {"Content-Security-Policy": policy})

    def give(self, status, kind, text, headers=None):
        body = text.encode()
        self.send_response(status)
        self.send_header("Content-Type", f"{kind}; charset=utf-8")
        self.send_header("Content-Length", str(len(body)))
        self.send_header("Cache-Control", "no-store")
        for name, value in (headers or {}).items():
            self.send_header(name, value)
        # A window that has gone away waits for no answer.
        with contextlib.suppress(ConnectionError):
            self.end_headers()
            self.wfile.write(body)

    def log_message(self, text, *words):
        """Nothing is told of requests that were answered."""


def read_words():
    parser = argparse.ArgumentParser(description=__doc__, formatter_class=argparse.RawDescriptionHelpFormatter)
    parser.add_argument("base", metavar="BASE")
    parser.add_argument("key", metavar="KEY", type=tokens.Key)
    parser.add_argument("--port", type=int, default=8890)
    parser.add_argument("--address")
    parser.add_argument("--refresh", type=int, default=240, help="seconds after which a lock is renewed")
    return parser.parse_args()


def main():
    words = read_words()
    address = words.address or f"http://localhost:{words.port}"
    Handler.editor = Editor(words.base, words.key, address, words.refresh)
    server = http.server.ThreadingHTTPServer(("127.0.0.1", words.port), Handler)
    for each in (signal.SIGINT, signal.SIGTERM):
        signal.signal(each, lambda *_: threading.Thread(target=server.shutdown).start())
    print(f"The editor is at {address}", flush=True)
    server.serve_forever()
    Handler.editor.close_all()


if __name__ == "__main__":
    sys.exit(main())
