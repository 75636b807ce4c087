#!/usr/bin/env python3
"""Looks for lost work in the demo's editor: scripts/editor_saves.py [RUNS]

Runs the openings of demo/editor/opened.py, up to three at a time, at a stand-in for the host in memory, as many times as
RUNS says (2,000). The stand-in has the host's rules on locks and on lock ids that have ended. In between, requests are
lost, answers are lost, requests come late, and locks run out, at random from fixed seeds. At each save that the stand-in
accepts, what it replaces has to be known to the one who saves: read at the opening, or sent by themselves. No save is
accepted behind a later one that was told as saved. Where the editor says "Saved", the file has just that. It is no part of
the gate.
"""
import collections
import json
import pathlib
import random
import sys

sys.path.insert(0, str(pathlib.Path(__file__).resolve().parent.parent / "demo" / "editor"))
import opened  # noqa: E402
import wopi  # noqa: E402

STEPS = 80


class Wrong(Exception):
    """Work was lost, or something was told that isn't so."""


def must(holds, what):
    if not holds:
        raise Wrong(what)


class Person:
    """Who has an opening: the contents that they read at its beginning, and those that they sent since, in order."""

    def __init__(self):
        self.read = None
        self.sent = []
        self.saved = -1

    def may_replace(self, before, contents):
        must(before == self.read or before in self.sent, "work of somebody else was replaced")
        must(self.sent.index(contents) > self.saved, "an earlier save came behind one that was told as saved")


class Host:
    """One file, with its lock and the lock ids that have ended."""

    def __init__(self):
        self.contents = b"0"
        self.version = 1
        self.lock = ""
        self.spent = set()
        self.late = []

    def end_lock(self):
        self.spent.add(self.lock)
        self.lock = ""

    def reply(self, status, reason="", body=b""):
        return wopi.Reply(status, self.lock if status == 409 else "", reason, f"v{self.version}", body)

    def do(self, person, operation, *words):
        if operation == "info":
            return self.reply(200, body=json.dumps({"UserCanWrite": True}).encode())
        if operation == "contents":
            return self.reply(200, body=self.contents)
        if self.spent.intersection(words):
            return self.reply(409, "lock id spent")
        if operation == "lock" and not self.lock:
            self.lock = words[0]
        if self.lock != words[0]:
            return self.reply(409, "locked" if self.lock else "not locked")
        if operation == "put":
            person.may_replace(self.contents, words[1])
            self.contents, self.version = words[1], self.version + 1
        if operation in ("unlock", "relock"):
            self.end_lock()
        if operation == "relock":
            self.lock = words[1]
        return self.reply(200)


class File:
    """The file over a network that loses and delays: what an opening asks in place of `wopi.File`."""

    def __init__(self, host, person, luck):
        self.host, self.person, self.luck = host, person, luck

    def __getattr__(self, operation):
        return lambda *words: self.ask(operation, *words)

    def ask(self, operation, *words):
        fate = self.luck.random()
        if fate < 0.08:
            raise wopi.NoAnswer("the request was lost")
        if fate < 0.18:
            self.host.late.append((self.person, operation, *words))
            raise wopi.NoAnswer("the request is late")
        reply = self.host.do(self.person, operation, *words)
        if fate < 0.26:
            raise wopi.NoAnswer("the answer was lost")
        if operation == "contents" and self.person.read is None:
            self.person.read = reply.body
        return reply


def begin(host, luck, people):
    person = Person()
    opening = opened.Opened(File(host, person, luck), "a.csv", luck.choice(["ann", "bob"]), lambda: None)
    try:
        told = opening.open()
        people.append((person, opening))
    except opened.CannotOpen as fault:
        opening.close()
        told = fault.told
    return told


def save(host, person, opening, contents):
    person.sent.append(contents)
    told = opening.save(contents)
    if told.stored:
        must(host.contents == contents, "told as saved, and isn't in the file")
        person.saved = len(person.sent) - 1
    return told


def act(host, luck, people, step):
    """One step of somebody who has the file open, or of somebody who opens it."""
    if not people or (len(people) < 3 and luck.random() < 0.2):
        return begin(host, luck, people)
    person, opening = luck.choice(people)
    what = luck.random()
    if what < 0.6:
        return save(host, person, opening, str(step).encode())
    if what < 0.85:
        return opening.refresh()
    people.remove((person, opening))
    return opening.close()


def run(seed, told):
    luck = random.Random(seed)
    host, people = Host(), []
    for step in range(1, STEPS):
        fate = luck.random()
        if fate < 0.06 and host.lock:
            host.end_lock()
        elif fate < 0.25 and host.late:
            host.do(*host.late.pop(luck.randrange(len(host.late))))
        else:
            told[act(host, luck, people, step).headline] += 1


def main():
    told = collections.Counter()
    for seed in range(int(sys.argv[1]) if len(sys.argv) > 1 else 2000):
        try:
            run(seed, told)
        except Wrong as fault:
            print(f"seed {seed}: {fault}")
            return 1
    for headline, times in told.most_common():
        print(f"{times:8} {headline}")
    return 0


if __name__ == "__main__":
    sys.exit(main())
