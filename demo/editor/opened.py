"""A file that one window has open: its lock, its saves, and what the person at the window is told of them.

The lock id is random and of this opening alone, with the user's name in front. A save goes out under the lock. One that
got no answer may still be on its way. So the next save goes out under another lock id, to which the lock is handed on
first: from then on the host refuses the old id, whenever it arrives. Where the lock has ended, the next save takes a new
lock, and goes out only if the file is still as it was read or saved here.
"""
import dataclasses
import re
import secrets
import threading

import wopi

HELD = "held"  # The lock is held, as far as is known.
UNSURE = "unsure"  # The lock is held, and a save under it got no answer.
LOST = "lost"  # The lock has ended.
READING = "reading"  # There never was a lock: the file is only shown.

STILL_HERE = "Your edits are still in this window."
REASONS = {
    "locked": "another lock stands",
    "not locked": "no lock stands",
    "lock id spent": "your lock id has ended",
    "name taken": "all such names are taken",
}


@dataclasses.dataclass
class Told:
    """What a person is told, and how the opening stands. `stored` says that the host has what was sent."""

    headline: str
    detail: str
    good: bool = False
    stored: bool = False
    state: str = ""


class CannotOpen(Exception):
    """The file isn't opened. `told` says why."""

    def __init__(self, headline, detail):
        super().__init__(headline)
        self.told = Told(headline, detail)


class Opened:
    """An opening of a file by a user. `renew` makes a new token, or gives None where nobody here can."""

    def __init__(self, file, name, user, renew):
        self.file = file
        self.name = name
        self.user = user
        self.renew = renew
        self.turn = threading.Lock()
        self.state = READING
        self.lock_id = ""
        # The id that is locked under next. It stays the same over tries that got no answer, so that no lock is left over.
        self.next_id = new_lock_id(user)
        self.next_was_sent = False
        # What the file had when it was read or saved here last, and what was sent since and got no answer.
        self.contents = b""
        self.perhaps = []

    # What the window asks for, one at a time.

    def open(self):
        """Locks the file and reads it; where it is locked already, only reads it."""
        with self.turn:
            try:
                may_write = self.must(self.asked("info")).json()["UserCanWrite"]
                told = self.first_lock() if may_write else only_read("You may only read this file", "")
                self.contents = self.must(self.asked("contents")).body
            except wopi.NoAnswer as fault:
                raise CannotOpen("The host gave no answer", f"Try again. ({fault})") from fault
            return self.standing(told)

    def save(self, contents):
        """Saves the contents, under the lock or under a new one."""
        with self.turn:
            try:
                refused = self.make_ready()
            except wopi.NoAnswer as fault:
                refused = Told("Not saved: the host gave no answer", f"{STILL_HERE} Save again. ({fault})")
            return self.standing(refused or self.put(contents))

    def refresh(self):
        """Renews the lock's 30 minutes."""
        with self.turn:
            try:
                told = self.renewed()
            except wopi.NoAnswer as fault:
                told = Told("The host gave no answer", f"Whether your lock was renewed isn't known. ({fault})")
            return self.standing(told)

    def copy(self, contents):
        """Saves the contents beside the file, under a name that is free."""
        with self.turn:
            try:
                told = self.copied(contents)
            except wopi.NoAnswer as fault:
                told = Told("No answer came", f"The copy may be there or not: look at the list. {STILL_HERE} ({fault})")
            return self.standing(told)

    def close(self):
        """Gives up what lock there may be."""
        with self.turn:
            try:
                told = self.unlocked()
            except wopi.NoAnswer as fault:
                told = Told("Closed", f"The host gave no answer. The lock ends by itself within 30 minutes. ({fault})")
            self.state = LOST
            return self.standing(told)

    # Their parts.

    def standing(self, told):
        told.state = self.state
        return told

    def asked(self, operation, *words):
        """One request; after 401 once more with a new token, as nothing was done under the old one."""
        reply = getattr(self.file, operation)(*words)
        token = self.renew() if reply.status == 401 else None
        if token is None:
            return reply
        self.file.token = token
        return getattr(self.file, operation)(*words)

    def must(self, reply):
        if reply.status != 200:
            raise CannotOpen(f"{self.name} can't be opened", what_it_said(reply))
        return reply

    def lock_under_next(self):
        self.next_was_sent = True
        reply = self.asked("lock", self.next_id)
        if reply.status == 409:
            self.take_another_id()
        return reply

    def hold_next(self):
        self.lock_id, self.state = self.next_id, HELD
        self.take_another_id()

    def take_another_id(self):
        self.next_id, self.next_was_sent = new_lock_id(self.user), False

    def first_lock(self):
        reply = self.lock_under_next()
        if reply.status == 409:
            other = holder(reply.lock)
            detail = f"The host refused the lock: {why(reply)} Try again when {other} has closed the file."
            return only_read(f"{other} has this file open", detail)
        self.must(reply)
        self.hold_next()
        detail = "Others can read it. Nobody else can save it until you close it."
        return Told("The file is locked for you", detail, good=True)

    def make_ready(self):
        """Sees to it that a save can go out; gives what is told where it can't."""
        if self.state == UNSURE:
            return self.hand_on()
        if self.state == LOST:
            return self.take_again()
        return None if self.state == HELD else Told("Not saved: the file is only open to read", STILL_HERE)

    def hand_on(self):
        """Hands the lock on to the next id, so that what was sent under the old one is refused when it comes late."""
        self.next_was_sent = True
        reply = self.asked("relock", self.lock_id, self.next_id)
        # One that was made before, and whose answer was lost, is refused now, and the lock is the next id.
        if reply.status == 200 or (reply.status == 409 and reply.lock == self.next_id):
            self.hold_next()
            return None
        return self.not_saved(reply)

    def take_again(self):
        """Takes a new lock. It is kept only if nobody changed the file meanwhile."""
        reply = self.lock_under_next()
        if reply.status != 200:
            return self.not_saved(reply)
        now = self.asked("contents")
        if now.status == 200 and now.body in [self.contents, *self.perhaps]:
            self.hold_next()
            return None
        self.asked("unlock", self.next_id)
        self.take_another_id()
        if now.status != 200:
            return self.not_saved(now)
        return Told(
            "Not saved: somebody changed the file meanwhile",
            f"It is at {now.version} now. Your save would replace that, so it wasn't sent. {STILL_HERE} "
            "Save a copy, or download the table.",
        )

    def put(self, contents):
        try:
            reply = self.asked("put", self.lock_id, contents)
        except wopi.NoAnswer as fault:
            return self.not_known(contents, "Not saved: the host gave no answer", f"({fault})")
        if reply.status >= 500:
            return self.not_known(contents, "Not saved: the host has a fault", what_it_said(reply))
        if reply.status != 200:
            return self.not_saved(reply)
        self.contents, self.perhaps = contents, []
        return Told("Saved", f"The host has it as {reply.version}.", good=True, stored=True)

    def not_known(self, contents, headline, cause):
        """Of a save that may be late: what is sent after it goes out under another id."""
        self.state = UNSURE
        self.perhaps.append(contents)
        detail = f"{STILL_HERE} Save again: your lock gets a new id first, so that nothing of before can come late. {cause}"
        return Told(headline, detail)

    def not_saved(self, reply):
        if reply.status != 409:
            return Told("Not saved", f"{what_it_said(reply)} {STILL_HERE}")
        self.state = LOST
        return lock_ended("Not saved: your lock has ended", reply)

    def renewed(self):
        if self.state == UNSURE:
            return self.hand_on() or Told("Not saved yet", f"Your lock was renewed. {STILL_HERE} Save again.")
        if self.state != HELD:
            return Told("You have no lock", "There is nothing to renew.")
        reply = self.asked("refresh", self.lock_id)
        if reply.status == 200:
            return Told("Your lock was renewed", "It holds for another 30 minutes.", good=True)
        if reply.status != 409:
            return Told("Your lock was not renewed", what_it_said(reply))
        self.state = LOST
        return lock_ended("Your lock has ended", reply)

    def copied(self, contents):
        stem, period, ending = self.name.rpartition(".")
        reply = self.asked("put_relative", f"{stem} ({self.user}){period}{ending}", contents)
        if reply.status != 200:
            return Told("No copy was made", f"{what_it_said(reply)} {STILL_HERE}")
        detail = f"Your table is in {reply.json()['Name']}. {self.name} was left as it is."
        return Told("A copy was saved", detail, good=True, stored=True)

    def unlocked(self):
        lock_ids = [self.lock_id] if self.state in (HELD, UNSURE) else []
        if self.next_was_sent:
            lock_ids.append(self.next_id)
        replies = [self.asked("unlock", lock_id) for lock_id in lock_ids]
        if any(reply.status == 200 for reply in replies):
            return Told("Closed", "Your lock was given up.", good=True)
        return Told("Closed", f"No lock was given up. {what_it_said(replies[-1])}" if replies else "You had no lock.")


def new_lock_id(user):
    return f"{user}-{secrets.token_hex(16)}"


def parts_of(lock_id):
    """The name and the random part of a lock id of this editor, or None."""
    return re.fullmatch(r"(.+)-([0-9a-f]{32})", lock_id)


def holder(lock_id):
    """Who holds a lock, as far as its id tells."""
    parts = parts_of(lock_id)
    return parts[1] if parts else "Somebody"


def short(lock_id):
    parts = parts_of(lock_id)
    return f"{parts[1]}-{parts[2][:4]}…" if parts else lock_id


def only_read(headline, detail):
    return Told(headline, f"{detail} Below is the file as it is now, to read.".strip())


def why(reply):
    """The reason of a 409, and the lock that stands."""
    meaning = REASONS.get(reply.reason, "it tells no reason that is known here")
    lock = f", and {short(reply.lock)} is the lock now" if reply.lock else ""
    return f"{meaning} ({reply.reason}){lock}."


def lock_ended(headline, reply):
    if reply.lock:
        other = holder(reply.lock)
        return Told(
            f"{headline}, and {other} has the file now",
            f"The host refused it: {why(reply)} Nothing of the other's work was touched. {STILL_HERE} "
            f"Save a copy, or save again when {other} has closed the file.",
        )
    return Told(
        headline,
        f"The host refused it: {why(reply)} Nobody has the file locked now. {STILL_HERE} "
        "Save again: it takes a new lock, and saves if nobody changed the file meanwhile.",
    )


def what_it_said(reply):
    """A reply that isn't 200, in plain words."""
    said = {
        401: "The token doesn't count any more. Open the file again from its page.",
        404: "The file isn't there, or you may not write it.",
        409: f"The host refused it: {why(reply)}",
        413: "It is more than the host takes.",
    }
    words = f"{reply.status} {reply.body[:80].decode(errors='replace')}".strip()
    return said.get(reply.status, f"The host answered {words}.")
