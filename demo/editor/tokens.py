"""Access tokens of the host, as `mokdrai token` and `mokdrai ctoken` write them (docs/FORMATS.md)."""
import hashlib
import hmac
import pathlib
import secrets
import time

LIFE = 10 * 60 * 60 * 1000  # milliseconds


class Key:
    """The key that signs: the current one of the host's keys, with its number."""

    def __init__(self, word):
        """Reads a KEY as `serve` takes it, or a file that has one, where the word is `@` and the file's path."""
        text = pathlib.Path(word[1:]).read_text().strip() if word.startswith("@") else word
        number, colon, digits = text.split(",")[0].rpartition(":")
        self.number = int(number) if colon else 0
        self.secret = bytes.fromhex(digits)

    def for_file(self, user, file_id, rights):
        """A token for one file."""
        return self.sign(f"v2.{self.number}.{user}.{file_id}.{rights}.{serial_and_moments()}")

    def for_folder(self, user, rights):
        """A token that lists the folder."""
        return self.sign(f"c1.{self.number}.{user}.{rights}.{serial_and_moments()}")

    def sign(self, text):
        return f"{text}.{hmac.new(self.secret, text.encode(), hashlib.sha256).hexdigest()}"


def serial_and_moments():
    """What tells a token from others, when it was issued, and when it expires."""
    now = time.time_ns() // 1_000_000
    return f"{secrets.randbelow(2**63)}.{now}.{now + LIFE}"
