"""What a WOPI client asks of a host. Each request has a connection of its own, which closes behind the reply."""
import dataclasses
import http.client
import json
import urllib.parse

SECONDS = 20


class NoAnswer(Exception):
    """No reply came. The host may have got the request or not, and may get it later."""


@dataclasses.dataclass
class Reply:
    """A reply: its status, what its headers say ("" where they are missing), and its body."""

    status: int
    lock: str
    reason: str
    version: str
    body: bytes

    def json(self):
        return json.loads(self.body)


def ask(address, token, method="GET", headers=None, body=None):
    """Sends a request, and waits for its reply."""
    parts = urllib.parse.urlsplit(address)
    connect = http.client.HTTPSConnection if parts.scheme == "https" else http.client.HTTPConnection
    connection = connect(parts.hostname, parts.port, timeout=SECONDS)
    target = f"{parts.path}?access_token={urllib.parse.quote(token, safe='')}"
    try:
        connection.request(method, target, body, {"Connection": "close", **(headers or {})})
        response = connection.getresponse()
        return Reply(
            response.status,
            response.getheader("X-WOPI-Lock", ""),
            response.getheader("X-WOPI-LockFailureReason", ""),
            response.getheader("X-WOPI-ItemVersion", ""),
            response.read(),
        )
    except (OSError, http.client.HTTPException) as fault:
        raise NoAnswer(str(fault)) from fault
    finally:
        connection.close()


def children(base, token):
    """EnumerateChildren of the folder."""
    return ask(f"{base}/wopi/containers/root/children", token)


class File:
    """A file at a host: its address (WOPISrc) and the token that opens it."""

    def __init__(self, source, token):
        self.source = source
        self.token = token

    def info(self):
        """CheckFileInfo."""
        return ask(self.source, self.token)

    def contents(self):
        """GetFile."""
        return ask(f"{self.source}/contents", self.token)

    def lock(self, lock_id):
        """Lock. Of an id that holds the lock it is a refresh."""
        return self.post("LOCK", {"X-WOPI-Lock": lock_id})

    def refresh(self, lock_id):
        """RefreshLock: another 30 minutes."""
        return self.post("REFRESH_LOCK", {"X-WOPI-Lock": lock_id})

    def relock(self, old_id, new_id):
        """UnlockAndRelock: ends the old id, and locks under the new one at once."""
        return self.post("LOCK", {"X-WOPI-Lock": new_id, "X-WOPI-OldLock": old_id})

    def unlock(self, lock_id):
        """Unlock."""
        return self.post("UNLOCK", {"X-WOPI-Lock": lock_id})

    def put(self, lock_id, contents):
        """PutFile."""
        headers = {"X-WOPI-Override": "PUT", "X-WOPI-Lock": lock_id}
        return ask(f"{self.source}/contents", self.token, "POST", headers, contents)

    def put_relative(self, name, contents):
        """PutRelativeFile: a new file beside this one, of this name or one like it."""
        target = name.encode("utf-7").decode("ascii")
        return self.post("PUT_RELATIVE", {"X-WOPI-SuggestedTarget": target}, contents)

    def post(self, override, headers, body=None):
        return ask(self.source, self.token, "POST", {"X-WOPI-Override": override, **headers}, body)
