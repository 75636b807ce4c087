#!/usr/bin/env python3
"""A folder of many files, listed by a running `serve`, and what a list costs: scripts/listing.py PROGRAM [FILES ..]

PROGRAM is the built one, as crates/mokdrai/out/mokdrai. First a folder of 10,000 files of many sizes is served; its list
is fetched, and each name, size and version is compared with the folder, and some hundred files are fetched by the
addresses that the list gives. Then one file is saved, and the next list has to show it.

Then, where valgrind is there, the instructions of one list are counted over folders of FILES files (10, 1,000 and 10,000
where none are named): the difference of two runs of `once`, with ten lists and with none, by ten. It is no part of the
gate.
"""
import http.client
import json
import os
import pathlib
import re
import shutil
import subprocess
import sys
import tempfile
import time

KEY, PORT, LAST = "4a656665", 18094, "253402300799999"
BASE = f"http://127.0.0.1:{PORT}"
MANY, LISTS = 10_000, 10
LOOPS = "glibc.cpu.x86_rep_stosb_threshold=1000000000:glibc.cpu.x86_rep_movsb_threshold=1000000000"


def must(holds, what):
    if not holds:
        raise SystemExit(f"wrong: {what}")


def written(program, words):
    return subprocess.run([program, *words], capture_output=True, check=True, text=True).stdout.strip()


def children(program):
    token = written(program, ["ctoken", KEY, "ann", "w", "1", "253402300000000", LAST])
    return f"/wopi/containers/root/children?access_token={token}"


def fill(folder, count):
    """Files of 0 to 99 bytes, whose names come in another order than their numbers."""
    for number in range(count):
        name = f"{number * 7919 % count:05}-{number}.csv"
        pathlib.Path(folder, name).write_bytes(b"x" * (number % 100))


def connect(host):
    while host.poll() is None:
        try:
            link = http.client.HTTPConnection("127.0.0.1", PORT)
            link.connect()
            return link
        except ConnectionRefusedError:
            time.sleep(0.05)
    raise SystemExit(f"the host ended: {host.stderr.read()}")


def asked(link, method, path, fields=None, body=None):
    link.request(method, path, body, fields or {})
    reply = link.getresponse()
    data = reply.read()
    must(reply.status == 200, f"{method} {path.split('?')[0]} is {reply.status}")
    return data


def file_path(child, behind=""):
    must(child["Url"].startswith(BASE + "/wopi/files/"), child["Url"])
    place, query = child["Url"][len(BASE):].split("?")
    return f"{place}{behind}?{query}"


def compare(link, folder, path):
    listed = json.loads(asked(link, "GET", path))
    must(listed["ChildContainers"] == [], "there are child containers")
    kept = sorted((os.fsencode(entry.name), entry.stat().st_size) for entry in os.scandir(folder))
    told = [(child["Name"].encode(), child["Size"]) for child in listed["ChildFiles"]]
    must(told == kept, "the list isn't the folder")
    must(all(child["Version"] == "v1" for child in listed["ChildFiles"]), "a version is another")
    for child in listed["ChildFiles"][::97]:
        contents = asked(link, "GET", file_path(child, "/contents"))
        must(contents == pathlib.Path(folder, child["Name"]).read_bytes(), f"{child['Name']} has other contents")
    return listed["ChildFiles"]


def save(link, child, path):
    lock = {"X-WOPI-Override": "LOCK", "X-WOPI-Lock": "L1"}
    asked(link, "POST", file_path(child), lock, b"")
    asked(link, "POST", file_path(child, "/contents"), {**lock, "X-WOPI-Override": "PUT"}, b"saved")
    listed = json.loads(asked(link, "GET", path))["ChildFiles"]
    (then,) = [one for one in listed if one["Name"] == child["Name"]]
    must((then["Size"], then["Version"]) == (5, "v2"), "a save isn't in the list behind it")


def serve(program, folder):
    words = [program, "serve", folder, str(PORT), KEY, BASE, "1", "--each", "1"]
    host = subprocess.Popen(words, stdout=subprocess.DEVNULL, stderr=subprocess.PIPE, text=True)
    link = connect(host)
    path = children(program)
    began = time.monotonic()
    size = len(asked(link, "GET", path))
    took = time.monotonic() - began
    files = compare(link, folder, path)
    save(link, files[4321], path)
    link.close()
    must(host.wait(60) == 0, "the host ended with a fault")
    print(f"{len(files)} files: name by name as in the folder; a list of {size} bytes in {took * 1000:.0f} ms; a save is seen")


def counted(program, folder, count):
    """The instructions of a run of `once` with so many lists."""
    head = f"GET {children(program)} HTTP/1.1\r\nHost: localhost\r\n\r\n".encode()
    with tempfile.NamedTemporaryFile() as out:
        words = ["valgrind", "--tool=callgrind", f"--callgrind-out-file={out.name}"]
        run = subprocess.run(
            [*words, program, "once", folder, KEY, BASE],
            input=head * count,
            stdout=subprocess.PIPE,
            stderr=subprocess.PIPE,
            env={**os.environ, "GLIBC_TUNABLES": LOOPS},
            check=True,
        )
    must(run.stdout.count(b"HTTP/1.1 200 OK") == count, "a list isn't 200")
    return int(re.search(rb"Collected : (\d+)", run.stderr).group(1))


def main():
    program = os.path.abspath(sys.argv[1])
    with tempfile.TemporaryDirectory() as folder:
        fill(folder, MANY)
        serve(program, folder)
    if shutil.which("valgrind") is None:
        print("no valgrind: no instructions are counted")
        return
    for count in [int(word) for word in sys.argv[2:]] or [10, 1000, 10_000]:
        with tempfile.TemporaryDirectory() as folder:
            fill(folder, count)
            one = (counted(program, folder, LISTS) - counted(program, folder, 0)) / LISTS
        print(f"{count} files: {one / 1e6:.2f} million instructions a list, {one / count:.0f} a file")


main()
