#!/usr/bin/env python3
"""Checks the documents, and runs their examples as they are printed.

    scripts/documents.py [FOLDER [PAGE ..]]

Every relative link has to lead to a file, and README.md may have 200 lines at most. Where FOLDER is named (the
repository, or a folder with a `mokdrai` and the folder `demo`), the commands of each page are run there by bash, one
page after another: those behind a `$` in the README and in docs/OPERATING.md, SECURITY.md, CLI.md and EDITORS.md, or
those of the PAGEs. What a page prints below a command has to be what comes, but for moments, the codes of tokens and
which worker made an entry. In place of /tmp stands a folder that is taken away at the end, and in place of the port
8880 a free one. `./mokdrai try` is run as `./mokdrai`. It is no part of the gate.
"""
import contextlib
import os
import pathlib
import random
import re
import shutil
import signal
import socket
import subprocess
import sys
import tempfile

TOP = pathlib.Path(__file__).resolve().parent.parent
PAGES = ["README.md", "docs/OPERATING.md", "docs/SECURITY.md", "docs/CLI.md", "docs/EDITORS.md"]
MARK = "mark-of-documents"
SECONDS = 300


def bad_links():
    for page in [TOP / "README.md", *sorted((TOP / "docs").glob("*.md"))]:
        for link in re.findall(r"\]\(([^)#]+)", page.read_text()):
            if "://" not in link and not (page.parent / link).exists():
                yield f"{page.relative_to(TOP)}: {link}"


def examples(text):
    """Each command, with the lines that are printed below it."""
    found = []
    within = False
    for line in text.split("\n"):
        if line.startswith("    $ "):
            found.append(([line[6:]], []))
            within = True
        elif within and line.startswith("    > "):
            found[-1][0].append(line[6:])
        elif within and line.startswith("    "):
            found[-1][1].append(line[4:])
        elif within and not line.strip():
            found[-1][1].append("")
        else:
            within = False
    return [("\n".join(command), "\n".join(lines).strip("\n")) for command, lines in found]


def plain(text):
    text = text.replace("\r", "")
    text = re.sub(r"\b[0-9a-f]{64}\b", "CODE", text)
    text = re.sub(r"\b[0-9]{13}\b", "MOMENT", text)
    text = re.sub(r"(?m)^(\d+ \d+) \d+ ", r"\1 PASS ", text)
    return re.sub(r"\n+", "\n", text).strip()


def free_port():
    """One of four digits, so that lengths stay."""
    for port in random.sample(range(2000, 10000), 100):
        with socket.socket() as taken:
            if taken.connect_ex(("127.0.0.1", port)) != 0:
                return str(port)
    sys.exit("no free port")


def run(folder, page):
    """Runs a page's commands, and yields those that printed something else."""
    room = tempfile.mkdtemp()
    port = free_port()

    def here(text):
        return text.replace("/tmp/", room + "/").replace("8880", port).replace("./mokdrai try ", "./mokdrai ")

    commands = [(here(command), here(wanted)) for command, wanted in examples((TOP / page).read_text())]
    script = "".join(f"{command}\necho\necho {MARK}\n" for command, _ in commands)
    shell = subprocess.Popen(["bash"], cwd=folder, text=True, start_new_session=True,
                             stdin=subprocess.PIPE, stdout=subprocess.PIPE, stderr=subprocess.DEVNULL)
    try:
        output, _ = shell.communicate(script, timeout=SECONDS)
    except subprocess.TimeoutExpired:
        os.killpg(shell.pid, signal.SIGKILL)
        output, _ = shell.communicate()
        yield "the page took too long", "", ""
    finally:
        # What a page began and didn't end.
        with contextlib.suppress(ProcessLookupError):
            os.killpg(shell.pid, signal.SIGKILL)
        shutil.rmtree(room, ignore_errors=True)
    parts = output.split(MARK + "\n")
    for (command, wanted), got in zip(commands, parts + [""] * len(commands)):
        if plain(wanted) != plain(got):
            yield command, wanted, got
    print(f"{page}: {len(commands)} commands")


def main():
    faults = 0
    for link in bad_links():
        print("no such file:", link)
        faults += 1
    lines = len((TOP / "README.md").read_text().splitlines())
    if lines > 200:
        print(f"README.md has {lines} lines")
        faults += 1
    if len(sys.argv) > 1:
        for page in sys.argv[2:] or PAGES:
            for command, wanted, got in run(sys.argv[1], page):
                print(f"{page}: {command}\n-- wanted:\n{wanted}\n-- found:\n{got}")
                faults += 1
    print(f"{faults} faults")
    return 1 if faults else 0


if __name__ == "__main__":
    sys.exit(main())
