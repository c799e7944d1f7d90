"""What the scripts of this folder share that drive the built programs: messages and replies, scripts of replay, a server.

It is no script itself.

`carmuguur build` builds the one program, and `rt run < /dev/null` in crates/replay the other.
"""
import argparse
import atexit
import json
import re
import socket
import subprocess
import sys
import time
from pathlib import Path
from urllib.parse import quote

TOP = Path(__file__).resolve().parent.parent
CARMUGUUR = TOP / "crates/carmuguur/out/carmuguur"
REPLAY = TOP / "crates/replay/out/replay"
SECRET = "abcdefghijklmnop"
KEY = f"00D000000000001EAA!005000000000000AAA!{SECRET}"
ORG_ADD = ["org-add", "Acme", SECRET]
SOBJECTS = "/services/data/v59.0/sobjects"
MOST_MESSAGES = 1000
DIGITS = "0123456789ABCDEFGHIJKLMNOPQRSTUVWXYZabcdefghijklmnopqrstuvwxyz"


def read_words(doc, parts=(), **others):
    """The words of the command: which parts are asked for, all if none is named, where the programs are, and other flags."""
    form = argparse.RawDescriptionHelpFormatter
    parser = argparse.ArgumentParser(description=doc, formatter_class=form)
    if parts:
        parser.add_argument("parts", nargs="*", metavar="PART", help=f"one of {', '.join(parts)}; all, if none is named")
    for program in (CARMUGUUR, REPLAY):
        place = f"the built program, if it isn't {program.relative_to(TOP)}"
        parser.add_argument(f"--{program.name}", type=Path, default=program, metavar="FILE", help=place)
    for name, value in others.items():
        how = {"action": "store_true"} if value is False else {"type": int, "default": value, "metavar": "N"}
        parser.add_argument(f"--{name}", **how)
    words = parser.parse_args()
    if parts:
        words.parts = words.parts or list(parts)
        unknown = [part for part in words.parts if part not in parts]
        if unknown:
            parser.error(f"no part {unknown[0]}: there are {', '.join(parts)}")
    return words


def require(program):
    """Ends the script if a program isn't built."""
    if not program.is_file():
        sys.exit(f"{program} isn't built: {__doc__.splitlines()[-1]}")


# ---- messages and replies


def message(method, target, body=None, key=KEY):
    """The bytes of a message of the administrator. A body that isn't bytes is written as JSON."""
    head = f"{method} {target} HTTP/1.1\r\nAuthorization: Bearer {key}\r\n"
    if body is None:
        return f"{head}\r\n".encode()
    content = body if isinstance(body, bytes) else json.dumps(body, separators=(",", ":"), ensure_ascii=False).encode()
    return f"{head}Content-Length: {len(content)}\r\n\r\n".encode() + content


def new_object(name):
    return message("POST", "/admin/objects", {"name": name, "access": "Private"})


def new_detail(name, parent):
    master = {"field": f"{parent}__c", "parent": f"{parent}__c", "child": f"{name}s__r"}
    return message("POST", "/admin/objects", {"name": f"{name}__c", "access": "ControlledByParent", "master": master})


def new_field(owner, name, kind, **flags):
    return message("POST", "/admin/fields", {"object": owner, "name": name, "type": kind, **flags})


def text(length):
    return {"kind": "Text", "length": length}


def lookup(target, child, on_delete="Clear"):
    return {"kind": "Lookup", "object": target, "onDelete": on_delete, "child": child}


def new_record(owner, values):
    return message("POST", f"{SOBJECTS}/{owner}", values)


def other_values(owner, record, values):
    return message("PATCH", f"{SOBJECTS}/{owner}/{record}", values)


def upsert(owner, field, value, values):
    """Values for the record that has this value in a unique field, or for a new one."""
    return message("PATCH", f"{SOBJECTS}/{owner}/{field}/{quote(value, safe='')}", values)


def deletion(owner, record):
    return message("DELETE", f"{SOBJECTS}/{owner}/{record}")


def names_of(owner):
    """The query for the ids and names of an object's records."""
    return message("GET", f"/services/data/v59.0/query?q=SELECT+Id,Name+FROM+{owner}")


def record_id(number, owner=0):
    """The 15 characters of a record's id: its object's number in two digits of base 62, and its own in twelve."""
    return "a" + spelled(owner, 2) + spelled(number, 12)


def spelled(number, count):
    digits = []
    for _ in range(count):
        number, digit = divmod(number, 62)
        digits.append(DIGITS[digit])
    return "".join(reversed(digits))


def replies_in(output):
    """The status and the body of each reply."""
    found, at = [], 0
    while at < len(output):
        end = output.index(b"\r\n\r\n", at) + 4
        head = output[at:end]
        size = re.search(rb"^Content-Length: (\d+)\r$", head, re.M)
        at = end + (int(size[1]) if size else 0)
        found.append((int(head.split(None, 2)[1]), output[end:at].decode()))
    return found


def read_reply(reader):
    """The status and the body of the next reply."""
    status, size = int(reader.readline().split(None, 2)[1]), 0
    for line in iter(reader.readline, b"\r\n"):
        if line.startswith(b"Content-Length:"):
            size = int(line.split(b":")[1])
    return status, reader.read(size).decode()


# ---- replay, over tables in memory


def answer_line(messages):
    """A line of a script: one connection with these messages."""
    return {"words": ["answer"], "stdinHex": b"".join(messages).hex()}


def run_script(replay, lines, **how):
    """What replay writes for these lines, but for notes and rows: an object each."""
    text = "\n".join(json.dumps(line) for line in lines)
    ran = subprocess.run([replay], input=text.encode(), capture_output=True, check=False, **how)
    if ran.returncode:
        sys.exit(f"replay ended with {ran.returncode}: {ran.stderr.decode(errors='replace')[:500]}")
    return [json.loads(line) for line in ran.stdout.splitlines()]


def replies_of(result):
    """The replies of one line of answer."""
    output = bytes.fromhex(result["stdoutHex"]) if "stdoutHex" in result else result["stdout"].encode()
    return replies_in(output)


# ---- the program over a file


def make_organisation(program, file):
    made = subprocess.run([program, file, "0", *ORG_ADD], capture_output=True, text=True, check=False)
    if made.stdout != "00D000000000001EAA 005000000000000AAA\n":
        sys.exit(f"org-add wrote {made.stdout!r} and {made.stderr!r}, and ended with {made.returncode}")


def answer(program, file, messages):
    """The replies to these messages as one connection, of at most 1,000."""
    ran = subprocess.run([program, file, "0", "answer"], input=b"".join(messages), capture_output=True, check=False)
    if ran.returncode:
        sys.exit(f"answer ended with {ran.returncode}: {ran.stderr.decode(errors='replace')[:500]}")
    return replies_in(ran.stdout)


class Served:
    """A server over a file, and a client of it that asks when it has the reply to what it asked before."""

    def __init__(self, program, file):
        words = [program, file, "0", "serve", "1000000"]
        self.server = subprocess.Popen(words, stdout=subprocess.DEVNULL, stderr=subprocess.PIPE, text=True)
        atexit.register(self.server.kill)
        line = self.server.stderr.readline()
        found = re.search(r"listening on 127\.0\.0\.1:(\d+)$", line)
        if not found:
            sys.exit(f"serve wrote {line!r}")
        self.port, self.left, self.connection, self.asked = int(found[1]), 0, None, 0.0

    def __enter__(self):
        return self

    def __exit__(self, *_):
        self.close()
        self.server.terminate()
        self.server.wait()
        self.server.stderr.close()

    def close(self):
        if self.connection:
            self.reader.close()
            self.connection.close()
            self.connection = None

    def open(self):
        self.close()
        self.connection = socket.create_connection(("127.0.0.1", self.port), timeout=600)
        self.connection.setsockopt(socket.IPPROTO_TCP, socket.TCP_NODELAY, 1)
        self.reader, self.left = self.connection.makefile("rb"), MOST_MESSAGES

    def ask(self, asked):
        """The status and the body of the reply to one message. A connection has at most 1,000, and is closed when it was idle for 5 s."""
        if not self.left or not self.connection or time.monotonic() - self.asked > 4:
            self.open()
        self.left -= 1
        self.connection.sendall(asked)
        reply = read_reply(self.reader)
        self.asked = time.monotonic()
        return reply


# ---- what held


class Held:
    """Counts what held and what didn't, with a line for each."""

    def __init__(self):
        self.failed = 0

    def see(self, holds, what):
        self.failed += not holds
        print(f"{'held' if holds else 'NOT HELD'}: {what}", flush=True)
        return holds

    def end(self):
        print("all held" if not self.failed else f"{self.failed} did not hold")
        sys.exit(1 if self.failed else 0)
