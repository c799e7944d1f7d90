"""What `tools/hostile` runs: stores in `replay`, many in one process, and the run of a scene that meets nothing.

It is no script itself. A run is a list of lines of a script, which begins with another store. Rows are kept as the line that puts
them, which is what `{"dump":true}` writes: two stores are the same if these lines are.
"""
import json
import subprocess
import tempfile
import time
from concurrent.futures import ThreadPoolExecutor
from functools import cached_property

from driving import replies_in
from hostile_scenes import NEIGHBOUR, NOWHERE, ORGANISATIONS

# 2026-01-02T00:00:00Z.
MOMENT = 1767312000
DUMP = b'{"dump":true}'
EMPTY = b'{"rows":[]}'
BATCH_RUNS, BATCH_BYTES, MOST_BYTES = 64, 1 << 22, 1 << 28
WRITES = (b'{"words"', b'{"dump"')


class Differs(Exception):
    """A run that isn't as it must be: what differs, and the lines by which it is seen again."""

    def __init__(self, what, lines=()):
        super().__init__(what)
        self.what, self.lines = what, list(lines)


# ---- lines


def store(failing=()):
    """Another store, of whose keeper these calls fail."""
    return json.dumps({"failing": {"keeper": list(failing)}}).encode()


def run_line(words, **members):
    return json.dumps({"words": words, "moments": [MOMENT], **members}).encode()


def connection(messages):
    return run_line(["answer"], stdinHex=b"".join(messages).hex())


def line_of(step):
    """The line of a step alone: a connection with one message, or a command."""
    return connection([step]) if isinstance(step, bytes) else run_line(step["words"], stdin=step["stdin"])


def lines_of(steps):
    """The lines of steps, messages behind each other on one connection."""
    lines, messages = [], []
    for step in [*steps, None]:
        if isinstance(step, bytes):
            messages.append(step)
            continue
        if messages:
            lines.append(connection(messages))
            messages = []
        if step is not None:
            lines.append(line_of(step))
    return lines


def served(first, second, failing=()):
    """`serve 2` over two connections with these messages."""
    parts = [b"".join(messages).hex() for messages in (first, second)]
    return run_line(["serve", "2"], connectionsHex=parts, failing={"door": list(failing)})


def row_changed(place, row):
    table, key = place
    return json.dumps({"rows": [{"table": table, "key": key, "row": row}]}).encode()


def pieces(dump):
    """The rows of a store as they are written, each without its braces."""
    return dump[len(b'{"rows":[{'):-len(b"}]}")].split(b"},{") if count_of(dump) else []


def placed(written):
    """Of such rows, for each table and key, both as they are written, the row."""
    found = {}
    for piece in written:
        row = json.loads(b"{" + piece + b"}")
        found[row["table"], row["key"]] = row["row"]
    return found


def rows_in(dump):
    return placed(pieces(dump))


def changes(before, after):
    """For each table and key where the rows of two stores differ the second one's row, or none."""
    if before == after:
        return {}
    one, other = set(pieces(before)), set(pieces(after))
    return {**dict.fromkeys(placed(one - other)), **placed(other - one)}


def with_row(dump, place, old, row):
    """The rows of a store with another row in a place."""
    table, key = place
    start = f'{{"table":{table},"key":"{key}","row":"'
    return dump.replace(f'{start}{old}"}}'.encode(), f'{start}{row}"}}'.encode())


def count_of(dump):
    return dump.count(b'{"table":')


# ---- what a line gave


class Given:
    """What a line gave that ran something."""

    def __init__(self, written):
        self.written, self.result = written, json.loads(written)
        self.status, self.rows = self.result["status"], self.result["rowsWritten"]

    @property
    def output(self):
        return self.result["stdout"].encode() if "stdout" in self.result else bytes.fromhex(self.result["stdoutHex"])

    @property
    def outputs(self):
        if "outputs" in self.result:
            return [output.encode() for output in self.result["outputs"]]
        return [bytes.fromhex(output) for output in self.result["outputsHex"]]

    @cached_property
    def replies(self):
        return replies_in(self.output)

    def statuses(self):
        return [status for status, _ in self.replies]


# ---- many runs in a process


class Runner:
    """Runs stores in processes of `replay`, so many at a time."""

    def __init__(self, replay, jobs):
        self.replay, self.pool, self.count = replay, ThreadPoolExecutor(jobs), 0

    def one(self, run):
        return self.many([run])[0]

    def many(self, runs):
        """What each of these runs writes: a list of lines."""
        self.count += len(runs)
        batches, size = [[]], 0
        for run in runs:
            if batches[-1] and (size > BATCH_BYTES or len(batches[-1]) == BATCH_RUNS):
                batches.append([])
                size = 0
            batches[-1].append(run)
            size += sum(map(len, run))
        return [written for batch in self.pool.map(self.batch, batches) for written in batch]

    def batch(self, runs):
        script = b"\n".join(line for run in runs for line in run) + b"\n"
        ran = subprocess.run([self.replay], input=script, capture_output=True, check=False)
        written, at, found = ran.stdout.splitlines(), 0, []
        for run in runs:
            count = sum(line.startswith(WRITES) for line in run)
            if at + count > len(written):
                raise Differs(f"replay ended with {ran.returncode} within a run: {ran.stderr.decode(errors='replace')[-800:]}", run)
            found.append(written[at:at + count])
            at += count
        if ran.returncode or at < len(written):
            raise Differs(f"replay ended with {ran.returncode}: {ran.stderr.decode(errors='replace')[-800:]}", runs[-1])
        return found

    def measure(self, run):
        """What a run writes in a process of its own, and the seconds."""
        with tempfile.TemporaryFile() as script:
            script.write(b"\n".join(run) + b"\n")
            script.seek(0)
            start = time.monotonic()
            ran = subprocess.run([self.replay], stdin=script, capture_output=True, check=False)
            took = time.monotonic() - start
        written = ran.stdout.splitlines()
        if ran.returncode or len(written) != sum(line.startswith(WRITES) for line in run):
            raise Differs(f"replay ended with {ran.returncode}: {ran.stderr.decode(errors='replace')[-800:]}", run)
        return written, took

    def each(self, tries, make, check):
        """Makes a run of each try, and checks what it writes. It yields what the checks return."""
        tries = list(tries)
        most = MOST_BYTES // (8 * sum(map(len, make(*tries[0])))) if tries else 1
        for first in range(0, len(tries), max(8, most)):
            part = tries[first:first + max(8, most)]
            runs = [make(*given) for given in part]
            for given, run, written in zip(part, runs, self.many(runs)):
                try:
                    yield check(*given, written)
                except Differs as differs:
                    raise Differs(differs.what, run) from None

    def sweep(self, make, check, every=1):
        """Runs number after number from 1 on, until one of which the check says that it met nothing; none behind it may meet something.
        It returns how many did before it."""
        first, chunk, end = 1, 8, None
        while end is None:
            numbers = [first + at * every for at in range(chunk)]
            for number, met in zip(numbers, self.each([(number,) for number in numbers], make, check)):
                if met and end:
                    raise Differs(f"number {end} met nothing, and number {number} did", make(number))
                end = end or (None if met else number)
            first, chunk = numbers[-1] + every, min(chunk * 2, 1024)
        return (end - 1) // every


# ---- a scene that meets nothing


class Plain:
    """A scene that meets nothing: its rows before each step and behind the last, and what each step gave."""

    def __init__(self, runner, scene):
        self.runner, self.steps = runner, scene["steps"]
        before = [run_line(line["words"]) for line in ORGANISATIONS]
        before += [connection(NEIGHBOUR), *[connection(scene["before"][at:at + 999]) for at in range(0, len(scene["before"]), 999)]]
        steps = [line for step in self.steps for line in (line_of(step), DUMP)]
        written = runner.one([store(), *before, DUMP, *steps])
        for given in map(Given, written[:len(before)]):
            refused = [reply for reply in given.replies if reply[0] >= 300] if given.output.startswith(b"HTTP") else []
            if refused or given.status:
                raise Differs(f"what the scene needs isn't made: {given.status} {refused[:1]}")
        rest = written[len(before):]
        self.rows, self.given = rest[::2], [Given(line) for line in rest[1::2]]

    def run_from(self, at, lines, failing=()):
        """A run of these lines over the rows before a step. Calls of the keeper are counted from there."""
        rows = self.rows[at]
        calls = count_of(rows)
        return [store([calls + call for call in failing]), rows, *lines]

    def replies(self, first, last):
        """What is written for these steps, which are messages."""
        return b"".join(given.output for given in self.given[first:last])

    @cached_property
    def stepped(self):
        """Of the rows before each step, those that a request leaves which changes nothing but makes a step of a change of a type."""
        return [written[-1] for written in self.runner.many([self.run_from(at, [connection([NOWHERE]), DUMP]) for at in range(len(self.steps))])]
