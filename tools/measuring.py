"""What the scripts of this folder share that measure requests of records: who asks, and what it costs.

It is no script itself.

InMemory: replay, a line of messages at a time, less what it costs to read such a line.
ByAnswer: a connection of messages over a file. Of 1,000 the first isn't counted, and of fewer one of no caller before them, so the start on
the file isn't.
ByServe: a client that asks when it has the reply, over a file; the clock's is the median.
"""
import json
import os
import shutil
import statistics
import subprocess
import sys
import tempfile
import threading
import time
from collections import namedtuple
from itertools import cycle
from pathlib import Path
from urllib.parse import quote_plus

from driving import MOST_MESSAGES, ORG_ADD, Served, answer, answer_line, make_organisation, message, read_reply, read_words, replies_of, require


def check(replies, statuses):
    """Ends the script if a reply has another status than it must have: these, in turn."""
    for reply, status in zip(replies, cycle(statuses)):
        if reply[0] != status:
            raise SystemExit(f"answered {reply}, and not {status}")


# ---- costs


class Cost(namedtuple("Cost", "clock processor")):
    """Seconds by the clock, and of the processor."""

    def __sub__(self, other):
        return Cost(self.clock - other.clock, self.processor - other.processor)

    def of_each(self, count):
        return Cost(self.clock / count, self.processor / count)

    def __str__(self):
        return f"{self.clock * 1e6:.0f} ({self.processor * 1e6:.0f})"


def spent(process):
    """What a process has spent until now, as Linux tells it."""
    return Cost(time.perf_counter(), int(Path(f"/proc/{process}/schedstat").read_text().split()[0]) / 1e9)


def spent_here():
    """What this script has spent until now."""
    return Cost(time.perf_counter(), time.process_time())


def measured(words, given, output):
    """What a command costs with this file as its input: seconds by the clock and of the processor, and MiB, at least those of this script."""
    start = time.perf_counter()
    with given.open() as source, output.open("w") as sink:
        process = subprocess.Popen(words, stdin=source, stdout=sink)
        _, status, used = os.wait4(process.pid, 0)
    if status != 0:
        sys.exit(f"{words} ended with {status}")
    return time.perf_counter() - start, used.ru_utime + used.ru_stime, used.ru_maxrss / 1024


def lowest(costs):
    return Cost(*map(min, zip(*costs)))


def least(rounds):
    return {name: lowest([one[name] for one in rounds]) for name in rounds[0]}


def show(name, costs):
    print(f"{name}: {', '.join(f'{what} {cost}' for what, cost in costs.items())}", flush=True)


def show_time():
    print(f"{time.strftime('%Y-%m-%d %H:%M')}, {os.cpu_count()} processors, load {os.getloadavg()[0]:.1f}", flush=True)


# ---- what asks


class InMemory:
    """replay, which is given a line when it has answered the one before."""

    def __init__(self, words, _):
        self.process = subprocess.Popen([words.replay], stdin=subprocess.PIPE, stdout=subprocess.PIPE)
        self.run({"words": ORG_ADD})

    def run(self, line):
        """What a line costs, and what it gives."""
        written = json.dumps(line).encode() + b"\n"
        before = spent(self.process.pid)
        self.process.stdin.write(written)
        self.process.stdin.flush()
        result = self.process.stdout.readline()
        return spent(self.process.pid) - before, json.loads(result)

    def make(self, messages):
        self.run(answer_line(messages))

    def ask(self, messages, *statuses):
        """The cost of a message. Words that are no command read nothing, so they show what the line itself costs."""
        given = {"stdin": b"".join(messages).decode()}
        read = self.run({"words": [], **given})[0]
        cost, result = self.run({"words": ["answer"], **given})
        check(replies_of(result), statuses)
        return (cost - read).of_each(len(messages))

    def end(self):
        self.process.stdin.close()
        self.process.stdout.close()
        self.process.wait()


class ByAnswer:
    """The program over a file, which is given the rest of a connection when it has answered the first message."""

    def __init__(self, words, file):
        self.words = [words.carmuguur, file, "0", "answer"]

    def make(self, messages):
        subprocess.run(self.words, input=b"".join(messages), capture_output=True, check=True)

    def ask(self, messages, *statuses):
        first, rest = ([], messages) if len(messages) < MOST_MESSAGES else (messages[:1], messages[1:])
        with subprocess.Popen(self.words, stdin=subprocess.PIPE, stdout=subprocess.PIPE) as process:
            begun = self.give(process, first or [message("GET", "/x", key="none")])
            before = spent(process.pid)
            replies = self.give(process, rest)
            cost = spent(process.pid) - before
        check(begun + replies if first else replies, statuses)
        return cost.of_each(len(rest))

    def give(self, process, messages):
        """The replies to these messages, which are written while they are read."""
        writer = threading.Thread(target=lambda: (process.stdin.write(b"".join(messages)), process.stdin.flush()))
        writer.start()
        replies = [read_reply(process.stdout) for _ in messages]
        writer.join()
        return replies

    def end(self):
        pass


class ByServe:
    """The program over a file, asked by a client."""

    def __init__(self, words, file):
        self.served = Served(words.carmuguur, file)

    def make(self, messages):
        for asked in messages:
            self.served.ask(asked)

    def ask(self, messages, *statuses):
        times, replies = [], []
        before = spent(self.served.server.pid)
        for asked in messages:
            start = time.perf_counter()
            replies.append(self.served.ask(asked))
            times.append(time.perf_counter() - start)
        cost = (spent(self.served.server.pid) - before).of_each(len(messages))
        check(replies, statuses)
        return Cost(statistics.median(times), cost.processor)

    def end(self):
        self.served.__exit__()


# ---- stores


def copied(file, to):
    """A copy of a store, with its log."""
    for suffix in ("", "-wal"):
        if os.path.exists(f"{file}{suffix}"):
            shutil.copyfile(f"{file}{suffix}", f"{to}{suffix}")
    return to


# ---- queries, each as SOQL and as SQL


def query(spelled):
    return message("GET", f"/services/data/v59.0/query?q={quote_plus(spelled)}")


def cost_of_asking(asker, queries, count):
    """The least cost of each query."""
    costs = {name: lowest([asker.ask([query(spelled)], 200) for _ in range(count)]) for name, (spelled, _) in queries.items()}
    asker.end()
    return costs


def cost_by_sqlite(opened, queries, count):
    """The least cost of each query by SQLite, whose rows are objects of JSON, and how many it finds."""
    costs, counts = {}, {}
    for name, (_, spelled) in queries.items():
        rounds = []
        for _ in range(count):
            start = spent_here()
            rows = [row for row, in opened.execute(spelled)]
            written = f'{{"totalSize":{len(rows)},"records":[{",".join(rows)}]}}'
            rounds.append(spent_here() - start)
        costs[name], counts[name] = lowest(rounds), json.loads(written)["totalSize"]
    opened.close()
    return costs, counts


def require_counts(words, file, queries, counts):
    """Ends the script if a query is answered by another number of records than SQLite finds."""
    for name, (spelled, _) in queries.items():
        (status, body), = answer(words.carmuguur, file, [query(spelled)])
        found = json.loads(body)["totalSize"] if status == 200 else body
        if found != counts[name]:
            sys.exit(f"{name}: answered {found}, where SQLite finds {counts[name]}")


def measure_queries(words, folder, queries, makings, opened_with_records):
    """Shows what each query costs, once the first of these lists of messages has made the objects and the others the records, which the other makes of SQLite's tables."""
    file = folder / "begun.db"
    make_organisation(words.carmuguur, file)
    in_memory = InMemory(words, None)
    for messages in makings:
        check(answer(words.carmuguur, file, messages), [204 if messages is makings[0] else 201])
        in_memory.make(messages)
    costs = {"InMemory": cost_of_asking(in_memory, queries, words.rounds)}
    for asker in (ByAnswer, ByServe):
        to = copied(file, folder / f"{asker.__name__}.db")
        costs[asker.__name__] = cost_of_asking(asker(words, to), queries, words.rounds)
    costs["SQLite in memory"], counts = cost_by_sqlite(opened_with_records(":memory:"), queries, words.rounds)
    costs["SQLite over a file"], _ = cost_by_sqlite(opened_with_records(folder / "sqlite.db"), queries, words.rounds)
    require_counts(words, file, queries, counts)
    for name in queries:
        shown = (f"{who} {of[name].clock * 1e3:.1f} ({of[name].processor * 1e3:.1f})" for who, of in costs.items())
        print(f"{name}, {counts[name]} records: {', '.join(shown)}", flush=True)


def run_queries(doc, queries, makings, opened_with_records):
    """A script that measures queries."""
    words = read_words(doc, (), rounds=9)
    require(words.carmuguur)
    require(words.replay)
    show_time()
    with tempfile.TemporaryDirectory(prefix="bench-") as folder:
        measure_queries(words, Path(folder), queries, makings, opened_with_records)
    show_time()
