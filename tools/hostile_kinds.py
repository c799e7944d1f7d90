"""The kinds of `tools/hostile`: of each its scenes, and a function that runs one and returns how many numbers there were.

It is no script itself. A function raises Differs at the first run that isn't as it must be.
"""
import json
from collections import namedtuple

from driving import replies_in
from hostile_edges import EDGES, run_edge
from hostile_rows import row_of, spells
from hostile_runs import DUMP, Differs, Given, Plain, changes, connection, line_of, lines_of, row_changed, rows_in, served, with_row
from hostile_scenes import NEIGHBOUR_ASKS, SCENES

Kind = namedtuple("Kind", "scenes run")
FAILED = (503, '[{"message":"the store failed","errorCode":"SERVER_UNAVAILABLE"}]')
DAMAGED = 500
NEAR = "00000002"


def must(holds, what):
    if not holds:
        raise Differs(what)


# ---- keeper


def expected_behind(plain, at, lines):
    """What these lines write over the rows before a step, and the rows behind them, where nothing fails."""
    return plain.runner.one(plain.run_from(at, [*lines, DUMP]))


class Failing:
    """A step of a scene, of which a call of the keeper fails."""

    def __init__(self, plain, at, parts):
        self.plain, self.at, self.step = plain, at, plain.steps[at]
        self.again = lines_of(plain.steps[at:])
        self.whole = expected_behind(plain, at, self.again)
        must(self.whole[-1] == plain.rows[-1], f"step {at + 1} and those behind it, on one connection, leave other rows than one by one")
        # What a command that stops may have written: the first, nothing, and those of its parts.
        self.stops = {b"": (plain.rows[at], self.whole)}
        for part in parts:
            written = plain.runner.one(plain.run_from(at, [line_of(part), DUMP, *self.again, DUMP]))
            must(written[-1] == plain.rows[-1], f"the whole of step {at + 1} behind a part of it leaves other rows than without")
            self.stops[Given(written[0]).output] = (written[1], written[2:])
        # The same message twice and those behind it, on one connection.
        last = next((to for to in range(at, len(plain.steps)) if not isinstance(plain.steps[to], bytes)), len(plain.steps))
        self.joined = [self.step, *plain.steps[at:last]] if isinstance(self.step, bytes) else None
        self.answered = plain.replies(at, last)
        self.left = plain.rows[last]

    def run(self, call):
        """The step, its rows, it and those behind it, the rows; and, of a message, in another store all that on one connection."""
        lines = self.plain.run_from(self.at, [line_of(self.step), DUMP, *self.again, DUMP], [call])
        if self.joined:
            lines += self.plain.run_from(self.at, [connection(self.joined), DUMP], [call])
        return lines

    def check(self, _, written):
        given, rows, again = Given(written[0]), written[1], written[2:2 + len(self.whole)]
        if given.written == self.plain.given[self.at].written and rows == self.plain.rows[self.at + 1]:
            return False
        if self.joined:
            self.check_message(given, *map(self.of_joined, written[-2:]))
        else:
            must(given.status == 72 and given.output in self.stops, f"step {self.at + 1} stops with {given.written[:300]}")
        left, behind = self.stops.get(given.output, self.stops[b""])
        must(rows == left, f"step {self.at + 1} failed, with {given.written[:200]}, and the rows aren't those before it")
        must(again == behind, f"step {self.at + 1} failed, and it and the steps behind it are then answered otherwise: {others(again, behind)}")
        return True

    def of_joined(self, line):
        return line if line.startswith(b'{"rows"') else Given(line)

    def check_message(self, given, joined, rows):
        if given.status == 72:
            must(not given.output and joined.status == 72 and not joined.output and rows == self.plain.rows[self.at], f"step {self.at + 1} isn't opened")
            return
        must(given.status == 0 and given.replies == [FAILED] and given.rows == 0, f"step {self.at + 1} is answered {given.written[:300]}")
        must(joined.output == given.output + self.answered, f"behind step {self.at + 1}, which failed, the connection is answered otherwise: {joined.statuses()}")
        must(rows == self.left, f"behind step {self.at + 1}, which failed, the connection leaves other rows")


def others(written, expected):
    return next((f"{one[:200]} and not {other[:200]}" for one, other in zip(written, expected) if one != other), "")


def run_keeper(runner, name, every):
    plain = Plain(runner, SCENES[name])
    count = 0
    for at, step in enumerate(plain.steps):
        failing = Failing(plain, at, SCENES[name].get("parts", {}).get(at, []))
        found = runner.sweep(failing.run, failing.check, every)
        must(found > 0, f"step {at + 1} calls the keeper at no time")
        if not isinstance(step, bytes):
            must(plain.given[at].status == 0, f"step {at + 1} ends with {plain.given[at].status}")
        count += found
    return count


# ---- door


def messages_of(name):
    """The messages of a scene up to its first command, in two halves."""
    steps = SCENES[name]["steps"]
    last = next((at for at, step in enumerate(steps) if not isinstance(step, bytes)), len(steps))
    return steps[:last // 2], steps[last // 2:last]


class Doors:
    """The messages of a scene in two connections, of whose door a call fails."""

    def __init__(self, plain, first, second):
        self.plain, self.first, self.second = plain, first, second
        self.none_met, self.last = 0, 0
        # By how many messages of the first connection were done: what is written to both, and the rows.
        runs = [plain.run_from(0, [served(first[:done], second), DUMP]) for done in range(len(first) + 1)]
        self.without = [(Given(given).outputs, rows) for given, rows in plain.runner.many(runs)]
        self.whole = self.without[-1]
        # By how many messages of the second were done behind the whole first.
        runs = [plain.run_from(0, [served(first, second[:done]), DUMP]) for done in range(len(second) + 1)]
        self.second_rows = [rows for _, rows in plain.runner.many(runs)]

    def run(self, call):
        return self.plain.run_from(0, [served(self.first, self.second, [call]), DUMP])

    def check(self, call, written):
        """A read behind all messages may fail, which nothing shows, so four calls that show nothing are taken for the end."""
        if self.shows(Given(written[0]), written[1]):
            self.last, self.none_met = call, 0
        else:
            self.none_met += 1
        return self.none_met < 4

    def shows(self, given, rows):
        outputs = given.outputs
        if given.status == 75:
            done = len(self.first) if outputs else 0
            must(not outputs or outputs == self.whole[0][:1], "behind 75 a connection is answered otherwise")
            must(rows == (self.second_rows[0] if done else self.plain.rows[0]), "behind 75 the rows are those of other messages")
            return True
        must(given.status == 0 and len(outputs) == 2, f"it ends with {given.status} and {len(outputs)} connections")
        for output, whole in zip(outputs, self.whole[0]):
            if output != whole:
                self.check_cut(outputs, rows, output, whole)
                return True
        must(rows == self.whole[1], "all is written, and the rows are others")
        return False

    def check_cut(self, outputs, rows, output, whole):
        must(whole.startswith(output), "what a connection wrote is no prefix of what it writes else")
        done = len(replies_in(output))
        if output is outputs[0]:
            found = [(self.without[count][0][1], self.without[count][1]) for count in (done, done + 1) if count < len(self.without)]
            must((outputs[1], rows) in found, f"the first connection has {done} replies, and the second one's replies or the rows fit neither so many messages nor one more")
        else:
            must(outputs[0] == self.whole[0][0], "the second connection is cut, and the first one's replies are others")
            must(rows in self.second_rows[done:done + 2], f"the second connection has {done} replies, and the rows fit neither so many messages nor one more")


def run_door(runner, name, every):
    plain = Plain(runner, SCENES[name])
    doors = Doors(plain, *messages_of(name))
    runner.sweep(doors.run, doors.check, every)
    return doors.last


# ---- bytes


BAD = (0, 255, 13, 10, 34)


class Cut:
    """A message of a scene, behind the one before it: the connection ends within it, or one of its bytes is another."""

    def __init__(self, plain, at, last):
        self.plain, self.at = plain, at
        self.from_ = max(at - 1, 0)
        self.before = plain.steps[self.from_:at]
        self.message, self.behind = plain.steps[at], plain.steps[at + 1:last][:1]
        self.answered = plain.replies(self.from_, at)
        self.body = self.message.index(b"\r\n\r\n") + 4

    def cut_run(self, count):
        return self.plain.run_from(self.from_, [connection([*self.before, self.message[:count]]), DUMP])

    def check_cut(self, count, written):
        given = Given(written[0])
        what = f"step {self.at + 1} cut behind byte {count}"
        must(given.status == 0 and given.output == self.answered, f"{what}: {given.written[:300]}")
        must(written[1] == self.plain.rows[self.at], f"{what}: the rows are others")

    def changed(self, at, byte):
        return self.message[:at] + bytes([byte]) + self.message[at + 1:]

    def run(self, at, byte):
        """The changed message between its neighbours; and alone, with the rows it leaves, and the one behind it then."""
        changed = self.changed(at, byte)
        joined = self.plain.run_from(self.from_, [connection([*self.before, changed, *self.behind]), DUMP])
        return joined + self.plain.run_from(self.at, [connection([changed]), DUMP, connection(self.behind), DUMP])

    def check(self, at, byte, written):
        given, rows, alone, left, behind, last = (line if line.startswith(b'{"rows"') else Given(line) for line in written)
        what = f"step {self.at + 1}, byte {at} is {byte}"
        must(given.status == 0 and given.output.startswith(self.answered), f"{what}: what is before it isn't answered: {given.written[:300]}")
        must(not {500, 503, 507} & {*given.statuses(), *alone.statuses()}, f"{what}: {alone.statuses()}")
        for status, body in alone.replies[:1]:
            must(status < 400 or left in (self.plain.rows[self.at], self.plain.stepped[self.at]), f"{what}: refused by {status} {body}, and the rows are others")
        must(alone.replies or left == self.plain.rows[self.at], f"{what}: not answered, and the rows are others")
        if at < self.body:
            return
        must(given.output == self.answered + alone.output + behind.output and rows == last, f"{what}: alone it is answered otherwise, or the message behind it is")
        if self.plain.given[self.at].statuses()[0] < 300 and not is_json(self.changed(at, byte)[self.body:]):
            must([body for _, body in alone.replies] == ['[{"message":"the body isn\'t of the stated form","errorCode":"JSON_PARSER_ERROR"}]'], f"{what}: no JSON, and {alone.replies}")


def is_json(body):
    try:
        json.loads(body)
    except ValueError:
        return False
    return True


def run_bytes(runner, name, every):
    plain = Plain(runner, SCENES[name])
    last = sum(map(len, messages_of(name)))
    count = 0
    for at in range(last):
        cut = Cut(plain, at, last)
        numbers = list(range(count % every, len(cut.message), every))
        pairs = [(number, byte) for number in numbers for byte in BAD if cut.message[number] != byte]
        count += len(list(runner.each([(number,) for number in numbers], cut.cut_run, cut.check_cut)))
        count += len(list(runner.each(pairs, cut.run, cut.check)))
    return count


# ---- rows


def variants(row):
    """The row with each byte raised by one, cut by its last byte, and with one more."""
    raw = bytes.fromhex(row)
    for at, byte in enumerate(raw):
        yield f"byte {at} raised", raw[:at] + bytes([(byte + 1) % 256]) + raw[at + 1:]
    if raw:
        yield "cut by its last byte", raw[:-1]
    yield "with one more", raw + b"\0"


class Store:
    """The rows of a store in the midst of a scene, and what is asked of it: by its organisation, and by its neighbour."""

    def __init__(self, plain, at, asks):
        self.plain, self.at, self.asks = plain, at, [*asks, *NEIGHBOUR_ASKS]
        self.own = len(asks)
        self.rows = rows_in(plain.rows[at])
        written = plain.runner.one(plain.run_from(at, self.lines()))
        self.given, after = [Given(line) for line in written[::2]], written[1::2]
        self.changes = [changes(one, other) for one, other in zip([plain.rows[at], *after], after)]
        must(all(given.statuses()[0] < 300 for given in self.given[self.own:self.own + 2]), "the neighbour's requests are refused")

    def lines(self):
        return [line for ask in self.asks for line in (connection([ask]), DUMP)]

    def run(self, place, row, _):
        return self.plain.run_from(self.at, [row_changed(place, row), *self.lines()])

    def check(self, place, row, changed, written):
        try:
            self.check_asks(place, row, written)
        except Differs as differs:
            raise Differs(f"table {place[0]}, key {place[1]}, {changed}: {differs.what}") from None

    def check_asks(self, place, row, written):
        table, key = place
        given, after = [Given(line) for line in written[::2]], written[1::2]
        before = with_row(self.plain.rows[self.at], place, self.rows[place], row)
        if table == 0:
            self.check_version(row, given, after, before)
            return
        told = spells(table, key, row)
        same = True
        for at, (one, rows) in enumerate(zip(given, after)):
            now, near = changes(before, rows), at >= self.own
            refused = one.statuses() == [DAMAGED]
            must(one.status == 0 and not {503, 507} & set(one.statuses()), f"request {at + 1}: {one.written[:200]}")
            must(not (refused and now), f"request {at + 1} is 500, and the rows are others")
            must(near or all(where[1].startswith("00000001") for where in now), f"request {at + 1} changes rows that aren't its organisation's")
            if near or (not told and not refused and same):
                must(one.output == self.given[at].output, f"request {at + 1} is answered {one.output[:300]}, and before {self.given[at].output[:300]}")
                must(now == self.changes[at], f"request {at + 1} makes other changes: {others_of(now, self.changes[at])}")
            if refused and not near:
                same = False
            before = rows
        if told and table == 7:
            self.check_record(key, row, given)

    def check_version(self, row, given, after, before):
        readable = len(row) == 16
        status = 76 if not readable else 77 if row[:8] != "00000001" else 0
        must(all(one.status == status for one in given), f"the version is {row}, and the statuses are {[one.status for one in given]}")
        if status:
            must(all(not one.output for one in given) and all(rows == before for rows in after), "the version isn't known, and something is written")

    def check_record(self, key, row, given):
        """Where a record's name alone is another, the first query shows it so."""
        old, new = (row_of(7, key, it) for it in (self.rows[7, key], row))
        if old[1:] != new[1:] or not given[0].replies or given[0].replies[0][0] != 200:
            return
        wanted = json.loads(self.given[0].replies[0][1])
        id15 = bytes.fromhex(key)[6:].decode()
        for record in wanted["records"]:
            if record.get("Id", "")[:15] == id15 and "Name" in record:
                record["Name"] = new[0] or None
        must(json.loads(given[0].replies[0][1]) == wanted, f"the name is {new[0]!r}, and the query shows {given[0].replies[0][1][:300]}")


def others_of(one, other):
    return [(place, one.get(place), other.get(place)) for place in {*one, *other} if one.get(place) != other.get(place)][:2]


def chosen(rows):
    """Of each table and mark all rows, or where there are over 12 the first four, four in the midst and the last four."""
    groups = {}
    for table, key in sorted(rows):
        if table == 0 or key.startswith("00000001"):
            groups.setdefault((table, key[8:12]), []).append((table, key))
    for group in groups.values():
        middle = len(group) // 2
        yield from group if len(group) <= 12 else [*group[:4], *group[middle - 2:middle + 2], *group[-4:]]


def run_rows(runner, name, every):
    scene = SCENES[name]
    store = Store(Plain(runner, scene), scene["kept"], scene["asks"])
    tries = [(place, row.hex(), what) for place in chosen(store.rows) for what, row in variants(store.rows[place])][::every]
    return len(list(runner.each(tries, store.run, store.check)))


ALL = list(SCENES)
MESSAGES = [name for name in SCENES if isinstance(SCENES[name]["steps"][0], bytes)]
KINDS = {
    "keeper": Kind(ALL, run_keeper),
    "door": Kind(MESSAGES, run_door),
    "bytes": Kind(MESSAGES, run_bytes),
    "rows": Kind(ALL, run_rows),
    "edge": Kind(list(EDGES), run_edge),
}
