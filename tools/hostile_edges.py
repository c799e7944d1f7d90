"""The edges of `tools/hostile`: limits of docs/LIMITS.md, and what is long in other ways.

It is no script itself. An edge has what makes its store, and cases: what is asked, behind each other on one connection or as a
command, the status of the last reply and a part of its body, or of the command its status and a part of its output. Each case has
the edge's store for itself. What must come is from the definitions.
"""
from driving import ORG_ADD, SECRET, deletion, lookup, message, new_detail, new_field, new_object, new_record, other_values, record_id, text
from hostile_runs import DUMP, Differs, Given, connection, row_changed, rows_in, run_line, store
from hostile_scenes import CALLER, command, members, person, query, rule, share, sharing_rule

OK, MADE, DONE, BAD = 200, 201, 204, 400
# What takes longer, of the whole process, is said.
SHOWN_SECONDS = 0.05


def full(name, number):
    return BAD, f"{name}: {number}"


def number_type(digits, decimals):
    return {"kind": "Number", "digits": digits, "decimals": decimals}


def picks(*texts):
    return {"kind": "Picklist", "values": list(texts)}


def of_field(kind, **flags):
    return new_field("Row__c", "New__c", kind, **flags)


def named(name):
    return message("POST", "/admin/objects", {"name": name, "access": "Private"})


def a_user(name, secret=SECRET):
    return message("POST", "/admin/users", {"name": name, "secret": secret, "role": None, "admin": False})


def with_length(length, letter="x"):
    return letter * length


def head(length, lines=1):
    """A GET with a head of so many bytes, in so many header lines."""
    start = b"GET /x HTTP/1.1\r\n"
    rows = b"".join(b"a: b\r\n" for _ in range(lines - 1))
    return start + rows + b"x: " + b"y" * (length - len(start) - len(rows) - len(b"x: \r\n\r\n")) + b"\r\n\r\n"


ROW = [
    new_object("Row__c"), new_field("Row__c", "Text__c", text(255)), new_field("Row__c", "Number__c", number_type(18, 8)),
    new_field("Row__c", "Day__c", {"kind": "Day"}), new_field("Row__c", "Pick__c", picks("a", "b" * 40)),
    new_field("Row__c", "Up__c", lookup("Row__c", "Rows__r")), new_record("Row__c", {"Name": "one"}),
]
WRONG_FORM = (BAD, "JSON_PARSER_ERROR")


def texts_of_queries():
    up = "Up__r."
    yield "a path of 6 names", [query(f"SELECT {up * 5}Name FROM Row__c")], (OK, '"totalSize":1')
    yield "a path of 7 names", [query(f"SELECT {up * 6}Name FROM Row__c")], (BAD, f"unexpected token at {len('SELECT ' + up * 6) - 1}")
    for count in (32, 33):
        keys = ", ".join(["Name"] * count)
        start = "SELECT Id FROM Row__c ORDER BY "
        yield f"{count} keys of ORDER BY", [query(start + keys)], (OK, '"totalSize":1') if count < 33 else (BAD, f"unexpected token at {len(start + ', '.join(['Name'] * 32))}")
    for count in (999, 1000, 1001):
        start, items = "SELECT Id FROM Row__c WHERE Name IN (", ["'a'"] * count
        place = len(start + ",".join(items[:1000]))
        yield f"{count} literals", [query(start + ",".join(items) + ")")], (OK, '"totalSize":0') if count < 1001 else (BAD, f"unexpected token at {place}")
    for levels in (32, 33):
        start = "SELECT Id FROM Row__c WHERE "
        within = "(" * levels + "Name = 'one'" + ")" * levels
        yield f"{levels} parentheses", [query(start + within)], (OK, '"totalSize":1') if levels < 33 else (BAD, f"unexpected token at {len(start) + 32}")
        yield f"{levels} times NOT", [query(start + "NOT " * levels + "Name = 'one'")], (OK, '"totalSize":1') if levels < 33 else (BAD, f"unexpected token at {len(start) + 4 * 32}")
    for name, most in (("LIMIT", 50_000), ("OFFSET", 2_000)):
        for count in (most, most + 1):
            start = f"SELECT Id FROM Row__c {name} "
            yield f"{name} {count}", [query(f"{start}{count}")], (OK, '"done":true') if count == most else (BAD, f"unexpected token at {len(start)}")
    start = "SELECT Id FROM Row__c WHERE Number__c = "
    for whole, decimals in ((18, 8), (19, 0), (1, 9)):
        literal = "1" * whole + "." * (decimals > 0) + "1" * decimals
        yield f"a number of {whole} digits and {decimals}", [query(start + literal)], (OK, '"totalSize":0') if whole < 19 and decimals < 9 else (BAD, f"unexpected token at {len(start)}")


def subqueries():
    for count in (20, 21):
        parts = [f"(SELECT Id FROM Rows{at}__r)" for at in range(count)]
        place = len("SELECT " + ", ".join(parts[:20]) + ", ") if count > 20 else 0
        # (the next place is behind the comma or at it: the twentieth may not be followed by one that opens a parenthesis)
        yield f"{count} subqueries", [query(f"SELECT {', '.join(parts)} FROM Row__c")], (OK, '"totalSize":0') if count < 21 else (BAD, f"unexpected token at {place}")


def formulas():
    def new(formula, name="New"):
        return rule("Row__c", name, formula)
    for levels in (32, 33):
        formula = "NOT(" * levels + "TRUE" + ")" * levels
        yield f"{levels} levels of a formula", [new(formula)], (DONE, "") if levels < 33 else (BAD, f"unexpected token at {4 * 32}")
    for length in (4_000, 4_001):
        formula = f'Text__c = "{with_length(length - 12)}"'
        yield f"a formula of {length} characters", [new(formula)], (DONE, "") if length < 4_001 else (BAD, "unexpected token at 0")
    for length in (40, 41):
        yield f"a rule's name of {length}", [new("TRUE", with_length(length))], (DONE, "") if length < 41 else (BAD, "INVALID_NAME")
    for length in (80, 81):
        message_ = message("POST", "/admin/validation-rules", {"object": "Row__c", "name": "New", "formula": "TRUE", "message": with_length(length)})
        yield f"a rule's message of {length}", [message_], (DONE, "") if length < 81 else WRONG_FORM


def names_and_types():
    for length in (40, 41):
        for what, ask in (("object", named(with_length(length) + "__c")), ("field", new_field("Row__c", with_length(length) + "__c", text(9)))):
            yield f"the name of an {what}, {length}", [ask], (DONE, "") if length < 41 else (BAD, "INVALID_NAME")
        child = of_field(lookup("Row__c", with_length(length) + "__r"))
        yield f"the name of a child relationship, {length}", [child], (DONE, "") if length < 41 else (BAD, "INVALID_NAME")
    for length in (0, 1, 80, 81):
        yield f"the name of a user, {length}", [a_user(with_length(length))], (MADE, "") if 0 < length < 81 else (BAD, "INVALID_NAME")
    for length in (15, 16, 64, 65):
        yield f"a secret of {length}", [a_user("A", with_length(length))], (MADE, "") if 15 < length < 65 else WRONG_FORM
    for length in (0, 1, 255, 256):
        yield f"a Text of {length}", [of_field(text(length))], (DONE, "") if 0 < length < 256 else WRONG_FORM
    for digits, decimals in ((0, 0), (1, 0), (18, 8), (19, 8), (18, 9), (9, 8), (7, 8)):
        fits = 1 <= digits <= 18 and decimals <= 8 and decimals <= digits
        yield f"a Number of {digits} digits and {decimals}", [of_field(number_type(digits, decimals))], (DONE, "") if fits else WRONG_FORM
    for count in (0, 1, 100, 101):
        yield f"a Picklist of {count}", [of_field(picks(*map(str, range(count))))], (DONE, "") if 0 < count < 101 else WRONG_FORM
    for length in (0, 1, 40, 41):
        yield f"a text of a Picklist of {length}", [of_field(picks(with_length(length)))], (DONE, "") if 0 < length < 41 else WRONG_FORM


def values():
    for length in (80, 81):
        yield f"a record's name of {length}", [new_record("Row__c", {"Name": with_length(length, "é")})], (MADE, "") if length < 81 else (BAD, "STRING_TOO_LONG")
    for length in (255, 256):
        yield f"a value of {length}", [new_record("Row__c", {"Text__c": with_length(length, "é")})], (MADE, "") if length < 256 else (BAD, "STRING_TOO_LONG")
    for value, fits in ((b"9999999999.99999999", True), (b"10000000000", False), (b"-9999999999.99999999", True), (b"1e9", True), (b"1e10", False), (b"1e400", False)):
        yield f"the number {value.decode()}", [new_record("Row__c", b'{"Number__c":' + value + b"}")], (MADE, "") if fits else (BAD, "NUMBER_OUTSIDE_VALID_RANGE")
    for value, fits in (("0001-01-01", True), ("9999-12-31", True), ("0000-12-31", False)):
        yield f"the day {value}", [new_record("Row__c", {"Day__c": value})], (MADE, "") if fits else (BAD, "Day__c")
    yield "a listed value of 40", [new_record("Row__c", {"Pick__c": "b" * 40})], (MADE, "")
    yield "a value that isn't listed", [new_record("Row__c", {"Pick__c": "b" * 39})], (BAD, "INVALID_OR_NULL_FOR_RESTRICTED_PICKLIST")


def messages():
    for length in (16_383, 16_384, 16_385):
        yield f"a head of {length} bytes", [head(length)], (401, "") if length < 16_385 else (431, "HEAD_TOO_LARGE")
    for lines in (63, 64, 65):
        yield f"{lines} header lines", [head(2_000, lines)], (401, "") if lines < 65 else (431, "HEAD_TOO_LARGE")
    for size in (4_194_303, 4_194_304, 4_194_305):
        body = b'{"Name":"one"' + b" " * (size - 14) + b"}"
        yield f"a body of {size} bytes", [new_record("Row__c", body)], (MADE, "") if size < 4_194_305 else (413, "the body is over 4194304 bytes")
    for levels in (32, 33):
        body = b'{"Name":' + b"[" * (levels - 1) + b"]" * (levels - 1) + b"}"
        yield f"{levels} brackets", [new_record("Row__c", body)], (BAD, "INVALID_TYPE_ON_FIELD_IN_RECORD") if levels < 33 else WRONG_FORM
    asks = [message("GET", "/x")] * 1000
    yield "1,000 messages on a connection", tuple(asks), (404, "")
    yield "1,001 messages on a connection", tuple([*asks, message("GET", "/x")]), (404, "")


def long():
    """What is long, and refused or answered in time by its bytes."""
    for what, body in (("brackets", b"[" * 4_194_304), ("braces", b'{"a":' * 800_000), ("quotes", b'"' * 4_194_304), ("backslashes", b'{"Name":"' + b"\\" * 4_000_000 + b'"}'),
                       ("digits", b'{"Number__c":' + b"9" * 4_000_000 + b"}"), ("one name", b"{" + b",".join([b'"Name":1'] * 400_000) + b"}"),
                       ("names", b"{" + b",".join(b'"n%d":1' % at for at in range(300_000)) + b"}")):
        found = {"names": (BAD, "INVALID_FIELD"), "digits": (BAD, "NUMBER_OUTSIDE_VALID_RANGE"), "backslashes": (BAD, "STRING_TOO_LONG")}.get(what, WRONG_FORM)
        yield f"a body of {len(body)} bytes of {what}", [new_record("Row__c", body)], found
    start = "SELECT Id FROM Row__c WHERE "
    yield "a query of 15,000 parentheses", [query(start + "(" * 15_000)], (BAD, f"unexpected token at {len(start) + 32}")
    yield "a query of 1,400 conditions", [query(start + " OR ".join(["Id='x'"] * 1_400))], (BAD, "MALFORMED_ID")
    pattern = "%a" * 3_000 + "b"
    yield "LIKE with 3,000 times %", [other_values("Row__c", record_id(1), {"Text__c": "a" * 255}), query(f"{start}Text__c LIKE '{pattern}'".replace("%", "%25"))], (OK, '"totalSize":0')
    yield "a target of 16,000 bytes", [message("GET", "/" + "x" * 16_000)], (404, "")
    yield "a target of 16,000 slashes", [message("GET", "/" * 16_000)], (404, "")
    yield "a path of triplets", [message("PATCH", f"/services/data/v59.0/sobjects/Row__c/Text__c/{'%41' * 5_000}", {})], (BAD, "INVALID_FIELD")


def counts():
    """Real ones: each is made, and one more is refused."""
    yield "objects", [named(f"O{at}__c") for at in range(1, 100)], (DONE, "")
    yield "objects, one more", [named(f"O{at}__c") for at in range(1, 101)], full("objects", 100)
    fields = [new_field("Row__c", f"F{at}__c", text(1)) for at in range(1, 37)]
    yield "fields", fields[:35], (DONE, "")
    yield "fields, one more", fields, full("fields per object", 40)
    rules = [rule("Row__c", f"R{at}", "FALSE") for at in range(1, 52)]
    yield "validation rules", rules[:50], (DONE, "")
    yield "validation rules, one more", rules, full("validation rules per object", 50)
    details = [new_detail(one, other) for one, other in (("A", "Row"), ("B", "A"), ("C", "B"), ("D", "C"))]
    yield "detail levels", details[:3], (DONE, "")
    yield "detail levels, one more", details, full("detail levels", 3)
    roles = [message("POST", "/admin/roles", {"name": f"R{at}", "parent": None}) for at in range(501)]
    yield "roles", roles[:500], (MADE, "")
    yield "roles, one more", roles, full("roles", 500)
    groups = [message("POST", "/admin/groups", {"name": f"G{at}"}) for at in range(501)]
    yield "groups", groups[:500], (MADE, "")
    yield "groups, one more", groups, full("groups", 500)
    within = [*groups[:500], message("POST", "/admin/roles", {"name": "R", "parent": None})]
    listed = [*[f"group:{person('00G', at)}" for at in range(3, 502)], f"role:{person('00E', 502)}"]
    yield "members of a group", [*within, members(2, *listed)], (DONE, "")
    yield "members of a group, one more", [*within, members(2, *listed, f"user:{person('005', 0)}")], full("members per group", 500)
    shared = [sharing_rule("Row__c", f"S{at}", f"user:{person('005', 0)}", "Read", formula="TRUE") for at in range(301)]
    yield "sharing rules", shared[:300], (DONE, "")
    yield "sharing rules, one more", shared, full("sharing rules", 300)
    shares = [share(record_id(1), f"group:{person('00G', at)}", "Read") for at in range(2, 103)]
    yield "shares of a record", [*groups[:101], *shares[:100]], (DONE, "")
    yield "shares of a record, one more", [*groups[:101], *shares], full("shares per record", 100)
    users = [a_user(f"U{at}") for at in range(2000)]
    yield "users", users[:1999], (MADE, "")
    yield "users, one more", users, full("users", 2000)


def deletions():
    below = [new_record("Row__c", {"Up__c": record_id(1)})]
    yield "a deletion that clears 999", [*below * 999, deletion("Row__c", record_id(1))], (DONE, "")
    yield "a deletion that clears 1,000", [*below * 1000, deletion("Row__c", record_id(1))], (BAD, "CASCADE_TOO_LARGE")


def commands():
    """Words and inputs of commands. A refusal is 65 with its line, wrong words are 64."""
    for count, status in (("0", 64), ("1", 0), ("18446744073709551615", 0), ("18446744073709551616", 64), ("01", 64)):
        yield f"serve {count}", command("serve", count), (status, "")
    for count, status in (("0", 0), ("10001", 64), ("-1", 64)):
        yield f"demo {count}", command("demo", count), (status, "")
    for length in (80, 81):
        yield f"an organisation's name of {length}", command("org-add", with_length(length), SECRET), (0, "") if length < 81 else (65, "NAME_REFUSED")
    for length in (15, 16, 64, 65):
        yield f"a secret of {length}", command("org-add", "A", with_length(length)), (0, "") if 15 < length < 65 else (65, "SECRET_REFUSED")
    for columns in (40, 41):
        heading = ",".join(f"C{at}__c" for at in range(columns))
        yield f"csvq of {columns} columns", command("csvq", "SELECT Id FROM Row__c", stdin=heading + "\n"), (0, "Id") if columns < 41 else (65, "HEADING_REFUSED: C40__c")
    for rows in (20_000, 20_001):
        yield f"csvq of {rows} rows", command("csvq", "SELECT Id FROM Row__c LIMIT 1", stdin="Name\n" + "a\n" * rows), (0, "a00") if rows < 20_001 else (65, "LIMIT_EXCEEDED")
    for length in (80, 81):
        yield f"csvq with a name of {length}", command("csvq", "SELECT Id FROM Row__c", stdin="Name\n" + with_length(length) + "\n"), (0, "a00") if length < 81 else (65, "STRING_TOO_LONG")
    for length in (255, 256):
        yield f"csvq with a cell of {length}", command("csvq", "SELECT Id FROM Row__c", stdin="A__c\n" + with_length(length) + "\n"), (0, "a00") if length < 256 else (65, "STRING_TOO_LONG")
    yield "load of a name twice", command("load", *CALLER, "Row__c", stdin="Name,name\na,b\n"), (65, "HEADING_REFUSED: name")


def numbers():
    """The counter and the rule numbers of an organisation, set in its row to their last values but one."""
    counter = [new_record("Row__c", {}), new_record("Row__c", {})]
    yield "ids", {"counter": 999_999_999_999_998, "steps": counter[:1]}, (MADE, "")
    yield "ids, one more", {"counter": 999_999_999_999_998, "steps": counter}, full("ids", 999_999_999_999_999)
    rules = [sharing_rule("Row__c", name, f"user:{person('005', 0)}", "Read", formula="TRUE") for name in "ab"]
    yield "rule numbers", {"drawn": 3_999_999_999, "steps": rules[:1]}, (DONE, "")
    yield "rule numbers, one more", {"drawn": 3_999_999_999, "steps": rules}, full("rule numbers", 4_000_000_000)


RELATED = [new_object("Row__c"), *[new_field("Row__c", f"Up{at}__c", lookup("Row__c", f"Rows{at}__r")) for at in range(21)]]
EDGES = {
    "queries": (ROW, texts_of_queries),
    "subqueries": (RELATED, subqueries),
    "formulas": (ROW, formulas),
    "names": (ROW, names_and_types),
    "values": (ROW, values),
    "messages": (ROW, messages),
    "long": (ROW, long),
    "counts": (ROW, counts),
    "deletions": (ROW, deletions),
    "commands": (ROW, commands),
    "numbers": (ROW, numbers),
}


def org_row(rows, counter=None, drawn=None):
    """The line that sets numbers in the organisation's row: the counter is behind its name, the numbers drawn are its last four bytes."""
    row = bytes.fromhex(rows[1, "00000001"])
    behind = 4 + int.from_bytes(row[:4], "big")
    if counter is not None:
        row = row[:behind] + counter.to_bytes(8, "big") + row[behind + 8:]
    if drawn is not None:
        row = row[:-4] + drawn.to_bytes(4, "big")
    return row_changed((1, "00000001"), row.hex())


def run_lines(dump, asked):
    """The lines of a case behind its store."""
    if isinstance(asked, tuple):
        return [connection(asked)]
    if isinstance(asked, list):
        return [connection(asked[at:at + 999]) for at in range(0, len(asked), 999)]
    if "words" in asked:
        return [run_line(asked["words"], stdin=asked["stdin"])]
    numbers = {name: value for name, value in asked.items() if name != "steps"}
    return [org_row(rows_in(dump), **numbers), connection(asked["steps"])]


def check(what, asked, found, given):
    status, part = found
    if isinstance(asked, dict) and "words" in asked:
        got, body = given.status, given.output.decode(errors="replace")
    else:
        got, body = given.replies[-1]
        if isinstance(asked, tuple) and len(given.replies) != 1000:
            raise Differs(f"{what}: {len(given.replies)} are answered")
    if got != status or part not in body:
        raise Differs(f"{what}: {got} {body[:300]}, and not {status} {part}")


def run_edge(runner, name, every):
    before, cases = EDGES[name]
    dump = runner.one([store(), run_line(ORG_ADD), connection(before), DUMP])[-1]
    cases = list(cases())[::every]
    runs = [[store(), dump, *run_lines(dump, asked)] for _, asked, _ in cases]
    for (what, asked, found), run, (written, took) in zip(cases, runs, runner.pool.map(runner.measure, runs)):
        runner.count += 1
        try:
            check(what, asked, found, Given(written[-1]))
        except Differs as differs:
            raise Differs(differs.what, run) from None
        if took > SHOWN_SECONDS:
            print(f"  {what}: {took:.2f} s", flush=True)
    return len(cases)
