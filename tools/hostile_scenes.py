"""The scenes of `tools/hostile`, as data: what is there before, the steps of the scene, and what is asked of the store behind it.

It is no script itself. A step is a message, or a command with its input. Each store has a second organisation, the neighbour, which
a scene of the first must not touch.
"""
from driving import (
    KEY, ORG_ADD, SECRET, deletion, lookup, message, new_detail, new_field, new_object, new_record, other_values, record_id, spelled,
    text, upsert,
)

NEAR_KEY = f"00D000000000002EAA!005000000000000AAA!{SECRET}"
CALLER = ["00D000000000001EAA", "005000000000000AAA", SECRET]
NEIGHBOUR = [
    message("POST", "/admin/objects", {"name": "Near__c", "access": "Private"}, NEAR_KEY),
    message("POST", "/admin/fields", {"object": "Near__c", "name": "Code__c", "type": text(9), "unique": True}, NEAR_KEY),
    message("POST", "/services/data/v59.0/sobjects/Near__c", {"Name": "near", "Code__c": "n"}, NEAR_KEY),
]
NEIGHBOUR_ASKS = [
    message("GET", "/services/data/v59.0/query?q=SELECT+Id,Name,Code__c+FROM+Near__c", None, NEAR_KEY),
    message("PATCH", "/services/data/v59.0/sobjects/Near__c/Code__c/n", {"Name": "nearer"}, NEAR_KEY),
    message("GET", "/admin/retype", None, NEAR_KEY),
]
PROGRESS = message("GET", "/admin/retype")
NOWHERE = message("GET", "/nowhere")


def command(*words, stdin=""):
    return {"words": list(words), "stdin": stdin}


def person(prefix, number):
    return prefix + spelled(number, 12)


def key_of(number, secret):
    return f"00D000000000001EAA!{person('005', number)}!{secret}"


def query(asked, key=KEY):
    return message("GET", f"/services/data/v59.0/query?q={asked.replace(' ', '+')}", None, key)


def role(name, parent=None):
    return message("POST", "/admin/roles", {"name": name, "parent": parent and person("00E", parent)})


def user(name, role_number):
    return message("POST", "/admin/users", {"name": name, "secret": name.lower() * 4, "role": person("00E", role_number), "admin": False})


def members(group, *spellings):
    return message("PATCH", f"/admin/groups/{person('00G', group)}", {"members": list(spellings)})


def rule(owner, name, formula):
    return message("POST", "/admin/validation-rules", {"object": owner, "name": name, "formula": formula, "message": name})


def sharing_rule(owner, name, to, level, **which):
    return message("POST", "/admin/sharing-rules", {"object": owner, "name": name, "to": to, "level": level, **which})


def share(record, to, level, key=KEY):
    return message("POST", "/services/data/v59.0/shares", {"record": record, "to": to, "level": level}, key)


def begin(owner, field, kind):
    return message("POST", "/admin/retype", {"object": owner, "field": field, "type": kind})


CALL_OFF = message("DELETE", "/admin/retype")
NUMBER = {"kind": "Number", "digits": 6, "decimals": 0}


# ---- sharing: who is above, shares, rules, a change of owner

RON, CEA, OTTO = key_of(5, "ronronronronron1"), key_of(6, "ceaceaceaceacea1"), key_of(7, "ottoottoottoott1")
DEAL = record_id(8)


def named_user(name, secret, number):
    return message("POST", "/admin/users", {"name": name, "secret": secret, "role": person("00E", number), "admin": False})


SHARING = {
    "before": [
        role("CEO"), role("VP", 1), role("Rep", 2), role("Other", 1), named_user("Ron", "ronronronronron1", 3),
        named_user("Cea", "ceaceaceaceacea1", 1), named_user("Otto", "ottoottoottoott1", 4), new_object("Deal__c"),
        new_field("Deal__c", "Stage__c", text(9)),
    ],
    "steps": [
        message("POST", "/services/data/v59.0/sobjects/Deal__c", {"Name": "D1", "Stage__c": "Open"}, RON),
        query("SELECT Id, Name FROM Deal__c", CEA), query("SELECT Id FROM Deal__c", OTTO),
        message("PATCH", f"/services/data/v59.0/sobjects/Deal__c/{DEAL}", {"Name": "x"}, OTTO),
        share(DEAL, f"user:{person('005', 7)}", "Edit", RON), share(DEAL, f"role:{person('00E', 4)}", "Read", CEA),
        message("PATCH", f"/services/data/v59.0/sobjects/Deal__c/{DEAL}", {"Name": "D2"}, OTTO),
        message("DELETE", f"/services/data/v59.0/sobjects/Deal__c/{DEAL}", None, OTTO),
        sharing_rule("Deal__c", "Open_deals", f"role:{person('00E', 4)}", "Edit", formula='Stage__c = "Open"'),
        message("DELETE", f"/services/data/v59.0/shares/{DEAL}/user:{person('005', 7)}", None, CEA),
        message("PATCH", f"/services/data/v59.0/sobjects/Deal__c/{DEAL}", {"OwnerId": person("005", 6)}, RON),
        query("SELECT Id, OwnerId FROM Deal__c", OTTO),
        sharing_rule("Deal__c", "Boss_deals", f"user:{person('005', 5)}", "Read", **{"from": f"subordinates:{person('00E', 1)}"}),
        query("SELECT Name FROM Deal__c", RON), message("DELETE", "/admin/sharing-rules/open_DEALS"),
        query("SELECT Id FROM Deal__c", OTTO), message("DELETE", f"/services/data/v59.0/sobjects/Deal__c/{DEAL}", None, CEA),
    ],
    "kept": 13,
    "asks": [
        query("SELECT Id, Name, OwnerId, Stage__c FROM Deal__c"), query("SELECT Id FROM Deal__c", RON), query("SELECT Id FROM Deal__c", OTTO),
        share(DEAL, f"user:{person('005', 7)}", "Read"), other_values("Deal__c", DEAL, {"Name": "again"}),
    ],
}


# ---- the change of a type


def counted(count, value=str):
    return [new_record("Item__c", {"Name": f"Item {at}", "Size__c": value(at)}) for at in range(1, count + 1)]


def items(count, value=str):
    return [new_object("Item__c"), new_field("Item__c", "Size__c", text(20), indexed=True), *counted(count, value)]


SIZES = query("SELECT Id, Size__c FROM Item__c WHERE Size__c != null ORDER BY Size__c LIMIT 3")
RETYPE = {
    "before": items(250),
    "steps": [
        begin("Item__c", "Size__c", NUMBER), PROGRESS, other_values("Item__c", record_id(1), {"Size__c": "77"}),
        other_values("Item__c", record_id(2), {"Size__c": "x"}), new_record("Item__c", {"Size__c": "251"}),
        deletion("Item__c", record_id(3)), other_values("Item__c", record_id(4), {"Size__c": 9}), SIZES, NOWHERE, PROGRESS,
        new_record("Item__c", {"Size__c": 7}), PROGRESS,
    ],
    "kept": 4,
    "asks": [SIZES, PROGRESS, other_values("Item__c", record_id(9), {"Size__c": "5"}), deletion("Item__c", record_id(8))],
}
RETYPE_FAILS = {
    "before": items(150, lambda at: "12x" if at == 120 else str(at)),
    "steps": [begin("Item__c", "Size__c", NUMBER), PROGRESS, SIZES, other_values("Item__c", record_id(120), {"Size__c": "y"}), PROGRESS, SIZES],
    "kept": 3,
    "asks": [SIZES, PROGRESS, begin("Item__c", "Size__c", NUMBER)],
}
RETYPE_OFF = {
    "before": items(150),
    "steps": [begin("Item__c", "Size__c", NUMBER), SIZES, CALL_OFF, CALL_OFF, other_values("Item__c", record_id(5), {"Size__c": "z"}), PROGRESS, SIZES],
    "kept": 3,
    "asks": [SIZES, PROGRESS, CALL_OFF],
}


# ---- a deletion of 1,000 records: an order, 600 lines, and 399 notes that lose it

ORDER = record_id(1)
DELETION = {
    "before": [
        new_object("Order__c"), new_detail("Line", "Order"), new_object("Note__c"), new_field("Note__c", "Order__c", lookup("Order__c", "Notes__r")),
        new_record("Order__c", {"Name": "Order"}), *[new_record("Line__c", {"Order__c": ORDER})] * 600,
        *[new_record("Note__c", {"Order__c": ORDER})] * 399,
    ],
    "steps": [deletion("Order__c", ORDER), deletion("Order__c", ORDER), query("SELECT Id FROM Note__c WHERE Order__c != null"), new_record("Order__c", {})],
    "kept": 1,
    "asks": [query("SELECT Id, Name FROM Order__c"), query("SELECT Id, Order__c FROM Note__c LIMIT 2"), deletion("Note__c", record_id(700, 2))],
}


# ---- a load of 250 rows, and exports of them

LOADED = "SELECT Id, Key__c, Name, Mark__c, Account__r.Code__c FROM Contact__c"


def row(number):
    """A row of the file: of each 40 one has no account that is there, one a mark that is too long, and row 240 has the key of row 10."""
    account = "Z" if number % 40 == 7 else f"A{number % 10 + 1}"
    mark = "longer" if number % 40 == 23 else f"m{number % 7}"
    return f"C{10 if number == 240 else number},Contact {number},{mark},{account}\n"


def load(rows):
    return command("load", *CALLER, "Contact__c", stdin="Key__c,Name,Mark__c,Account__r.Code__c\n" + "".join(map(row, range(1, rows + 1))))


LOAD = {
    "before": [
        new_object("Account__c"), new_object("Contact__c"), new_field("Account__c", "Code__c", text(5), unique=True),
        new_field("Contact__c", "Key__c", text(20), unique=True), new_field("Contact__c", "Mark__c", text(5), indexed=True),
        new_field("Contact__c", "Account__c", lookup("Account__c", "Contacts__r")),
        *[new_record("Account__c", {"Code__c": f"A{number}"}) for number in range(1, 11)],
    ],
    "steps": [load(250), command("export", *CALLER, LOADED), begin("Contact__c", "Mark__c", text(9)), command("export", *CALLER, LOADED)],
    # What the load comes to that does the first rows alone, by the rows of whole batches.
    "parts": {0: [load(rows) for rows in (0, 100, 200)]},
    "kept": 2,
    "asks": [query(LOADED + " WHERE Mark__c = 'm1' LIMIT 5"), upsert("Contact__c", "Key__c", "C5", {"Name": "five"}), PROGRESS],
}


# ---- people and rules

PEOPLE = {
    "before": [
        role("Top"), role("Rep", 1), user("Anna", 2), user("Bert", 2), message("POST", "/admin/groups", {"name": "All"}),
        members(5, f"user:{person('005', 3)}"), new_object("Deal__c"), new_field("Deal__c", "Size__c", NUMBER),
    ],
    "steps": [
        role("Low", 2), user("Cleo", 1), message("POST", "/admin/groups", {"name": "Some"}),
        members(5, f"user:{person('005', 4)}", f"subordinates:{person('00E', 1)}", f"group:{person('00G', 8)}"), members(5, f"user:{person('005', 99)}"),
        message("PATCH", f"/admin/users/{person('005', 3)}", {"role": person("00E", 1)}),
        message("PATCH", f"/admin/roles/{person('00E', 1)}", {"parent": person("00E", 6)}),
        message("PATCH", f"/admin/roles/{person('00E', 6)}", {"parent": None}),
        rule("Deal__c", "Sized", "Size__c < 0"), rule("Deal__c", "sized", "TRUE"), new_record("Deal__c", {"Size__c": -1}), new_record("Deal__c", {"Size__c": 1}),
        message("PATCH", "/admin/objects/Deal__c", {"access": "Read"}),
        sharing_rule("Deal__c", "Big", f"group:{person('00G', 5)}", "Edit", formula="Size__c > 0"),
        sharing_rule("Deal__c", "Own", f"role:{person('00E', 2)}", "Read", **{"from": f"group:{person('00G', 5)}"}),
        message("DELETE", "/admin/sharing-rules/Big"), new_detail("Line", "Deal"), new_field("Line__c", "Kind__c", {"kind": "Picklist", "values": ["a", "b"]}),
    ],
    "kept": 15,
    "asks": [
        query("SELECT Id, Name, Size__c FROM Deal__c", key_of(3, "anna" * 4)), message("PATCH", f"/admin/users/{person('005', 4)}", {"role": None}),
        rule("Deal__c", "More", "Size__c > 9"), members(5), new_record("Deal__c", {"Size__c": 3}),
    ],
}


# ---- queries with paths and subqueries, as the administrator and as a user

READER = key_of(2, "reader" * 3)
QUERIES = {
    "before": [
        role("Rep"), named_user("Reader", "reader" * 3, 1), new_object("Account__c"), new_object("Contact__c"), new_object("Note__c"),
        message("PATCH", "/admin/objects/Contact__c", {"access": "Read"}), new_field("Contact__c", "Account__c", lookup("Account__c", "Contacts__r")),
        new_field("Note__c", "Contact__c", lookup("Contact__c", "Notes__r")), new_field("Contact__c", "Day__c", {"kind": "Day"}, indexed=True),
        new_field("Contact__c", "Code__c", text(9), unique=True), new_record("Account__c", {"Name": "Acorn"}), new_record("Account__c", {"Name": "Oak"}),
        new_record("Contact__c", {"Name": "Ada", "Account__c": record_id(3), "Day__c": "2026-01-02", "Code__c": "a"}),
        new_record("Contact__c", {"Name": "Bob", "Account__c": record_id(4), "Day__c": "2026-01-01", "Code__c": "b"}),
        new_record("Note__c", {"Name": "one", "Contact__c": record_id(5, 1)}), new_record("Note__c", {"Name": "two", "Contact__c": record_id(5, 1)}),
        share(record_id(7, 2), f"user:{person('005', 2)}", "Read"),
    ],
    "steps": [
        query(asked, key) for key in (KEY, READER) for asked in (
            "SELECT Id, Name, Account__c, Account__r.Name, (SELECT Name FROM Notes__r) FROM Contact__c",
            "SELECT Contact__r.Account__r.Name, Name FROM Note__c ORDER BY Contact__r.Name DESC, Id",
            "SELECT Name, (SELECT Name, Day__c FROM Contacts__r WHERE Day__c > 2026-01-01) FROM Account__c",
            "SELECT Name FROM Contact__c WHERE Day__c = 2026-01-02", "SELECT Name FROM Contact__c WHERE Code__c = 'B'",
            "SELECT Name FROM Contact__c WHERE Account__r.Name LIKE '%a%' OR Day__c IN (TODAY, 2026-01-01)",
            "SELECT Name FROM Contact__c WHERE Name = 'Ada' LIMIT 1 OFFSET 1", "SELECT Nothing FROM Contact__c", "SELECT Id FROM",
        )
    ],
    "kept": 18,
    "asks": [query("SELECT Id, Name, Code__c FROM Contact__c"), query("SELECT Account__r.Name, (SELECT Name FROM Notes__r) FROM Contact__c", READER),
             other_values("Contact__c", record_id(6, 1), {"Account__c": record_id(3), "Day__c": None}), deletion("Account__c", record_id(3))],
}


# ---- edits: a create, an update, upserts of either kind, a deletion on three levels

LOOKUPS = "ABCDE"


def values(name, first, unique):
    """The values of a deal that refers to five things from the first on."""
    references = {f"{letter}__c": record_id(first + at) for at, letter in enumerate(LOOKUPS)}
    return {"Name": name, "Must__c": "m", **references, "Unique__c": unique, "Indexed__c": unique}


EDITS = {
    "before": [
        new_object("Thing__c"), new_object("Deal__c"), new_field("Deal__c", "Must__c", text(20), required=True),
        *[new_field("Deal__c", f"{letter}__c", lookup("Thing__c", f"{letter}s__r")) for letter in LOOKUPS],
        new_field("Deal__c", "Unique__c", text(20), unique=True), new_field("Deal__c", "Indexed__c", text(20), indexed=True),
        new_field("Deal__c", "Key__c", text(20), unique=True), rule("Deal__c", "Named", "ISBLANK(Name)"), rule("Deal__c", "Must", 'Must__c = "no"'),
        *[new_record("Thing__c", {"Name": f"Thing {number}"}) for number in range(1, 11)],
        *[new_record("Deal__c", {**values(name, 1, name), "Key__c": f"Key {name}"}) for name in ("One", "Two")],
        new_object("Order__c"), new_detail("Line", "Order"), new_detail("Part", "Line"), new_object("Note__c"),
        new_field("Note__c", "Line__c", lookup("Line__c", "Notes__r")), new_record("Order__c", {"Name": "Order"}),
        *[new_record("Line__c", {"Name": f"Line {number}", "Order__c": record_id(13, 2)}) for number in (14, 15)],
        *[new_record("Part__c", {"Name": "Part", "Line__c": record_id(line, 3)}) for line in (14, 15)],
        new_record("Note__c", {"Name": "Note", "Line__c": record_id(14, 3)}),
    ],
    "steps": [
        new_record("Deal__c", values("Three", 6, "three")), other_values("Deal__c", record_id(11, 1), values("Four", 6, "four")),
        upsert("Deal__c", "Key__c", "Key Three", values("Five", 6, "five")), upsert("Deal__c", "Key__c", "KEY TWO", values("Six", 6, "six")),
        new_record("Deal__c", values("Seven", 6, "SIX")), deletion("Order__c", record_id(13, 2)), deletion("Thing__c", record_id(7)),
        query("SELECT Name, Unique__c, A__r.Name, B__r.Name FROM Deal__c"),
    ],
    "kept": 5,
    "asks": [
        query("SELECT Id, Name, Must__c, Unique__c, Indexed__c FROM Deal__c"), query("SELECT Name, Line__r.Order__r.Name FROM Part__c"),
        new_record("Deal__c", values("Last", 1, "last")), upsert("Deal__c", "Key__c", "key two", {"Unique__c": "2"}), deletion("Order__c", record_id(13, 2)),
    ],
}


# Of each scene: what makes its store; its steps, messages and commands; behind how many of them the rows of its store are changed,
# and what is asked of it then.
SCENES = {
    "sharing": SHARING,
    "retype": RETYPE,
    "retype-fails": RETYPE_FAILS,
    "retype-off": RETYPE_OFF,
    "deletion": DELETION,
    "load": LOAD,
    "people": PEOPLE,
    "queries": QUERIES,
    "edits": EDITS,
}
ORGANISATIONS = [{"words": ORG_ADD}, {"words": ["org-add", "Bolt", SECRET]}]
