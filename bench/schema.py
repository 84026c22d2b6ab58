"""The schema of the JSON that `scl` writes, made of the table of its members, and whether a value is as a schema says."""
import json
import re

TABLE = "crates/scl_json/src/members.rt"
NAMES = "crates/scl_hazards/src/names.rt"
ANSWERS = "crates/scl_report/src/json.rt"
LINE = re.compile(r'^    "([^"]+)" "([^"]+)" (\w+) \[([^\]]*)\],$', re.M)
TEXT = {"$ref": "#/$defs/text"}
TEXTS = {"type": "array", "items": TEXT}
ROWS = {"type": "array", "items": TEXTS}
FORMS = {
    "Number": {"type": ["integer", "null"]},
    "Truth": {"type": ["boolean", "null"]},
    "Yes": {"type": "boolean"},
    "One": {"anyOf": [TEXT, {"type": "null"}]},
    "Each": TEXTS,
    "Rows": ROWS,
}
NUMBER = {"type": "integer"}
YES = {"type": "boolean"}
ASKED = ["compiler", "program", "directory"]
# Which rows each answer has: those of a list of ANSWERS, others, and the names of its outcome.
OUTCOMES = (
    ("COMMAND", ASKED, ["ok"]),
    ("REFUSAL", ASKED, ["cannot-cache"]),
    ("NOTHING", ASKED, ["not-compilation"]),
    ("", ["version"], ["too-many-words"]),
    ("ERROR", [], []),
)
SIDE = {"$ref": "#/$defs/side"}
# What the members are of an answer that no row of a description has.
OWN = {
    "compiler": "the compiler's name here",
    "program": "the compiler's program, as given",
    "directory": "the compiler's directory",
    "response_files": "response files that were read",
    "missing_files": "response files that words name and that do not exist",
    "hazards": "objects with `name`, `danger` and `consequence`, a sentence for people",
    "unrunnable": "a word of the command holds a NUL: why no process can be given it",
    "reason": "the row `reason`; of `not-compilation` the flag that asks for something else, or that none asks to compile",
    "entry": "of `database`: the entry's number, from 1",
    "file": "of `database`: the entry's file",
    "error": "of `database`: why the entry has no answer",
}


def said(text, schema):
    """The schema with what its member is, in words."""
    return {"description": text, **schema}


FIRST = said("how the first line is answered, and of `options`, `key`, `asked` and `keep` what the second has not. `asked` has those rows `key` with which the keys can be equal", SIDE)
SECOND = said("the same of the second line", SIDE)
PAIR = {"equal": said("whether the keys can be equal: both lines have one, and what is hashed of its rows is the same", YES), "first": FIRST, "second": SECOND}
# The documents of a whole call: the subcommand, and its members beside the version.
DOCUMENTS = (
    ("scl why", {"entries": said("objects as `scl database --json` writes them", {"type": "array", "items": {"$ref": "#/$defs/answer"}})}),
    ("scl diff of two lines or entries", PAIR),
    ("scl diff of two databases", {
        "equal": said("whether each entry has a partner with which it can have one key", YES),
        "pairs": said("how many entries are in both", NUMBER),
        "equal_pairs": said("how many of these can have equal keys", NUMBER),
        "first_only": said("how many entries are only in the first", NUMBER),
        "second_only": said("how many are only in the second", NUMBER),
        "unequal": said("for each pair that differs an object with `equal`, `first` and `second`, which have the `file` too", {"type": "array", "items": {"$ref": "#/$defs/pair"}}),
    }),
    ("scl flags", {
        "flags": said("arrays: the compiler, the flag, how its value stands, its kind, and TO", ROWS),
        "words": said("an array for each given word: the compiler, the word, its flag or an empty text, and TO", ROWS),
        "catalogue": said("an array for each entry of the catalogue that speaks of a given word: the word, the entry's name, what it states, and its sentence", ROWS),
    }),
    ("scl reasons", {
        "reasons": said("arrays: the reason, and its sentence", ROWS),
        "keep": said("the same of reasons why there is no key", ROWS),
        "hazards": said("as in an answer; `words` are the compilers of which the hazard is known", {"$ref": "#/$defs/hazards"}),
    }),
)


def document_rows():
    """The members of each document, with what they are."""
    return [[f"`{title}`".replace(" of ", "` of ").rstrip("`") if " of " in title else f"`{title}`", f"`{name}`", it["description"]] for title, members in DOCUMENTS for name, it in members.items()]


def own_rows():
    """The members of an answer that no row of a description has, with what they are."""
    return [[f"`{name}`", text] for name, text in OWN.items()]


KINDS = {"object": dict, "array": list, "string": str, "integer": int, "boolean": bool, "null": type(None)}


def members(text):
    """The members of the table's text: row, name, form, and the names of fields."""
    return [(row, name, form, re.findall(r'"([^"]+)"', fields)) for row, name, form, fields in LINE.findall(text)]


def dangers():
    """The names of the dangers of hazards."""
    with open(NAMES, encoding="utf-8") as it:
        return re.findall(r'Danger::\w+ => "([a-z-]+)"', it.read())


def form_of(form, fields, rows):
    """The schema of a member of this form."""
    if form == "Named":
        return {"enum": rows}
    if form == "Objects":
        named = {**{name: {"enum": dangers()} if name == "danger" else TEXT for name in fields}, "words": TEXTS}
        return {"type": "array", "items": {"type": "object", "properties": named, "additionalProperties": False}}
    return FORMS[form]


def firsts(name):
    """The names of rows in a list of ANSWERS; none of no list."""
    with open(ANSWERS, encoding="utf-8") as it:
        found = re.search(rf"^static {name}: [^=]*= \[(.*?)\];", it.read(), re.M | re.S)
    return re.findall(r'"([^"]+)"', found[1]) if found else []


def outcome_of(name, rows, outcomes, table):
    """What an answer with one of these outcomes has to have."""
    named = {row: member for row, member, _, _ in table}
    needed = list(dict.fromkeys(named[row] for row in [*firsts(name), *rows, *outcomes]))
    return {"properties": {"outcome": {"enum": outcomes}}, "required": needed} if outcomes else {"required": needed}


def answer_of(table):
    """The schema of an answer to one line."""
    forms = {name: form_of(form, fields, [row for row, other, _, _ in table if other == name]) for _, name, form, fields in table}
    properties = {name: said(OWN[name], form) if name in OWN else form for name, form in forms.items()}
    known = [outcome_of(*it, table) for it in OUTCOMES]
    return {"type": "object", "properties": properties, "anyOf": known, "additionalProperties": ROWS}


def side_of(answer):
    """The schema of what one of two lines has and the other has not."""
    lists = ("options", "key", "asked", "keep")
    known = {**answer["properties"], "asked": ROWS}
    return {"type": "object", "properties": {it: known[it] for it in ("file", "outcome", *lists)}, "required": list(lists)}


def document_of(title, members):
    """The schema of a document."""
    return {"title": title, "type": "object", "properties": {"version": NUMBER, **members}, "required": ["version", *members]}


def schema_of(text):
    """The schema of the table's text."""
    answer = answer_of(members(text))
    return {
        "$schema": "https://json-schema.org/draft/2020-12/schema",
        "title": "A line of scl --json",
        "anyOf": [{"$ref": "#/$defs/answer"}, *[document_of(*it) for it in DOCUMENTS]],
        "$defs": {
            "answer": answer,
            "side": side_of(answer),
            "pair": {"type": "object", "properties": PAIR, "required": list(PAIR)},
            "hazards": answer["properties"]["hazards"],
            "text": {
                "anyOf": [
                    {"type": "string"},
                    {"type": "object", "properties": {"hex": {"type": "string", "pattern": "^([0-9a-f]{2})*$"}}, "required": ["hex"], "additionalProperties": False},
                ]
            },
        },
    }


def page(_):
    """The lines of docs/scl.schema.json."""
    with open(TABLE, encoding="utf-8") as it:
        return json.dumps(schema_of(it.read()), indent=2).split("\n")


def is_of(value, kind):
    return isinstance(value, KINDS[kind]) and not (kind == "integer" and isinstance(value, bool))


def breaches(value, schema, whole, where="the object"):
    """What of a value is not as the schema says, in words: of the words of JSON Schema those that this schema has."""
    if "$ref" in schema:
        yield from breaches(value, whole["$defs"][schema["$ref"].rpartition("/")[2]], whole, where)
    tried = [list(breaches(value, it, whole, where)) for it in schema.get("anyOf", [])]
    if tried and all(tried):
        yield f"{where} is of none of the forms that it may have; of the nearest: {'; '.join(min(tried, key=len))}"
    if "enum" in schema and value not in schema["enum"]:
        yield f"{where} is none of {', '.join(schema['enum'])}"
    kinds = schema.get("type", [])
    kinds = [kinds] if isinstance(kinds, str) else kinds
    if kinds and not any(is_of(value, it) for it in kinds):
        yield f"{where} is no {' and no '.join(kinds)}"
    elif isinstance(value, dict):
        yield from member_breaches(value, schema, whole, where)
    elif isinstance(value, list) and "items" in schema:
        for at, item in enumerate(value):
            yield from breaches(item, schema["items"], whole, f"{where}[{at}]")
    elif isinstance(value, str) and not re.search(schema.get("pattern", ""), value):
        yield f"{where} is no text of {schema['pattern']}"


def member_breaches(value, schema, whole, where):
    """What of an object's members is not as the schema says."""
    for name in schema.get("required", []):
        if name not in value:
            yield f"{where} has no {name}"
    others = schema.get("additionalProperties", True)
    for name, member in value.items():
        if name in schema.get("properties", {}):
            yield from breaches(member, schema["properties"][name], whole, name)
        elif others is False:
            yield f"{where} has a member {name}"
        elif others is not True:
            yield from breaches(member, others, whole, name)


def repeated(pairs):
    """An object, whose names have to differ."""
    if len(dict(pairs)) != len(pairs):
        raise ValueError(f"a name stands twice: {[name for name, _ in pairs]}")
    return dict(pairs)


def line_breaches(line, schema):
    """What of a line is not as the schema says."""
    try:
        value = json.loads(line, object_pairs_hook=repeated)
    except ValueError as error:
        return [f"no JSON: {error}"]
    found = list(breaches(value, schema, schema))
    return found if next(iter(value), None) == "version" else [*found, "version is not first"]
