"""Parts of pages by hand that other files say: tables, what `scl` writes, and programs. bench/pages puts them in their places."""
import itertools
import os
import re

import schema

HELP, DESCRIBE, HEADER = "crates/scl_help/src/parts.rt", "crates/describe/src/main.rt", "capi/scl.h"
MEMBERS = "crates/scl_json/src/members.rt"
COMMANDS, FIRST = "tests/rows/pages.txt", "bindings/expected/first.txt"
REQUESTS = "tests/rows/requests.txt"
SHOWN = re.compile(r"    \$ (scl .*?)(?:  +#.*)?$")
SENT = re.compile(r"    \$ printf '(.*)' \| (describe|ccline)$")
PROGRAM = re.compile(r"(( *)<!-- (\S+)(?: (\w+))? -->\n\n)(?:(?: {4}.*)?\n)*")


def read(path):
    with open(path, encoding="utf-8") as it:
        return it.read()


# ---- tables


def text_of(path, pattern):
    """What a pattern finds in a file, on one line."""
    found = re.search(pattern, read(path), re.S)
    if not found:
        raise ValueError(f"{path} has no {pattern}")
    return " ".join(found[1].split())


def numbered(text, between):
    """What a text says of each number: `0 answered; 1 ..`, with this between them."""
    return {int(number): said for number, _, said in (it.partition(" ") for it in re.split(rf"{between} (?=\d+ )", text))}


def statuses():
    """What the programs' help and the header say of each status."""
    scl = numbered(text_of(HELP, r"Statuses: (.*?)\.\n"), ";")
    describe = numbered(text_of(DESCRIBE, r'statuses: (.*?)\n"'), ",")
    named = re.findall(r"(SCL_\w+) = (\d+),? /\* (.*?) \*/", text_of(HEADER, r"enum scl_status \{(.*?)\};"))
    calls = {int(number): f"`{name}`: {said}" for name, number, said in named}
    numbers = sorted(scl.keys() | describe.keys() | calls.keys())
    return [[str(it), scl.get(it, ""), describe.get(it, ""), calls.get(it, "")] for it in numbers]


def noted(path):
    """The rows of a table that a file of trials has as lines `#: CELL | CELL`; the last cell may be empty."""
    return [re.split(r" \| ?", line[3:]) for line in read(path).splitlines() if line.startswith("#: ")]


def members(page):
    """The rows of a page whose members of JSON have a name of their own, or are objects: row, member, and what it is."""
    said = re.findall(r"/// (.*)\.\n    (\w+),", re.search(r"enum Form \{(.*?)\n\}", read(MEMBERS), re.S)[1])
    forms = {form: text[:1].lower() + text[1:] for text, form in said}
    named = set(re.findall(r"`([a-z-]+)[ `]", page))
    rows = []
    for row, name, form, fields in schema.members(read(MEMBERS)):
        if row in named and (name != row.replace("-", "_") or form == "Objects"):
            rows.append([f"`{row}`", f"`{name}`", forms[form] + (f", with {', '.join(f'`{it}`' for it in fields)}" if fields else "")])
    return rows


# ---- what programs write


def answers_of_scl():
    """What `scl` writes to the command lines of tests/rows/pages.txt, in a folder /w."""
    answers, lines = {}, []
    for line in read(COMMANDS).replace("<HERE>", "/w").splitlines():
        if line.startswith("$ "):
            answers[line[2:]] = lines = []
        elif line.startswith(("> ", "! ")):
            lines.append(line[2:])
    return answers


def answers_to_requests():
    """What `describe` and `ccline` write to the requests of tests/rows/requests.txt, by the rows."""
    return {request: said.removesuffix("|").split("|") for request, said in (it.split(" => ") for it in read(REQUESTS).splitlines() if " => " in it)}


def row_of(text, program):
    """The row of a request that `printf` is given: `\\n` ends a line, and `\\\\` is a backslash."""
    request = re.sub(r"\\(.)", lambda it: "|" if it[1] == "n" else it[1], text)
    return f"{program}: {request}"


def written():
    """What stands after a line of a page that shows a command: by the rows, and by what the examples `first` write."""
    commands, requests, first = answers_of_scl(), answers_to_requests(), read(FIRST).splitlines()

    def after(line, following):
        if line.startswith("    $ ") and following.startswith("    run: ") and "| head" not in line:
            return first
        shown, sent = SHOWN.match(line), SENT.match(line)
        return commands.get(shown[1], []) if shown else requests.get(row_of(*sent.groups()), []) if sent else []

    return after


def answered(page):
    """A page with what programs write after the command lines and requests that have a row, and after those of the examples `first`."""
    after, lines, is_old = written(), [], False
    for line, following in itertools.pairwise([*page.split("\n"), ""]):
        is_old = is_old and line.startswith("    ") and not line.startswith("    $ ")
        if not is_old:
            lines.append(line)
        said = after(line, following)
        lines += [f"    {it}" for it in said]
        is_old = is_old or bool(said)
    return "\n".join(lines)


# ---- programs


def program(path, name, indent):
    """A program's lines, or those of the function or static that has this name."""
    text = read(path).rstrip("\n")
    if name:
        text = re.search(rf"^def {name}\(.*(?:\n .*)+|^static {name}: .*(?:\n .*)+\n\];", text, re.M)[0]
    return "".join(f"{indent}    {it}".rstrip() + "\n" for it in text.split("\n"))


def with_programs(page):
    """A page with the programs that comments name, as `<!-- examples/first.rattle -->`."""
    return PROGRAM.sub(lambda it: f"{it[1]}{program(it[3], it[4], it[2])}\n" if os.path.isfile(it[3]) else it[0], page)


def with_parts(page):
    return answered(with_programs(page))
