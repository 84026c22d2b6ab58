"""The page of clauses: of each public call what it requires and ensures, and what these clauses stand on outside specs/.

An entry of the page is a line with a name, and after it, indented, a line for each clause, which goes on in lines indented further."""
import re
import textwrap

from outline import Source

HEAD = """\
The clauses of each public call, and what they stand on. bench/pages writes this page from crates/*/src, and
bench/pages --check compares: so a clause that is weakened, dropped or added is a line of a change, to be read as such.

An entry is

  - a public call of a library, by its public path: its signature, and all that it requires and ensures
  - a method of an impl of a trait that has clauses of its own, which stand in place of the trait's
  - an impl, a trait or a type with ghost members: what its values are in clauses, what its methods give, what holds of it
  - a function with clauses of a program
  - what a library re-exports of another, by its public path

`by` names the definitions in specs/ that an entry cites, and the ghost members are cited by their names. Names of std are
left out. bench/doc prints a call with what its comment says, and with the definitions.
"""
WIDTH = 116
USE = re.compile(r"ghost use Rattle\.(.+)")


def names_of(use):
    """The names that a `ghost use` brings in, each with the definition that it is, as `scl_text.Records.parsed_of`; none of std's."""
    path, opened, names = use.partition(".{")
    brought = [it.strip() for it in names.strip("} ").split(",")] if opened else [""]
    for it in brought if not path.startswith("std.") else ():
        whole, _, name = f"{path}.{it}".rstrip(".").partition(" as ")
        yield name or whole.rsplit(".", 1)[-1], whole.replace(".specs.", ".", 1)


def is_cited(name, text, words):
    return name in words if "◌" not in name else all(it in text for it in name.split("◌"))


class Entry:
    """An entry: its name, and its clauses in the order of the source, each as what it is and its text."""

    def __init__(self, name, said, uses):
        self.name, self.said = name, said
        text = " ".join(said.values())
        words = set(re.findall(r"[^\W\d]\w*'*", text))
        cited = sorted({whole for use in uses for name, whole in names_of(use) if is_cited(name, text, words)})
        if cited:
            self.said["by"] = ", ".join(cited)

    def lines(self):
        yield self.name
        for what, text in self.said.items():
            yield from textwrap.wrap(f"{what} {text}", WIDTH, initial_indent=" " * 4, subsequent_indent=" " * 8, break_long_words=False, break_on_hyphens=False)


def uses_among(items):
    return [it[1] for it in (USE.match(item.head) for item in items if item.kind == "ghost") if it]


def tidy(head):
    return head.replace("( ", "(").replace(", )", ")")


def clauses_of(function):
    """The signature of a function, and its clauses."""
    said = {"fn": tidy(function.head).partition("fn ")[2]}
    for clause in function.clauses:
        what, _, text = clause.partition(" {")
        said[what] = f"{{{text}"
    return said


def ghosts_of(item):
    """The ghost members of an impl, a trait or a type."""
    said = {}
    for member in item.members:
        if member.kind == "ghost" and member.name != "use":
            what, sign, text = re.match(r"((?:pub )?ghost \w+) ?([:=]) ?(.*)", member.head).groups()
            said[what] = f"{sign} {text}"
    return said


def entries_of(module, calls, of_program):
    """The entries of a file, in its order: `calls` has the paths of public calls by their lines."""
    place = "::".join([module.crate.name, *module.path])

    def walk(items, uses, owner):
        uses = [*uses_among(items), *uses]
        for item in items:
            if item.kind == "fn":
                of_impl = owner is not None and owner.kind == "impl" and " for " in owner.head
                if item.line in calls:
                    yield Entry(f"{module.crate.name}::{calls[item.line]}", clauses_of(item), uses)
                elif item.clauses and of_impl:
                    yield Entry(f"{place}: {tidy(owner.head)}: {item.name}", clauses_of(item), uses)
                elif item.clauses and of_program:
                    yield Entry(f"{place}::{item.name}", clauses_of(item), uses)
                continue
            ghosts = ghosts_of(item)
            if ghosts:
                yield Entry(f"{place}: {tidy(item.head)}", ghosts, [*uses_among(item.members), *uses])
            yield from walk(item.members, uses, item)

    return walk(Source(module.text).items, [], None)


def page(crates, calls_of):
    """The lines of the page."""
    lines = [*HEAD.split("\n")]
    for crate in crates:
        calls = calls_of(crate) if crate.is_library else []
        if crate.is_library and not calls:
            continue
        by_module = {}
        for path, module, line in calls:
            by_module.setdefault(module, {})[line] = path
        entries = [it for _, module in sorted(crate.modules.items()) for it in entries_of(module, by_module.get(module, {}), not crate.is_library)]
        others = {path: whole for path, _, whole in crate.exported()[1]} if crate.is_library else {}
        entries += [Entry(f"{crate.name}::{path}", {"is": others[path]}, []) for path in sorted(others)]
        for entry in entries:
            lines += [*entry.lines(), ""]
    return lines[:-1]


def read(text):
    """The entries of a page: of each name what it says, by what it is."""
    entries, said, what = {}, None, ""
    for line in text.split("\n"):
        if line.startswith(" " * 8) and said is not None and what:
            said[what] += f" {line.strip()}"
        elif line.startswith("    ") and said is not None:
            what = re.match(r" +((?:requires|ensures)\*?(?: \w+)?(?= \{)|(?:pub )?ghost \w+|\w+) ?", line)
            said[what[1]] = line[what.end() :]
            what = what[1]
        elif line and not line.startswith(" "):
            said, what = entries.setdefault(line, {}), ""
    return {name: said for name, said in entries.items() if said}


def beginning(text):
    return text if len(text) <= 100 else f"{text[:98]}.."


def around(old, new):
    """Where two texts differ, each with some words around."""
    same = next((at for at, pair in enumerate(zip(old, new)) if pair[0] != pair[1]), min(len(old), len(new)))
    begin = max(0, same - 30)
    old, new = (f"{'..' if begin else ''}{it[begin : same + 60]}{'..' if len(it) > same + 60 else ''}" for it in (old, new))
    return f"was {old}, is {new}"


def differences(old, new):
    """What one page says differently from another, a text for each clause; of what an entry cites only where its clauses are the same."""
    old, new = read(old), read(new)
    for name in [*old, *(it for it in new if it not in old)]:
        if name not in new or name not in old:
            yield f"{name} is {'gone' if name in old else 'added'}"
            continue
        differ = [it for it in dict.fromkeys([*old[name], *new[name]]) if old[name].get(it) != new[name].get(it)]
        for what in [it for it in differ if it != "by"] or differ:
            before, after = old[name].get(what), new[name].get(what)
            if before is None or after is None:
                yield f"{name}: `{what}` is {'gone' if after is None else 'added'}: {beginning(before or after)}"
            else:
                yield f"{name}: `{what}` differs: {around(before, after)}"
