"""docs/EFFECTS.md, of the catalogue's texts: bench/pages writes it."""
import re

TEXT = "catalogue/effects.txt"
SHOWN = 10  # of a list of names that is longer, this many stand on the page
HEADINGS = {
    "reads": ("What is read", "A file on whose bytes the object depends."),
    "loads": ("What is loaded", "A library that becomes a part of the compiler."),
    "writes": ("What is written", "A file beside the outputs that the record names."),
    "asks": ("What is asked of the machine", "The object depends on it."),
}
OF_WORDS = {
    "key": ("What a key answers for", "The first row that fits a word decides. A word that none fits is `exact`: the outcome may have what the preprocessed text does not show."),
    "run": ("What a run of the preprocessor reads", "This is asked of words that are not `plain` above. A word that no row fits is `exact`: a run may read more because of it."),
    "names": ("What the object names", "The first row that fits a word decides. A word that none fits may make the object name anything of the place where it is made."),
    "brings": ("What a word of the preprocessor brings in", "The first row that fits a word decides. A word that none fits is `unknown`: a text may not show what it brings in. `x*` is a flag whose value stands behind it, or in the next word."),
}
INTRODUCTION = """# Effects

A compiler may read, write and ask more than its input, its headers and its object. Some options make it read a profile, write a listing, load a plugin, or look at the processor. A cache that does not
know this gives back the wrong object, or loses a file. So the catalogue says of each option what it does, and which options do nothing of the kind. docs/PROTOCOL.md says which rows come of it, and
when a line may be kept.

This page is made of `catalogue/effects.txt`; catalogue/README.md says how it is written. An option of which it says nothing is *unknown*: what such a line makes is not kept.

How to read a row:

- **File** is the name of the file. `{value}` is the option's value: of an option without a row in the tables, it is what follows the first `=`. `{object}` is the object, `{object-stem}` the same
  without its extension, and `{input-stem}` the input's file name without its extension. `{dump}` is the object's path with the input's extension in place of its own. A name that ends in `*` stands for each
  name that begins so.
- **Options** are the words or flags that do it, by compiler. `x*` begins with x, and `*x*` holds x. A word after *of kind* is a kind of docs/FLAGS.md, in small letters. *Inner* options follow `-Xclang` or `/clang:`.
- *Unless .. follows*: such an option after it undoes it. *With* and *without* say what else has to stand, or must not.

The facts are of gcc 12.2, clang and clang-cl 14.0 and GNU as 2.40. `trials/sweep COMPILER` compiles with each flag that a compiler lists, and compares what it touches with what is said here.
Of 16,163 lines of the three compilers 5,865 compile and may be kept. Each file that one of these read, wrote or looked for is named by a row."""


class Entry:
    """An entry of the text: its verb or kind, its name, its file or what it says of words, its sentence and cases."""

    def __init__(self, verb, name, file):
        self.verb, self.name, self.file, self.says, self.cases = verb, name, file, "", []


def read(path):
    """The groups of a text by name, and its entries."""
    groups, entries = {}, []
    with open(path, encoding="utf-8") as text:
        for line in text.read().splitlines():
            word, _, rest = line.strip().partition(" ")
            if word == "group":
                name, _, tests = rest.partition(":")
                groups[name] = tests.strip()
            elif word == "effect":
                name, verb, file = rest.split(" ")
                entries.append(Entry(verb, name, file))
            elif word == "plain":
                entries.append(Entry("plain", rest, ""))
            elif word in OF_WORDS:
                entries.append(Entry(word, *rest.split(" ")))
            elif word == "says":
                entries[-1].says = rest
            elif word and word != "#":
                entries[-1].cases.append(line.strip())
    return groups, entries


def cut(words, marks="`"):
    """The first of some words, and how many there are more."""
    shown = words if len(words) <= SHOWN + 2 else words[:SHOWN]
    more = f" and {len(words) - len(shown)} more" if len(words) > len(shown) else ""
    return ", ".join(f"{marks}{word}{marks}" for word in shown).replace("|", "\\|") + more


def test_said(text):
    """A test in words: its names, those left out, and what the value must be."""
    first, *demands = [part.strip() for part in text.split(" & ")]
    kind, _, names = first.partition(" ")
    some, _, but = names.partition("!")
    said = "every word that is no option" if kind == "raw" and some.strip() == "*" else cut(some.split())
    said = f"those of kind {cut(some.split())}" if kind == "kind" else said
    said += f" except {cut(but.split())}" if but.split() else ""
    for demand in demands:
        what, _, values = demand.partition(" ")
        some, _, but = values.partition("!")
        said += f" with {'a part' if what == 'part' else 'a value'} {cut(some.split())}" + (f" except {cut(but.split())}" if but.split() else "")
    return said.replace("`\\e`", "nothing")


def group_said(groups, text):
    """A group in words: its tests, one after the other."""
    tests = groups.get(text.strip(), text).split(" | ")
    return "; ".join(test_said(test.strip()) for test in tests)


def condition_said(groups, text):
    """A condition in words, as what it adds to the one before."""
    is_denied, text = text.startswith("not "), text.removeprefix("not ")
    is_inner, text = text.startswith("inner "), text.removeprefix("inner ")
    relation, _, rest = text.partition(" ")
    first, _, second = rest.partition(" > ")
    said = ("inner " if is_inner else "") + group_said(groups, first)
    if relation == "last":
        said += f", unless {group_said(groups, second)} follows"
    return ("without " if is_denied else "") + said


def case_said(groups, text):
    """A case in words: its compilers, and its conditions."""
    served, _, conditions = text.partition(":")
    first, *others = [condition_said(groups, it.strip()) for it in conditions.split(" ; ")]
    others = [it if it.startswith("without ") else f"with {it}" for it in others]
    return f"{served}: {', '.join([first, *others])}"


def table(groups, entries, column):
    """A table of entries; the column has the file, or what is said of words."""
    yield f"| Name | {column} | Options | Why |" if column else "| Name | Options | Why |"
    yield "|---|---|---|---|" if column else "|---|---|---|"
    for it in entries:
        options = "<br>".join(case_said(groups, case) for case in it.cases)
        file = f" | `{it.file}`" if column else ""
        yield f"| {it.name}{file} | {options} | {it.says} |"


def group_named(entry):
    """The group of an entry that has whole names, if it is one."""
    group = entry.cases[0].partition(": any ")[2] if entry.verb == "plain" else ""
    return group if group.endswith("_NAMES") or "_NAMES_" in group else ""


def names(groups, entries):
    """A table of the entries that have whole names: the first few names of each, and how many."""
    yield "| Name | Options | Why |\n|---|---|---|"
    for it in entries:
        yield f"| {it.name} | {it.cases[0].partition(':')[0]}: {group_said(groups, group_named(it))} | {it.says} |"


def page(_):
    """The page."""
    groups, entries = read(TEXT)
    yield INTRODUCTION
    for verb, (heading, sentence) in HEADINGS.items():
        yield f"\n## {heading}\n\n{sentence}\n"
        yield from table(groups, [it for it in entries if it.verb == verb], "" if verb == "asks" else "File")
    yield "\n## What does nothing of the kind\n\nWhat such an option gives or makes is in the record or in the key already, or it is no file at all.\n"
    yield from table(groups, [it for it in entries if it.verb == "plain" and not group_named(it)], "")
    yield "\n## Names that do nothing of the kind\n\nEach of these options is known by its whole name. One of clang or clang-cl counts as an inner option too.\n"
    yield from names(groups, [it for it in entries if group_named(it)])
    for kind, (heading, sentence) in OF_WORDS.items():
        yield f"\n## {heading}\n\n{sentence}\n"
        yield from table(groups, [it for it in entries if it.verb == kind], "What")
