"""Reads a source of a crate as far as its contracts go: its functions with their clauses, and what stands outside their bodies.

A brace, a quote or `//` in a text, a letter or a comment is none of the language's."""
import re

TOKEN = re.compile(
    r"""(?P<comment>//[^\n]*|/\*.*?\*/)
      | (?P<text>b?r(?P<marks>\#*)".*?"(?P=marks) | b?"(?:[^"\\]|\\.)*" | b?'(?:\\'|\\[^\n']+|[^'\\\n])')
      | (?P<word>[^\W\d]\w*'*)
      | (?P<space>\s+)
      | .""",
    re.S | re.X,
)
OPENS, CLOSES = {"(": ")", "[": "]", "{": "}"}, {")", "]", "}"}
CLAUSE = re.compile(r"(?:(?:requires|ensures)\*?(?: \w+)?|ghost \w+ ?:)$")
BEFORE = re.compile(r'(?:pub(?: ?\([^)]*\))? )?(?:(?:(?:const|unsafe|final|extern "C") )+(?=(?:fn|impl|trait)\b))?')
BLOCKS = {"impl", "trait", "mod"}
TYPES = {"struct", "enum", "union"}


class Item:
    """An item: its kind, which is the word that it begins with; its name; its text up to its clauses, its block or its end; of a
    function its clauses; of a block its items, of a type its ghost fields; and the number of its line, from 0."""

    def __init__(self, kind, head, line):
        self.kind, self.head, self.line = kind, head, line
        name = re.match(rf"{BEFORE.pattern}{re.escape(kind)} (\w+)", head)
        self.name = name[1] if name else ""
        self.clauses, self.members = [], []
        # its lines with the attributes and comments before it, to which the checker may point
        self.first, self.last = line, line


class Function:
    """A function of a source: its name, whether its value can be a constant's, its lines from 1, and what the checker may write before
    its name: the type, or the type and the trait."""

    def __init__(self, item, owners):
        self.name, self.first, self.last, self.owners = item.name, item.first + 1, item.last + 1, owners
        self.is_const = re.search(r"\bconst .*?\bfn\b", item.head) is not None


def without_brackets(text):
    """The text without what stands between < and >, of which `->` is none."""
    kept, depth = [], 0
    for at, byte in enumerate(text):
        depth += (byte == "<") - (byte == ">" and text[at - 1] != "-")
        if not depth and byte != ">":
            kept.append(byte)
    return "".join(kept)


def owners_of(block):
    """What the checker writes for a block before the names of its functions: of an impl the type, with the trait after it; of a trait its name."""
    if block.kind != "impl":
        return {block.name}
    head = without_brackets(block.head).partition("impl")[2].partition(" where ")[0]
    names = [re.split(r"::|[& ]", it.strip())[-1] for it in reversed(head.split(" for "))]
    return {"".join(names)}


class Source:
    """A source, by its tokens: its items, its code and its outline."""

    def __init__(self, text):
        self.tokens = [(it.lastgroup, it[0]) for it in TOKEN.finditer(text)]
        self.lines, at = [], 0
        for _, token in self.tokens:
            self.lines.append(at)
            at += token.count("\n")
        self.ends = self.pairs()
        self.left_out = set()
        self.items = self.items_of(0, len(self.tokens))

    def pairs(self):
        """Where each bracket that is opened is closed."""
        ends, open_ones = {}, []
        for at, (kind, token) in enumerate(self.tokens):
            if kind is None and token in OPENS:
                open_ones.append(at)
            elif kind is None and token in CLOSES and open_ones and OPENS[self.tokens[open_ones[-1]][1]] == token:
                ends[open_ones.pop()] = at
        return {**ends, **{at: len(self.tokens) - 1 for at in open_ones}}

    def said(self, begin, end):
        """The text of these tokens, without comments, and with one space for what separates them."""
        return self.text_of(range(begin, end)).strip()

    def text_of(self, numbers):
        kept = []
        for kind, token in (self.tokens[it] for it in numbers):
            if kind not in ("space", "comment"):
                kept.append(token)
            elif not kept or kept[-1] != " ":
                kept.append(" ")
        return "".join(kept)

    def begins(self, at, end):
        """Where the next item begins: after spaces, comments and attributes; of these, those that steer proofs are left out."""
        while at < end:
            kind, token = self.tokens[at]
            if kind in ("space", "comment"):
                at += 1
            elif token == "#":
                closed = self.ends[next(it for it in range(at, end) if self.tokens[it][1] == "[")]
                if re.match(r"#!? ?\[ ?tactic\b", self.said(at, closed)):
                    self.left_out |= set(range(at, closed + 1))
                at = closed + 1
            else:
                break
        return at

    def items_of(self, at, end):
        items = []
        before, at = at, self.begins(at, end)
        while at < end:
            item, after = self.item(at, end)
            item.first = min(item.line, self.lines[before] + 1)
            items.append(item)
            before, at = after, self.begins(after, end)
        return items

    def item(self, begin, end):
        """The item that begins here, and where it ends."""
        kind = self.kind_of(begin, end)
        if kind == "fn":
            return self.function(begin, end)
        has_block = kind in BLOCKS | TYPES | {"macro_rules", "!"}
        at = begin
        while at < end:
            token = self.tokens[at][1] if self.tokens[at][0] is None else ""
            if token == ";":
                break
            if token == "{" and has_block:
                item = Item(kind, self.said(begin, at), self.lines[begin])
                item.members = self.members(kind, at + 1, self.ends[at])
                return item, self.ends[at] + 1
            at = self.ends.get(at, at) + 1
        return Item(kind, self.said(begin, at), self.lines[begin]), at + 1

    def kind_of(self, begin, end):
        """The word that says what an item is; `!` for one that a macro makes."""
        head = self.said(begin, min(end, begin + 40))
        word = re.match(r"\w+", head[BEFORE.match(head).end() :])
        called = re.match(r"(?:\w+::)*\w+ ?!", head)
        return "!" if called and word[0] != "macro_rules" else word[0] if word else ""

    def function(self, begin, end):
        item, at, since = None, begin, begin
        while at < end:
            token = self.tokens[at][1] if self.tokens[at][0] is None else ""
            if token in (";", "{"):
                before = self.said(since, at)
                clause = CLAUSE.search(before) if token == "{" else None
                head = before[: clause.start()].strip() if clause else before
                item = item or Item("fn", head, self.lines[begin])
                if token == "{":
                    closed = self.ends[at]
                    if clause:
                        item.clauses.append(f"{clause[0]} {self.said(at, closed + 1)}")
                        at, since = closed + 1, closed + 1
                        continue
                    self.left_out |= set(range(at + 1, closed))
                    at = closed
                item.last = self.lines[at]
                return item, at + 1
            at = self.ends.get(at, at) + 1
        return item or Item("fn", self.said(begin, end), self.lines[begin]), end

    def members(self, kind, begin, end):
        """The items of a block, and the ghost fields of a type."""
        if kind in BLOCKS:
            return self.items_of(begin, end)
        found = []
        for at in range(begin, end) if kind in TYPES else ():
            if self.tokens[at] == ("word", "ghost"):
                opened = next((it for it in range(at, end) if self.tokens[it][1] == "{"), None)
                if opened:
                    found.append(Item("ghost", self.said(at, self.ends[opened] + 1), self.lines[at]))
        return found

    def functions(self):
        """The functions of the file and of its blocks."""
        found = [Function(it, {""}) for it in self.items if it.kind == "fn"]
        for block in self.items:
            if block.kind in BLOCKS:
                found += [Function(it, owners_of(block)) for it in block.members if it.kind == "fn"]
        return found

    def code(self):
        """The text without comments."""
        return self.said(0, len(self.tokens))

    def outline(self):
        """The text without comments, bodies and what steers proofs."""
        return self.text_of(it for it in range(len(self.tokens)) if it not in self.left_out)
