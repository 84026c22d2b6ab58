"""What a compiler's command line asks for, and the command to run in its place: run(text) and describe(text) answer a
request's text, rows(text) takes a description apart, and ask(..) answers words, pairs and files as bytes. All but rows
call libscl.so.1: the file that SCL_LIBRARY names, or the one beside this file, or the one that the loader finds. The built-in
catalogue is read at the first call that asks it, and once a process; a Catalogue is one of your own over it.

    >>> scl.ask(b"gcc", [b"-c", b"a.c"]).command
    [b'-x', b'c', b'-c', b'-o', b'a.o', b'-fdiagnostics-color=always', b'a.c']

They answer as the proved library does; this file, which writes requests and reads rows, is proved by nothing. Rows that it does
not know are passed over; where they may say that nothing is kept, is_cacheable is False."""
from __future__ import annotations

import ctypes as c
import functools
import os
from dataclasses import dataclass, field as _member
from typing import Any, Callable, Dict, Iterable, List, Tuple

PROTOCOL = 1
OK, SHORT, BAD, NO_MEMORY, TOO_MANY_WORDS, NEWER, BAD_CATALOGUE = range(7)
COMPILED, CANNOT_CACHE, NOT_COMPILATION = range(3)
OUTCOMES = {b"ok": COMPILED, b"cannot-cache": CANNOT_CACHE, b"not-compilation": NOT_COMPILATION}
# Rows, and the members that they fill: of a list a word more, of a text, and of a switch.
LISTS = {"dependency": "dependency", "preprocessor": "preprocessor", "common": "common", "arch": "arch", "unhashed": "unhashed",
         "dist": "dist_files", "hash": "hash_files"}
TEXTS = {"input": "input", "compilation-flag": "compilation_flag", "depfile": "depfile", "too-hard": "too_hard"}
SWITCHES = {"double-dash-input": "double_dash_input", "external-assembler": "uses_external_assembler", "show-includes": "show_includes",
            "explicit-language": "explicit_language", "profile-generate": "profile_generate",
            "no-rewrite-includes-only": "suppress_rewrite_includes_only"}
EFFECTS = {"reads": "reads", "writes": "writes", "loads": "loads", "reads-like": "reads_like", "writes-like": "writes_like",
           "loads-like": "loads_like", "asks": "asks"}
QUESTIONS = {"file": "files", "dir": "directories", "exists": "existing"}
# How many fields a row has at most that says what may be kept.
MOST_FIELDS = {"hazard": 1, "cacheable": 1, "output": 3, "environment": 2, "language": 1, "color": 1, **dict.fromkeys([*LISTS, *TEXTS, "arg"], 1),
               **dict.fromkeys(SWITCHES, 0)}
# How many fields a row of a key has at least and at most after its name (docs/PROTOCOL.md, A key).
KEYS = {b"is": (1, None), b"output": (2, 3), b"directory": (0, 0), b"compiler": (0, 0), b"plan": (0, None), b"env": (1, 1), b"unset": (1, 1),
        b"file": (1, 1), b"maybe": (1, 1), b"regular": (1, 1), b"run": (0, None), b"run-else": (0, None), b"pch": (0, None), b"sources": (0, 0),
        b"sources-if-shown": (1, 1), b"times": (0, 0), b"refuse-if-shown": (1, 1), b"bases": (0, 0), b"bases-if-beside": (0, 0),
        b"bases-if-shown": (1, 1), b"bases-if-planned": (1, 1), b"shown": (1, 1)}
# Wishes, and the lines of a request that say them.
SETTINGS = {"is_multiarch": b"multiarch", "may_dist": b"setting may-dist", "rewrite_includes_only": b"setting rewrite-includes-only",
            "cache_mode": b"setting cache-mode", "keep_shown": b"setting keep-shown"}
WISHES = [*SETTINGS, "wants_runs", "wants_questions", "wants_hazards", "wants_options", "wants_key"]


class TooManyWords(Exception):
    """A command line has more words or bytes, or opens files more often, than was allowed."""


class UnknownCompiler(Exception):
    """No served compiler has the name."""


class Newer(Exception):
    """The library does not know a line `setting`, or this file the answer: run the given words, and keep nothing."""


class BadLine(Exception):
    """A line of a request breaks a rule; `number` counts from 1."""

    def __init__(self, number: int) -> None:
        super().__init__(f"bad line {number}")
        self.number = number


class BadCatalogue(BadLine):
    """A line of a catalogue is wrong; `number` is that of the first, from 1."""


@dataclass
class Questions:
    """Paths whose presence could change the answer: of response files, of directories, and of what may exist."""

    files: list[bytes]
    directories: list[bytes]
    existing: list[bytes]


@dataclass
class Lists:
    """The lists of a record."""

    dependency: list[bytes]
    preprocessor: list[bytes]
    common: list[bytes]
    arch: list[bytes]
    unhashed: list[bytes]
    dist_files: list[bytes]
    hash_files: list[bytes]


@dataclass
class Record:
    """What was read. An output has a name, a path, and whether it is optional."""

    language: str
    color: str
    input: bytes
    compilation_flag: bytes
    depfile: bytes | None
    too_hard: bytes | None
    double_dash_input: bool
    uses_external_assembler: bool
    show_includes: bool
    explicit_language: bool
    profile_generate: bool
    suppress_rewrite_includes_only: bool
    outputs: list[tuple[bytes, bytes, bool]]
    lists: Lists


@dataclass
class Answer:
    """An answer. What its outcome does not have is empty, False or None, and so is what was not wished for."""

    outcome: int  # COMPILED, CANNOT_CACHE or NOT_COMPILATION
    at: int | None  # the index of the word that is refused, or by which nothing is compiled
    options: list[list[bytes]]
    questions: Questions
    reason: bytes = b""
    text: bytes | None = None
    sentence: bytes = b""
    command: list[bytes] = _member(default_factory=list)  # the words after the program
    is_cacheable: bool = False
    has_unknown: bool = False  # the answer says more than this file knows of what decides whether a result is kept
    key: list[list[bytes]] = _member(default_factory=list)
    keep: list[list[bytes]] = _member(default_factory=list)
    direct: list[list[bytes]] = _member(default_factory=list)  # with `wants_key`
    reads: list[bytes] = _member(default_factory=list)  # files that options read, write and load beside compiling
    writes: list[bytes] = _member(default_factory=list)
    loads: list[bytes] = _member(default_factory=list)
    reads_like: list[bytes] = _member(default_factory=list)  # the beginnings of names of such files, where more is not known
    writes_like: list[bytes] = _member(default_factory=list)
    loads_like: list[bytes] = _member(default_factory=list)
    asks: list[bytes] = _member(default_factory=list)  # what options ask of the machine: processor, directory
    directory_in_object: bytes | None = None  # with a key and bases: whether the object names one, b"yes", b"no" or b"mapped"
    environment: list[tuple[bytes, bytes]] = _member(default_factory=list)
    record: Record | None = None
    runs: list[list[bytes]] = _member(default_factory=list)
    hazards: list[str] = _member(default_factory=list)


_PLAIN = bytes(it for it in range(0x21, 0x7F) if it != ord("\\"))  # what stands for itself in a field
_PIECE = 1 << 16  # how long a piece of a text is that is mapped
_Pairs = Iterable[Tuple[bytes, bytes]]
_Rows = Dict[str, List[List[bytes]]]  # the fields of each row, by its name


def _library() -> str:
    beside = os.path.join(os.path.dirname(os.path.abspath(__file__)), f"libscl.so.{PROTOCOL}")
    return os.environ.get("SCL_LIBRARY") or (beside if os.path.exists(beside) else f"libscl.so.{PROTOCOL}")


_lib = c.CDLL(_library())
_ROOM: list[Any] = [c.c_char_p, c.c_size_t, c.POINTER(c.c_char), c.c_size_t, c.POINTER(c.c_size_t)]
for _call, _types in ((_lib.scl_run, _ROOM), (_lib.scl_catalogue_describe, [c.c_void_p, *_ROOM]),
                      (_lib.scl_catalogue_new, [c.c_char_p, c.c_size_t, c.c_void_p, c.POINTER(c.c_size_t)])):
    _call.argtypes, _call.restype = _types, c.c_int32
_lib.scl_catalogue_drop.argtypes, _lib.scl_catalogue_drop.restype = [c.c_void_p], None
if _lib.scl_version() != PROTOCOL:
    raise ImportError(f"scl.py is of protocol {PROTOCOL}, and the library of {_lib.scl_version()}")


class _Handle(c.c_void_p):
    """What is freed once nothing refers to it."""

    def __del__(self, drop: Callable[..., None] = _lib.scl_catalogue_drop) -> None:
        if self:
            drop(self)


class Catalogue:
    """A catalogue that is read once: that of a text over the built-in one, or the built-in one alone. Threads may share it. BadCatalogue is
    raised where a line of the text is wrong."""

    def __init__(self, text: bytes = b"") -> None:
        self._handle, wanted = _Handle(), c.c_size_t()
        status = _lib.scl_catalogue_new(text, len(text), c.byref(self._handle), c.byref(wanted))
        if status != OK:
            raise BadCatalogue(wanted.value) if status == BAD_CATALOGUE else MemoryError


@functools.lru_cache(maxsize=None)
def _built_in() -> Catalogue:
    return Catalogue()


def _respond(call: Callable[..., int], request: bytes, *before: Any) -> bytes:
    # (most answers to a short request fit; that to a long text is hardly longer than the text)
    size, wanted = 16384 + min(16 * len(request), len(request) + (1 << 22)), c.c_size_t()
    room = c.create_string_buffer(size)
    while (status := call(*before, request, len(request), room, len(room), c.byref(wanted))) == SHORT:
        room = c.create_string_buffer(wanted.value)
    if status != OK:
        raise {BAD: BadLine(wanted.value), NEWER: Newer(f"line {wanted.value}")}.get(status) or MemoryError
    return c.string_at(room, wanted.value)


def run(request: bytes) -> bytes:
    """The text of the answer to a request's text, both as bytes."""
    return _respond(_lib.scl_run, request)


def describe(request: bytes, catalogue: Catalogue | bytes | None = None) -> bytes:
    """The text of the description of the answer to a request's text, both as bytes, by the built-in catalogue, or by the one that is
    given. The text of one is read in each call."""
    known = Catalogue(catalogue) if isinstance(catalogue, bytes) else catalogue or _built_in()
    return _respond(_lib.scl_catalogue_describe, request, known._handle)


def name(words: Iterable[bytes]) -> tuple[int | None, bytes | None]:
    """Which word of a whole command line, as bytes, is the program: its index, launchers passed over. And the compiler that it is by
    its name. Each is None if there is none."""
    lines = [b"name", *(b"word " + field(it) for it in words), b""]
    try:
        of = dict(rows(describe(b"\n".join(lines))))
    except BadLine:
        raise Newer("line 1") from None
    return int(of[b"program"]) if b"program" in of else None, of.get(b"compiler")


def made_by() -> tuple[bytes, bytes, int]:
    """Which release of the library answers, as b"1.0.0", by the rules of which sccache, as b"0.19.0", and the protocol of its answers."""
    try:
        of = {name: fields for name, *fields in rows(describe(b"made-by\n"))}
    except BadLine:
        raise Newer("line 1") from None
    return of[b"made-by"][0], of[b"rules"][0], int(of[b"version"][0])


def join(runs: Iterable[tuple[bytes, int, bytes, bytes]]) -> tuple[int, bytes, bytes]:
    """Of the preprocessor's runs for several architectures, each with its architecture, its status, its text and its messages: the status,
    the joined text and the messages of all. Each status is from 0 to 2^31 - 1."""
    lines = [b"join", *(b"ran %s\t%d\t%s\t%s" % (field(arch), status, field(text), field(messages)) for arch, status, text, messages in runs), b""]
    try:
        of = dict(rows(describe(b"\n".join(lines))))
    except BadLine as bad:
        raise (Newer("line 1") if bad.number == 1 else ValueError("a status that is no such number")) from None
    return int(of[b"status"]), of[b"text"], of[b"messages"]


def depfile(prefix: bytes, messages: bytes, words: Iterable[bytes], *given: Any, **named: Any) -> tuple[bytes, bytes] | None:
    """The dependency file of clang-cl's words, and the lines of its error output that are shown, if the command has such a file. The lines
    that name files begin with the prefix. What else may be given is as in request, whose settings are not asked."""
    command = [it for it in request(b"clang-cl", words, *given, **named).split(b"\n") if not it.startswith(b"setting ")]
    lines = [b"depfile", b"shown %s\t%s" % (field(prefix), field(messages)), *command]
    try:
        of = {name: fields for name, *fields in rows(describe(b"\n".join(lines)))}
    except BadLine as bad:
        raise (Newer(f"line {bad.number}") if bad.number != 2 else ValueError("a prefix that is not UTF-8")) from None
    if b"too-many-words" in of:
        raise TooManyWords
    if b"not-utf-8" in of:
        raise ValueError("messages that are not UTF-8")
    return (of[b"text"][0], of[b"kept"][0]) if b"text" in of else None


def map(bases: Iterable[bytes], quoting: bytes, text: bytes) -> bytes:
    """What a run of the preprocessor wrote, with the names in its line markers written by their bases. These are absolute and have no NUL.
    The quoting is how the compiler quotes names: b"gcc" or b"clang"."""
    known, mark, mapped, at = [*bases], b"/mark", [], 0
    while mark in text:
        mark += b"-"
    # To take little memory a text goes in pieces of whole lines. A marker stands after each; once it comes back as it was, a line began a raw
    # string, and the rest stays as it is (docs/RULES.md, Line markers).
    last = b'# 1 "%s"' % mark
    while known and 0 <= (end := text.find(b"\n", at + _PIECE)):
        piece = _mapped([*known, mark], quoting, text[at : end + 1] + last)
        is_raw, at = piece.endswith(last), end + 1
        mapped.append(piece[: piece.rindex(b"\n") + 1])
        if is_raw:
            return b"".join([*mapped, text[at:]])
    return b"".join([*mapped, _mapped(known, quoting, text[at:])])


def _mapped(bases: list[bytes], quoting: bytes, text: bytes) -> bytes:
    lines = [b"map", *(b"base " + field(it) for it in bases), b"quoting " + field(quoting), b"text " + field(text), b""]
    try:
        of = dict(rows(describe(b"\n".join(lines))))
    except BadLine as bad:
        raise (Newer("line 1") if bad.number == 1 else ValueError("a base or a quoting that is none")) from None
    return of[b"text"]


def field(it: bytes, plain: bytes = b"") -> bytes:
    """Bytes as they stand in a request or a row; those of `plain` stand for themselves."""
    if not isinstance(it, bytes):
        raise TypeError(f"wanted are bytes, not {it!r}")
    others = it.translate(None, _PLAIN + plain)
    for byte in sorted({*others}, key=lambda byte: byte != ord("\\")):  # (a backslash first, before others bring more)
        it = it.replace(b"%c" % byte, b"\\x%02x" % byte)
    return it


def rows(description: bytes) -> list[list[bytes]]:
    """The rows of a description's text, in order: the fields of each, as bytes, of which the first is its name."""
    return [[_unescaped(field) for field in line.split(b" ")] for line in description.split(b"\n")[:-1]]


def _unescaped(field: bytes) -> bytes:
    # (in a field a backslash begins `\\xHH`, as in a string of Python)
    return field.decode("unicode_escape").encode("latin-1") if b"\\" in field else field


def request(compiler: bytes, words: Iterable[bytes], directory: bytes = b"", environment: _Pairs = (), files: _Pairs = (), directories: Iterable[bytes] = (),
            existing: Iterable[bytes] = (), most_words: int = 0, version: bytes = b"", settings: Iterable[bytes] = (), bases: Iterable[bytes] = (),
            most_bytes: int = 0, **wishes: bool) -> bytes:
    """The text of a request."""
    lines = [b"compiler " + field(compiler), b"cwd " + field(directory)]
    lines += [b"%s %s" % (name, field(it)) for name, them in ((b"word", words), (b"dir", directories), (b"exists", existing)) for it in them]
    lines += [b"%s %s\t%s" % (name, field(key), field(value)) for name, them in ((b"env", environment), (b"file", files)) for key, value in them]
    lines += [line for name, line in SETTINGS.items() if wishes.get(name)]
    lines += [b"setting %s %d" % (name, most) for name, most in ((b"bound", most_words), (b"bytes", most_bytes)) if most]
    lines += [b"setting version " + field(version)] * bool(version)
    lines += [b"setting base " + field(it) for it in bases] + [b"setting " + field(it, b" \\") for it in settings]
    return b"\n".join(lines) + b"\n"


def _text(of: _Rows, name: str) -> bytes | None:
    return of[name][0][0] if name in of else None


def _words(of: _Rows, name: str) -> list[bytes]:
    return [fields[0] for fields in of.get(name, [])]


def _record(of: _Rows) -> Record:
    texts: dict[str, Any] = {member: _text(of, row) for row, member in TEXTS.items()}
    switches: dict[str, Any] = {member: row in of for row, member in SWITCHES.items()}
    return Record(
        language=(_text(of, "language") or b"").decode(), color=(_text(of, "color") or b"").decode(), **texts, **switches,
        outputs=[(name, path, bool(rest)) for name, path, *rest in of.get("output", [])],
        lists=Lists(**{member: _words(of, row) for row, member in LISTS.items()}))


def _is_known_key(name: bytes = b"", *fields: bytes) -> bool:
    least, most = KEYS.get(name, (1, 0))
    return least <= len(fields) <= (len(fields) if most is None else most)


def _is_known_keep(what: bytes = b"", *fields: bytes) -> bool:
    return (what, len(fields)) in ((b"no", 2), (b"unknown", 1))


def _answer(outcome: int, of: _Rows, wishes: dict[str, Any]) -> Answer:
    wanted = {row: of.get(row, []) if wishes.get(f"wants_{row}s") else [] for row in ("run", "hazard", "option")}
    asked = {row: [it[1] for it in of.get("wants", []) if it[0] == row.encode()] if wishes.get("wants_questions") else [] for row in QUESTIONS}
    at = _text(of, "at")
    answer = Answer(outcome, None if at is None else int(at), wanted["option"], Questions(**{member: asked[row] for row, member in QUESTIONS.items()}))
    if outcome != COMPILED:
        answer.reason, answer.text, answer.sentence = _text(of, "reason") or b"", _text(of, "because"), _text(of, "sentence") or b""
        return answer
    answer.keep = [it for it in of.get("keep", []) if it != [b"yes"]]
    if wishes.get("wants_key"):
        answer.key, answer.direct, answer.directory_in_object = of.get("key", []), of.get("direct", []), _text(of, "directory-in-object")
    has_unknown = any(len(fields) > MOST_FIELDS.get(name, len(fields)) for name, them in of.items() for fields in them)
    answer.has_unknown = has_unknown or not all(_is_known_key(*it) for it in answer.key) or not all(_is_known_keep(*it) for it in answer.keep)
    answer.is_cacheable = _text(of, "cacheable") == b"yes" and not answer.has_unknown and not answer.keep
    answer.command, answer.environment, answer.record = _words(of, "arg"), [(key, value) for key, value, *_ in of.get("environment", [])], _record(of)
    answer.runs, answer.hazards = wanted["run"], [it[0].decode() for it in wanted["hazard"]]
    for row, member in EFFECTS.items():
        setattr(answer, member, _words(of, row))
    return answer


def ask(compiler: bytes, words: Iterable[bytes], *given: Any, catalogue: Catalogue | bytes | None = None, **named: Any) -> Answer:
    """The answer to the words after a program; request says what else may be given. Words, paths and names are bytes, environment
    and files pairs of bytes, and most_words limits words, and how often files are opened: 0 is 1,000,000. most_bytes limits
    bytes (docs/RULES.md, Expansion): 0 is 67,108,864. Wishes are those of scl_request: is_multiarch, wants_runs, may_dist,
    rewrite_includes_only, cache_mode, wants_questions, wants_hazards, wants_options, wants_key and keep_shown. A catalogue is one that
    was read, or the text of one, which is read in each call."""
    try:
        text = describe(request(compiler, words, *given, **named), catalogue)
    except BadCatalogue:
        raise
    except BadLine as bad:
        raise UnknownCompiler(compiler) if bad.number == 1 else Newer(f"line {bad.number}") from None
    (first, *_), *others = rows(text)
    of: _Rows = {}
    for name, *fields in others:
        of.setdefault(name.decode(errors="replace"), []).append(fields)
    if first == b"too-many-words":
        raise TooManyWords
    if first not in OUTCOMES or _text(of, "version") != b"%d" % PROTOCOL:
        raise Newer("the answer")
    return _answer(OUTCOMES[first], of, named)
