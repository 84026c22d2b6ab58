"""random_requests.py CCLINE DESCRIBE TOLD N SEED: N random requests, with files, an environment and settings. What the programs
ccline and describe answer must be, byte for byte, what scl.run and scl.describe give; what the structs of scl.h (by TOLD, of
told.c) and scl.ask tell must be the rows of describe. It wants scl.py on PYTHONPATH and SCL_LIBRARY. Prints how many were answered
how; the status is 1 where two answers differ."""
import random
import subprocess
import sys
import tracemalloc
from collections import Counter

import scl

COMPILERS = [b"gcc", b"g++", b"clang", b"clang++", b"cl", b"clang-cl", b"diab", b"tasking"]
WORDS = [b"-c", b"-o", b"a.o", b"a.c", b"b.cc", b"-O2", b"-MD", b"-MF", b"x.d", b"-I", b"inc", b"-D", b"X=1", b"-x", b"c++", b"@r", b"@s",
         b"-g", b"-Wall", b"-E", b"-arch", b"arm64", b"-fPIC", b"-include", b"p.h", b"-Xclang", b"-fmodules", b"-Wp,-MD,y.d", b"-S",
         b"--coverage", b"-gsplit-dwarf", b"/c", b"/Foq.obj", b"/Zi", b"/Fdz.pdb", b"/FS", b"--", b"-", b"", b"\xff\x00\n", b"-isystem",
         b"-fprofile-generate", b"-Xpreprocessor", b"-MT", b"t", b"-MMD", b"-fdebug-prefix-map=a=b", b"-fprofile-use=p", b"-clang:-MD"]
FILES = [(b"/w/r", b"-DQ -O1"), (b"/w/s", b"@r '-DS=a b' -MT\n"), (b"/w/b", b"\xff\xfe\x00")]
VARIABLES = [(b"CL", b"/DZ"), (b"_CL_", b"/O2 \xff"), (b"LANG", b"C"), (b"A B", b"")]
WANTED = [b"run", b"keep", b"key", b"hazard", b"option", b"wants", b"input"]
BASES = [b"/w", b"/w///", b"/w/p", b"/of others", b"/"]
VERSIONS = [b"14.0.6", b"12", b"9.3", b"clang version 15.0.7", b"\xce\xbb"]


def request_of(chance):
    """What is asked, as scl.request takes it."""
    name = chance.choice(COMPILERS)
    words = [b"/c" if name.endswith(b"cl") else b"-c"] * (chance.random() < 0.8) + [b"a.c"] * (chance.random() < 0.7)
    words += chance.choices(WORDS, k=chance.randrange(8))
    chance.shuffle(words)
    named = {"environment": chance.sample(VARIABLES, chance.randrange(3)), "files": chance.sample(FILES, chance.randrange(4)),
             "existing": [b"/w/z.pdb"] * (chance.random() < 0.5), "directories": [b"/w/p"] * (chance.random() < 0.5),
             "version": chance.choice(VERSIONS) if chance.random() < 0.5 else b"", "most_words": chance.choice([0, 0, 0, 1000, 4]),
             "most_bytes": chance.choice([0, 0, 0, 1000, 40]),
             "bases": chance.choices(BASES, k=chance.choice([0, 0, 1, 2])),
             "settings": [b"wants " + it for it in chance.sample(WANTED, chance.choice([0, 0, 1, 2]))]}
    return name, words, {**named, **{it: chance.random() < 0.3 for it in scl.SETTINGS}}


def rows_in(text):
    """The rows of a description, by their names: the fields of each."""
    rows = {}
    for name, *fields in scl.rows(text):
        rows.setdefault(name.decode(), []).append(fields)
    return rows


def record_rows(record):
    """The rows of a record, by what scl.ask gives."""
    rows = {name: [[word] for word in getattr(record.lists, of)] for name, of in scl.LISTS.items()}
    rows.update({name: [[]] if getattr(record, of) else [] for name, of in scl.SWITCHES.items()})
    rows.update({name: [] if getattr(record, of) is None else [[getattr(record, of)]] for name, of in scl.TEXTS.items()})
    rows["output"] = [[name, path] + [b"optional"] * is_optional for name, path, is_optional in record.outputs]
    rows["language"], rows["color"] = [[record.language.encode()]], [[record.color.encode()]]
    return rows


def rows_of(answer):
    """What the rows of a description must be, by what scl.ask gives."""
    rows = record_rows(answer.record) if answer.outcome == scl.COMPILED else {}
    if answer.outcome == scl.COMPILED:
        rows.update({"run": answer.runs, "environment": [list(pair) for pair in answer.environment], "hazard": [[it.encode()] for it in answer.hazards],
                     "arg": [[it] for it in answer.command], "cacheable": [[b"yes" if answer.is_cacheable else b"no"]],
                     "key": answer.key, "keep": answer.keep, "direct": answer.direct,
                     "directory-in-object": [] if answer.directory_in_object is None else [[answer.directory_in_object]]})
        rows.update({name: [[it] for it in getattr(answer, of)] for name, of in scl.EFFECTS.items()})
    if answer.outcome == scl.CANNOT_CACHE:
        rows.update({"reason": [[answer.reason]], "because": [] if answer.text is None else [[answer.text]], "sentence": [[answer.sentence]]})
    kinds = {"file": answer.questions.files, "dir": answer.questions.directories, "exists": answer.questions.existing}
    rows["wants"] = [[kind.encode(), path] for kind, paths in kinds.items() for path in paths]
    return {**rows, "option": answer.options, "at": [] if answer.at is None else [[b"%d" % answer.at]]}


def differs(request, name, told, said):
    sys.exit(f"random_requests: {name} differs: {request!r}: {told!r}, {said!r}")


def check_ask(name, words, named, said):
    """scl.ask gives the rows of describe; gives how it is answered."""
    try:
        answer = scl.ask(name, words, b"/w", **named, wants_runs=True, wants_questions=True, wants_hazards=True, wants_options=True, wants_key=True)
    except scl.TooManyWords:
        if "too-many-words" not in said:
            differs(named, "too-many-words", True, said)
        return "of too many words"
    for row, told in rows_of(answer).items():
        if told != said.get(row, []):
            differs((name, words, named), row, told, said.get(row))
    return ("compiled", "cannot cache", "no compilation")[answer.outcome]


def check_told(request, told, said):
    """The structs have the rows of describe, all but the version's and the line that says why nothing is cached."""
    told, said = rows_in(told), {name: of for name, of in said.items() if name not in ("version", "cannot-cache")}
    if said.pop("too-many-words", None):
        said = {"status": [[b"4"]]}
    if told != said:
        differs(request, "told", told, said)


def answers(program, requests):
    """What a program answers to many requests, each ended by a line `end`."""
    ran = subprocess.run(program, input=b"".join(it + b"end\n" for it in requests), stdout=subprocess.PIPE, check=True).stdout
    return [it + b"\n" for it in ran.split(b"\nend\n")[:-1]]


def kept_rows(said):
    """The rows of a description, with `cacheable` as the rows `keep` have it."""
    rows = rows_in(said)
    kept = [it for it in rows.pop("keep", []) if it != [b"yes"]]
    return {**rows, "keep": kept, "cacheable": [[b"no"]]} if kept else rows


def main(ccline, describe, told, count, seed):
    chance, kinds, hazards = random.Random(seed), Counter(), 0
    asked = [request_of(chance) for _ in range(count)]
    requests = [scl.request(name, words, b"/w", **named) for name, words, named in asked]
    # (what a struct wishes for is a switch, and the program told sets them all)
    whole = [b"".join(it for it in request.splitlines(keepends=True) if not it.startswith(b"setting wants ")) for request in requests]
    for request, said, structs in zip(whole, answers([describe, "--batch"], whole), answers([told], whole), strict=True):
        check_told(request, structs, kept_rows(said))
    for (name, words, named), request, said in zip(asked, requests, answers([describe, "--batch"], requests), strict=True):
        plain = b"".join(it for it in request.splitlines(keepends=True) if not it.startswith(b"setting "))
        ran = subprocess.run([ccline], input=plain, stdout=subprocess.PIPE, check=True).stdout
        if scl.run(plain) != ran:
            differs(plain, "scl_run", scl.run(plain), ran)
        if scl.describe(request) != said:
            differs(request, "scl_describe", scl.describe(request), said)
        rows = kept_rows(said)
        kinds[check_ask(name, words, named, rows)] += 1
        hazards += len(rows.get("hazard", []))
    counts = ", ".join(f"{number} {kind}" for kind, number in sorted(kinds.items()))
    print(f"{count} random requests: the calls, the structs, ccline and describe agree: {counts}; {hazards} hazards")


def raises(error, call, *given, **named):
    try:
        call(*given, **named)
    except error as it:
        return it
    sys.exit(f"random_requests: {call.__name__}{given} does not raise {error.__name__}")


def errors():
    """What is no answer: each is reported as itself. And a description is taken apart."""
    raises(scl.UnknownCompiler, scl.ask, b"rustc", [b"-c", b"a.c"])
    raises(scl.TooManyWords, scl.ask, b"gcc", [b"-c", b"@f"], files=[(b"f", b"a b c")], most_words=3)
    raises(scl.TooManyWords, scl.ask, b"gcc", [b"-c", b"@f"], files=[(b"f", b"a" + b" " * 9)], most_bytes=9)
    # (the limits where none is given: a million words, as many openings, and 64 MiB)
    nothing = [(b"%d" % at, b"@%d @%d" % (at + 1, at + 1)) for at in range(19)]
    scl.ask(b"gcc", [b"-c", b"@f"], files=[(b"f", b"a " * 999_999)])
    raises(scl.TooManyWords, scl.ask, b"gcc", [b"-c", b"@f"], files=[(b"f", b"a " * 1_000_000)])
    raises(scl.TooManyWords, scl.ask, b"gcc", [b"-c", b"a.c", b"@0"], files=[*nothing, (b"19", b"")])
    raises(scl.TooManyWords, scl.ask, b"gcc", [b"-c", b"a.c"] + [b"@f"] * 1025, files=[(b"f", b" " * 65536)])
    raises(scl.BadLine, scl.run, b"compiler gcc\nword \xff\n")
    raises(scl.BadLine, scl.run, b"word -c\n")
    raises(scl.Newer, scl.ask, b"gcc", [b"-c", b"a.c"], settings=[b"what-none-knows"])
    raises(scl.Newer, scl.describe, b"compiler gcc\nsetting what-none-knows 1\n")
    raises(scl.Newer, scl.ask, b"gcc", [b"-c", b"a.c"], settings=[b"wants what-none-knows"])
    raises(scl.Newer, scl.ask, b"gcc", [b"-c", b"a.c"], settings=[b"bound 9\nword -E"])
    for words, named in (([b"ccache", b"gcc-12", b"-c"], (1, b"gcc")), ([b"rustc"], (0, None)), ([b"env", b"A=b"], (None, None))):
        if scl.name(words) != named:
            sys.exit(f"random_requests: {words} are named {scl.name(words)}")
    release, rules, protocol = scl.made_by()
    if scl.describe(b"made-by\n") != b"made-by %s\nrules %s\nversion %d\n" % (release, rules, protocol) or protocol != scl.PROTOCOL:
        sys.exit(f"random_requests: the library is made by {release}, {rules}, {protocol}")
    if scl.join([(b"a", 0, b"x", b"m"), (b"b", 0, b"", b"n")]) != (0, b"#pragma sccache arch a 1\nx\n#pragma sccache arch b 1\n\n", b"mn"):
        sys.exit("random_requests: joined runs have another text")
    raises(ValueError, scl.join, [(b"a", -1, b"", b"")])
    words = [b"-c", b"x.c", b"-depsx.d"]
    if scl.depfile(b"N: ", b"N: a\nb\n", words) != (b"x.obj: x.c a \nx.c:\na:\n", b"b\n") or scl.depfile(b"N: ", b"\xff", words[:2]) is not None:
        sys.exit("random_requests: a dependency file has another text")
    if scl.depfile(b"N: ", b"b\n", words, most_words=1, most_bytes=1) != (b"x.obj: x.c \nx.c:\n", b"b\n"):
        sys.exit("random_requests: a dependency file has a setting")
    raises(ValueError, scl.depfile, b"N: ", b"\xff", words)
    raises(ValueError, scl.depfile, b"\xff", b"", words)
    if raises(scl.BadCatalogue, scl.ask, b"gcc", [b"-c", b"a.c"], catalogue=b"# one\n\nwhat is this\n").number != 3:
        sys.exit("random_requests: a catalogue's wrong line has another number")
    two_targets = [b"-c", b"a.c", b"-MD", b"-MT", b"x", b"-MT", b"y"]
    of_built_in = scl.ask(b"gcc", two_targets, wants_hazards=True).hazards
    own = scl.Catalogue(b"hazard of-ones-own object\n  says It is one's own.\n  gcc: input a.c\n")
    for catalogue, wanted in ((b"# none\n", of_built_in), (scl.Catalogue(), of_built_in), (own, ["of-ones-own", *of_built_in]), (own, ["of-ones-own", *of_built_in])):
        if not of_built_in or scl.ask(b"gcc", two_targets, catalogue=catalogue, wants_hazards=True).hazards != wanted:
            sys.exit("random_requests: a catalogue over the built-in one knows other hazards")
    if raises(scl.BadCatalogue, scl.Catalogue, b"?").number != 1:
        sys.exit("random_requests: a catalogue of a wrong line has another number")
    if scl.rows(b"ok\na  \\x20\\x5cb\n") != [[b"ok"], [b"a", b"", b" \\b"]]:
        sys.exit("random_requests: rows are taken apart differently")


def maps():
    """A long text is mapped in pieces as at once, with at most three times its bytes."""
    lines = [b'# %d "/w/%d.h" 1\n    if (a) { return "\\n"; }\n' % (at, at) for at in range(60_000)]
    for raw in (b"", b'# 1 "/w/R\"(x.h"\n', b'char *a = R"(\n'):
        text = b"".join([*lines[:40_000], raw, *lines[40_000:]])
        tracemalloc.start()
        mapped = scl.map([b"/w"], b"gcc", text)
        _, most = tracemalloc.get_traced_memory()
        tracemalloc.stop()
        if most > 3 * len(text):
            sys.exit(f"random_requests: to map {len(text)} bytes takes {most}")
        until = text.index(raw) if raw.endswith(b"(\n") else len(text)
        if mapped != text[:until].replace(b'"/w/', b'"\0<base0>/') + text[until:]:
            sys.exit(f"random_requests: a text with {raw} is mapped differently")


if __name__ == "__main__":
    errors()
    maps()
    main(*sys.argv[1:4], int(sys.argv[4]), int(sys.argv[5]))
