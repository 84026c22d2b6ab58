#!/usr/bin/env -S PYTHONCOERCECLOCALE=0 python3
"""cache.py COMPILER WORD ..: a compiler cache that knows no flag of any compiler. docs/CACHE.md goes through it.

DESCRIBE names the program `describe`, CACHE a folder, made if there is none. CACHE_LOG may name a file, for a line a call: hit, miss, unkept
or given, and why. CACHE_BASES may have base directories, with `:` between them: those of the checkout and the build, so
that keys are one in every checkout. Status: the compiler's; 64: called wrongly; 127: the compiler can't be started. The
first line has a variable so that Python does not change the language of the compiler's messages."""
import hashlib, os, pathlib, re, shutil, stat as kinds, subprocess, sys, tempfile, time
from os.path import abspath, basename, dirname, exists, isabs, isdir, isfile, islink, join, lexists, samefile

VARIABLES, STARTED = os.environb, time.time_ns() - 10**7  # (clocks of file systems are coarse)
COMMAND, STORE = list(map(os.fsencode, sys.argv[1:])), VARIABLES.get(b"CACHE")
COMPILERS = re.compile(rb"(?:^|[-/])(gcc|g\+\+|clang|clang\+\+|cl|clang-cl|diab|tasking)(?:-[0-9.]+)?$")
STRING = rb'"((?:[^"\\\n]|\\.)*)"'
MARKER = re.compile(rb"^#(?:line)? \d+ " + STRING + rb"([ \d]*)$", re.M)  # names the file of the lines below it
LOADED = re.compile(rb"^#pragma GCC pch_preprocess " + STRING, re.M)  # names a precompiled header that was read
OTHER_TEXT = re.compile(rb"^(?![ \t]*$|# \d|#line|#define|#undef)", re.M)  # what is no blank, marker or macro
NUMBER = re.compile(rb"\\x\{?([0-9a-fA-F]+)\}?|\\u00([0-9a-fA-F]{2})|\\([0-7]{1,3})")  # a byte
MARKED = rb'^(#[ \t]*(?:line)?[ \t]*\d+[ \t]*")(.*)'  # the same, as docs/RULES.md has it (Line markers)
RAW = re.compile(rb'^(?!#[ \t]*(?:line)?[ \t]*\d+[ \t]*").*R"', re.M)  # lines below it may look like markers
MACRO = re.compile(rb"-D([^=(]*)(.*)", re.S)  # a word that defines one: its name, and the rest
NAME = re.compile(rb"\w+")
BROUGHT = b"L LL U UL ULL char double float int long short signed unsigned"  # names from macros that compilers define
shown = []  # what each run of the preprocessor wrote
runs = []  # the words of each, with which it is run again after a miss
complaints = []  # what it wrote to standard error
sources = []  # the files that its markers name
names = set()  # the names in these files
leading = []  # the headers that it includes before any other text
stamps = {}  # the files that were read, and how each was then
planned = []  # what the driver would start
made = set()  # the absolute paths of the outputs
rules = set()  # the outputs with rules of make
bases = []  # the directories that are told by number; empty if an object names one of them

class KeepNothing(Exception): "The given words are run, and nothing is kept."
def need(it, why):  # (gives nothing, so that `need(..) or answer` is the answer)
    if not it: raise KeepNothing(os.fsdecode(why))

# ---- 1. Ask. What the answer wants, and is there, goes into the next request
def described(*facts):
    words = [b"word " + escaped(word) for word in COMMAND[1:]]
    settings = [b"setting base " + escaped(it) for it in given_bases()]
    head = [b"compiler " + served_name(COMMAND[0]), b"cwd " + escaped(os.getcwdb())]
    request = b"\n".join([*head, *settings, *facts, *words])
    answer = subprocess.run([VARIABLES[b"DESCRIBE"]], input=request, stdout=subprocess.PIPE).stdout
    rows = [[unescaped(field) for field in line.split(b" ")] for line in answer.splitlines()]
    is_there = {b"file": isfile, b"dir": isdir, b"exists": lexists}
    found = [row[1:] for row in rows if row[0] == b"wants" and row[1] in is_there and is_there[row[1]](row[2])]
    more = [b" ".join([it, escaped(at)]) + (b"\t" + escaped(content(at)) if it == b"file" else b"") for it, at in found]
    return described(*facts, *more) if more else rows
def served_name(path):  # the first on the way of its links, as c++ may be a link to clang++
    if name := COMPILERS.search(path): return name[1]
    file = path if b"/" in path else program_file(path)
    need(islink(file), "the compiler's name")
    return served_name(join(dirname(file), os.readlink(file)))
def escaped(data): return b"".join(b"%c" % it if 0x21 <= it <= 0x7E and it != 0x5C else b"\\x%02x" % it for it in data)
def unescaped(field): return re.sub(rb"\\x(..)", lambda it: bytes([int(it[1], 16)]), field)

# ---- 2. Hash each row and its answer. Of some rows only the name: their fields say what to start, and where to look
def key_of(told_rows, rows):
    named = b"plan", b"run", b"run-else", b"pch"
    whole = [b" ".join(map(escaped, row)) for row in told_rows]
    heads = [row[0] if row[0] in named else it for row, it in zip(told_rows, whole)]
    hashed = ((head, row) for head, row in zip(heads, rows) if counts(row, rows))
    parts = [it for head, row in hashed for it in (head, answer(row, rows) or b"")]
    if any(row[0] == b"pch" and has_header(row) for row in rows):  # (folders are searched in their order)
        parts += [it for row, it in zip(rows, whole) if row[0] in (b"run", b"run-else")]
    return digest_all(parts).hex().encode()
def digest(data): return hashlib.sha256(data).digest()
def digest_all(parts): return digest(b"".join(map(digest, parts)))

# ---- 3. Answer the rows that ask (docs/PROTOCOL.md, A key)
def answer(row, rows):
    match row:
        case [b"is", _, *_] | [b"output", _, _] | [b"output", _, _, b"optional"]: return b""  # (a fact)
        case [b"bases"] | [b"shown", _]: return b""
        case [b"directory"]: return told(directory())
        case [b"compiler"]: return basename(COMMAND[0]) + sum_of_program(program_file(COMMAND[0]))
        case [b"plan", *words]: return plan(words, input_of(rows))
        case [b"env", name]: return b"=" + VARIABLES[name] if name in VARIABLES else b"-"
        case [b"unset", name]: need(name not in VARIABLES, b"set: " + name)
        case [b"file", path]: return need(isfile(path), b"no file: " + path) or read(path)
        case [b"maybe", path]: return b"" if abspath(path) in made else read(path)  # (what it writes, it does not read)
        case [b"regular", path]: note(path)
        case [b"run", *words]: return preprocessed(words, may_fail=any(it[0] == b"run-else" for it in rows))
        case [b"run-else", *words]: return b"-" if shown else preprocessed(words, may_fail=False) + loaded()
        case [b"pch", *fields]: return read_all(precompiled(pairs(fields)))
        case [b"sources"]: return read_all(sources + [input_of(rows)])
        case [b"sources-if-shown", what]: return read_all(sources + [input_of(rows)]) if has(shown, what) else b"-"
        case [b"times"]: return digest_all(b"%s %r" % (told(it), stamp(it)[:2]) for it in sources if isfile(it))
        case [b"refuse-if-shown", what]:
            texts = shown if sources else [*shown, content(input_of(rows))]
            need(not has(map(as_assembled, texts), what), b"shown: " + what)
        case [b"bases-if-beside"]: return all_bases(is_beside([directory(), input_of(rows), *sources]))
        case [b"bases-if-shown", what]: return all_bases(has(map(as_assembled, shown), what))
        case [b"bases-if-planned", what]: return all_bases(has(planned, what))
        case _: raise KeepNothing("a row that is not known")
def counts(row, rows):  # a macro that no source names is neither expanded nor tested
    if row[0] != b"shown": return True
    if not names: names.update(names_in([BROUGHT, *map(content, filter(isfile, [*sources, input_of(rows)]))]))
    others = names_in(MACRO.match(it[1])[2] for it in rows if it[0] == b"shown" and it is not row)
    name = MACRO.match(row[1])[1]
    least = 1 if any(map(needs_sources, rows)) else 3  # the shortest piece of which `##` makes the name
    wanted = {name, *(name[:end] for end in range(least, len(name)))}
    is_named = not wanted.isdisjoint(names | others) or not re.fullmatch(rb"\w+", name)
    return is_named or any(complaints) or any(map(has_header, rows))
def needs_sources(row): return row == [b"sources"] or row[0] == b"sources-if-shown" and has(shown, row[1])
def names_in(texts): return set(NAME.findall(b"\n".join(texts)))
def has_header(row):  # that is precompiled, or may be: what it was made of, no marker names
    is_one = lambda path: isfile(path) or exists(path) and path.endswith((b".gch", b".pch"))
    return row[0] == b"pch" and precompiled(pairs(row[1:])) or row[0] == b"maybe" and is_one(row[1]) and abspath(row[1]) not in made
def pairs(fields): return list(zip(fields[::2], fields[1::2]))
def input_of(rows): return next(row[2] for row in rows if row[:2] == [b"is", b"input"])
def has(texts, pattern): return any(re.search(pattern, text, re.M) for text in texts)
def directory():
    here, named = os.getcwdb(), VARIABLES.get(b"PWD", b"")
    return named if isabs(named) and isdir(named) and samefile(named, here) else here
def plan(words, source):  # what the driver would start, with the bytes of each program and file that it names
    with tempfile.TemporaryDirectory(dir=STORE) as own: ran = quietly([COMMAND[0], b"-###", *words], {b"TMPDIR": own})
    need(not ran.returncode, "the plan fails")
    text = re.sub(re.escape(own) + rb'[^\s"]*', b"", ran.stderr)  # (names of temporary files)
    names = [c_string(quoted) or plain for quoted, plain in re.findall(STRING + rb'|([^\s"]+)', text)]
    names += [it.partition(b"=")[2] for it in names]  # (as in -specs=FILE)
    names += [program_file(it) for it in re.findall(rb'^ "?([^\s"]+)', text, re.M)]  # (a space begins a command)
    beside = {*made, abspath(source)}  # (it is named without its folder too)
    files = sorted({it for it in names if isfile(it) and abspath(it) not in beside}, key=told)
    for path in files: note(path)
    planned.append(text)
    return told_text(text) + b"".join(digest(told(path)) + sum_of_program(path) for path in files)
def preprocessed(words, may_fail):  # what a run writes, also into a file of the cache
    with tempfile.NamedTemporaryFile(dir=STORE) as own:
        ran = quietly([COMMAND[0], *(own.name if word == b"\0" else word for word in words)])
        if ran.returncode: return need(may_fail and not shown, "no run") or b"-"
        shown.append(ran.stdout)
        runs.append([b"/dev/null" if word == b"\0" else word for word in words])
        complaints.append(ran.stderr)
        take_markers(ran.stdout)
        return told_run(ran.stdout) + digest(told_text(unbroken(content(own.name))))
def take_markers(text):  # the flag 1 stands where a file begins that is included
    need(MARKER.search(text) or not text.strip(), "a run hides its sources")
    other = OTHER_TEXT.search(text)
    for marker in MARKER.finditer(text):
        name = c_string(marker[1])
        if name.startswith(b"<") or name.endswith(b"//"): continue  # (it is no file)
        note(name)
        if name not in sources: sources.append(name)
        if b"1" in marker[2].split() and not (other and other.start() < marker.start()): leading.append(name)
def loaded(): return read_all(map(c_string, LOADED.findall(shown[0])))
def precompiled(places):  # where a search can find a precompiled header: files, and folders of files
    of = lambda kind: [name for what, name in places if what == kind]
    headers = leading + of(b"header")
    folders = of(b"folder") + [dirname(it) for it in headers + of(b"beside")]
    folders += [it for name in of(b"variable") for it in VARIABLES.get(name, b"").split(b":")]
    # a header a/b/c.h is also looked for as b/c.h and c.h
    tails = {header.split(b"/", count)[-1] for header in headers for count in range(header.count(b"/") + 1)}
    paths = {join(it, tail) + b".gch" for it in folders for tail in tails} | {it + b".gch" for it in headers + sources}
    paths |= {join(it, name) for it in paths if isdir(it) for name in os.listdir(it)}
    return sorted((it for it in paths if exists(it) and abspath(it) not in made), key=told)
def c_string(text):  # what a string of C stands for
    return re.sub(rb"\\([0-7]{1,3}|.)", lambda it: b"%c" % (int(it[1], 8) & 255) if it[1].isdigit() else it[1], text)
def as_assembled(text):  # strings side by side are joined, and bytes written as numbers are read
    byte = lambda it: b"%c" % (int(it[1] or it[2] or it[3], 8 if it[3] else 16) & 255)
    return NUMBER.sub(byte, re.sub(rb'"\s*"', b"", text))
def read_all(paths): return digest_all(it for path in paths for it in (told(path), read(path)))
def read(path):
    note(path)
    return b"=" + content(path) if isfile(path) else b"/" if isdir(path) else b"-"
def note(path):  # a pipe or a device can be read once only, and /dev/stdin may be a file
    is_usual = isfile(path) or isdir(path) or not exists(path)
    need(is_usual and not re.match(rb"/+(dev|proc)/", abspath(path)), b"no regular file: " + path)
    if not isdir(path) and abspath(path) not in made: stamps.setdefault(path, stamp(path))
def sum_of_program(path):  # and of its libraries
    need(path, "no program")
    return b"".join(map(sum_of, [path, *re.findall(rb"=> (/\S+)", quietly([b"ldd", path]).stdout)]))
def sum_of(path):  # remembered by the file's stamp
    known = join(STORE, digest(repr((path, stamp(path))).encode()).hex().encode())
    if (sum := stored(known)) is None: write(known, sum := digest(content(path)))
    return sum

# ---- A path below base N is told as NUL, `<baseN>` and the rest (docs/PROTOCOL.md, A key in every checkout)
def given_bases(): return [it.rstrip(b"/\\") for it in VARIABLES.get(b"CACHE_BASES", b"").split(b":") if it]
def number_of(base): return b"\0<base%d>" % bases.index(base)
def fits(base, path, end=rb"[/\\]|\Z"):  # by whole components
    return base and path.startswith(base) and re.match(end, path[len(base) :])
def told(path, **end):  # by the longest base
    base = max((it for it in bases if fits(it, path, **end)), key=len, default=b"")
    return (number_of(base) if base else b"") + path[len(base) :].replace(b"\0", b"\0\0") if bases else path
def told_text(text):  # no byte of a name stands before a base, but a flag like -I or the end of a colour may
    known = b"|".join(re.escape(it) for it in sorted(bases, key=len, reverse=True) if it)
    before = rb"""\x1b\[[\d;]*[mK]|(?<=["'\s]-[A-Z])|(?<![\w.+@~/\x80-\xff-])"""
    whole = rb"(%s)(%s)(?![\w.+@~\x80-\xff-])" % (before, known)
    return re.sub(whole, lambda it: it[1] + number_of(it[2]), text.replace(b"\0", b"\0\0")) if known else text
def unbroken(text):  # where rules of make have ends of lines depends on the lengths of names
    return re.sub(rb"[ \t]*\\\n[ \t]*", b" ", text) if bases else text
def told_run(text):  # the names in its line markers, up to a raw string
    if not bases: return text
    raw = RAW.search(text)
    until = raw.start() if raw else len(text)
    name = lambda it: it[1] + told(it[2], end=rb'["/]|\\\\')
    return re.sub(MARKED, name, text[:until], flags=re.M) + text[until:]
def is_told(messages, texts):  # no base is left within a word, and no message may quote one from a source
    if any(it and it in told_text(text) for it in bases for text in [messages, *texts]): return False
    return told_text(messages) == messages or not any(it in content(path) for it in bases for path in sources if isfile(path))
def put_back(text):
    number = lambda it: bases[int(it[1])] if it[1] else b"\0"
    return re.sub(rb"\0(?:\0|<base(\d+)>)", number, text) if bases else text
def all_bases(are_named): return digest_all(bases) if are_named else b"-"
def is_beside(paths): return any(it and path.startswith(it) and not fits(it, path) for it in bases for path in paths)

# ---- 4. A miss: compile, and keep what came if all that was read is as it was, and last changed before the start
def compile_and_keep(entry, rows, outputs):
    before = {path: stamp(path) for path in outputs}
    built, given = [row[1] for row in rows if row[0] == b"arg"], [b"key", b"is", b"run-words", b"given"]
    words = next((row[4:] for row in rows if row[:4] == given), built)
    ran = subprocess.run([COMMAND[0], *words], capture_output=True)
    sys.stdout.buffer.write(ran.stdout)
    show(ran.stderr, rows)
    written = [path for path in outputs if stamp(path) not in (None, before[path])]
    is_whole = not ran.returncode and not ran.stdout and all(path in written or outputs[path] for path in outputs)
    is_kept = is_whole and all(stamp(path) == was and (not was or was[3] < STARTED) for path, was in stamps.items())
    is_kept = is_kept and all(quietly([COMMAND[0], *words]).stdout == text for words, text in zip(runs, shown))
    is_kept = is_kept and is_told(ran.stderr, [content(path) for path in written if path in rules])
    texts = [it for path in written for it in (told(path), told_text(content(path)) if path in rules else content(path))]
    if is_kept: keep(entry, [told_text(ran.stderr), *texts])
    log("miss" if is_kept else "unkept", entry[-64:].decode())
    return ran.returncode
def keep(entry, parts):
    try: write(entry, digest(all := packed(parts)) + all)
    except OSError: pass  # the store may be full: the next call is a miss again
def packed(parts): return b"".join(b"%d:%s" % (len(it), it) for it in parts)  # each after its length
def write(path, data):  # by another name first, so that nobody sees a part; a link is replaced, not followed
    part = b"%s.%d" % (path, os.getpid())
    try:
        with open(part, "xb") as file: file.write(data)
        os.replace(part, path)
    finally:
        if exists(part): os.remove(part)
def show(messages, rows):  # built commands force colours
    is_plain = not sys.stderr.isatty() and [b"color", b"on"] not in rows
    sys.stderr.buffer.write(re.sub(rb"\x1b\[[\d;]*[mK]", b"", messages) if is_plain else messages)

# ---- 5. A hit: put back what was kept. What is no whole entry is a miss
def restore(entry, rows, outputs):
    kept = stored(entry) or b""
    if digest(kept[32:]) != kept[:32]: return False
    messages, *others = unpacked(kept[32:])
    files = dict(pairs(others))
    for path, text in ((path, files[told(path)]) for path in outputs if told(path) in files):
        write(path, put_back(text) if path in rules else text)
    show(put_back(messages), rows)
    log("hit", entry[-64:].decode())
    return True
def unpacked(text):
    size, colon, rest = text.partition(b":")
    return [rest[: int(size)], *unpacked(rest[int(size) :])] if colon else []

# ---- the store: a folder of one's own. What another owner, a link, a pipe or a device may bring is not read
def stored(path):  # None: there is nothing
    try: file = os.open(path, os.O_RDONLY | os.O_NOFOLLOW | os.O_NONBLOCK)
    except FileNotFoundError: return None
    except OSError: raise KeepNothing("no own file: " + os.fsdecode(path)) from None
    with open(file, "rb") as it:
        need(is_own(os.fstat(file), kinds.S_ISREG), b"no own file: " + path)
        return it.read()
def is_own(it, is_kind): return is_kind(it.st_mode) and it.st_uid == os.geteuid()
def has_store():  # that others may not write
    try: os.makedirs(abspath(STORE), 0o700)
    except FileExistsError: pass
    except OSError: return False
    it = os.lstat(abspath(STORE))
    return is_own(it, kinds.S_ISDIR) and not it.st_mode & 0o022

# ---- tools
def content(path): return pathlib.Path(os.fsdecode(path)).read_bytes()
def stamp(path):  # size and times; None: there is nothing
    it = os.stat(path) if exists(path) else None
    return it and (it.st_size, it.st_mtime_ns, it.st_ino, it.st_ctime_ns)
def is_alone(path):  # a link would be replaced, where a compiler writes through it
    return not lexists(path) or isfile(path) and not islink(path) and os.stat(path).st_nlink == 1
def program_file(name): return os.fsencode(shutil.which(name) or b"")
def quietly(words, more={}):
    return subprocess.run(words, stdin=subprocess.DEVNULL, capture_output=True, env={**VARIABLES, **more})
def log(what, why):  # (names may be in any encoding)
    with open(VARIABLES.get(b"CACHE_LOG", os.devnull), "a", errors="surrogateescape") as file:
        print(*(str(it).replace("\n", " ") for it in [what, why, "|", *sys.argv[1:]]), file=file)  # (one line)

# ---- a call
def asked():  # all rows, those of the key as they are told, and these with the directories put back
    rows = described()
    told_key, may = ([row[1:] for row in rows if row[0] == name] for name in (b"key", b"keep"))
    why_not = [*(it for it in may if it != [b"yes"]), *(row[1:] for row in rows if row[0] == b"reason"), [b"no key"]]
    need(told_key and may == [[b"yes"]] and [b"version", b"1"] in rows, b" ".join(why_not[0]))
    bases.extend(given_bases() if told_key[0] == [b"bases"] else [])
    rows = [list(map(put_back, row)) if row[0] == b"key" else row for row in rows]
    key = [row[1:] for row in rows if row[0] == b"key"]
    rules.update(row[2] for row in key if row[:2] == [b"output", b"d"])
    made.update(abspath(row[2]) for row in key if row[0] == b"output")
    return rows, told_key, key
def call():
    rows, told_key, key = asked()
    outputs = {row[2]: row[3:] == [b"optional"] for row in key if row[0] == b"output"}  # whether each may lack
    for path in outputs: need(is_alone(path), b"an output is no file, or has two names: " + path)
    entry = join(STORE, key_of(told_key, key))
    return 0 if restore(entry, rows, outputs) else compile_and_keep(entry, rows, outputs)
def stop(text, status): sys.exit(print(text, file=sys.stderr) or status)

def main():
    if COMMAND[:1] in ([b"--help"], [b"-h"]): sys.exit(print(__doc__))
    if not COMMAND or b"DESCRIBE" not in VARIABLES or not STORE: stop(__doc__, 64)
    if not has_store(): stop(f"cache.py: {os.fsdecode(STORE)}: no folder of your own that only you may write", 64)
    try: sys.exit(call())
    except (KeepNothing, OSError, ValueError) as why:  # (a ValueError: a word has a NUL, which only a file can have)
        log("given", why)  # what can't be written, the compiler says in its words
    try: os.execvp(COMMAND[0], COMMAND)
    except OSError as error: stop(f"cache.py: {sys.argv[1]}: {error.strerror}", 127)

if __name__ == "__main__": main()
