#!/usr/bin/env -S PYTHONCOERCECLOCALE=0 python3
"""lookup.py COMPILER WORD ..: a compiler cache that answers questions, and knows no rule of a key.
The program DESCRIBE asks them (docs/PROTOCOL.md), and then names an entry. CACHE is a folder that
only its owner may enter, made if there is none; clear it after an update of DESCRIBE. CACHE_LOG may
name a file, for a line a call: hit, direct, miss, unkept or given, and why. Status: the compiler's;
64: it is called wrongly; 127: the compiler can't start. The first line keeps LC_CTYPE as it was."""
import hashlib, os, pathlib, re, shutil, signal, stat, subprocess, sys, tempfile, time, zlib
from contextlib import suppress
from os.path import abspath, dirname, exists, isdir, isfile, islink, join, lexists, realpath, split

COMPILER = re.compile(rb"(?:^|[-/])(gcc|g\+\+|clang|clang\+\+)(?:-[0-9.]+)?$")
WHY_NOT = b"cannot-cache not-compilation too-many-words keep given refused".split()
ESCAPES = [chr(it) if it in range(33, 127) and it != 92 else f"\\x{it:02x}" for it in range(256)]
HELD = b"file", b"names", b"real", b"times"  # what is asked once more after a compilation
WANTED = {b"=": [b"file", b"exists"], b"/": [b"dir", b"exists"], b"-": [None]}  # of what is there

class KeepNothing(Exception): "The given words are run, and nothing is kept."
def need(it, why):
    if not it: raise KeepNothing(os.fsdecode(why))
    return it
def stop(text, status): sys.exit(print(text, file=sys.stderr) or status)

# ---- bytes
def digest(data): return hashlib.sha256(data).hexdigest().encode()
def unescaped(field): return re.sub(rb"\\x(..)", lambda it: b"%c" % int(it[1], 16), field)
def line(*them): return b" ".join(it.decode("latin-1").translate(ESCAPES).encode() for it in them)
def packed(parts): return b"".join(b"%d:%b" % (len(it), it) for it in parts)
def unpacked(data):
    parts, at = [], 0
    while at < len(data):
        colon = data.index(b":", at)
        at = colon + 1 + int(data[at:colon])
        parts.append(data[colon + 1 : at])
    return parts

# ---- files and programs
def content(path): return pathlib.Path(os.fsdecode(path)).read_bytes()
def stamp(path):  # None: there is nothing
    it = os.stat(path) if exists(path) else None
    return it and (it.st_size, it.st_mtime_ns, it.st_dev, it.st_ino, it.st_ctime_ns)
def way(path, most=40):  # a name, and each one that its links lead to
    here = join(realpath(dirname(path)), split(path)[1])
    if not most or not islink(here): return [here]
    return [here, *way(join(dirname(here), os.readlink(here)), most - 1)]
def is_own(it, is_kind): return is_kind(it.st_mode) and it.st_uid == os.geteuid()
def is_usual(path):  # compilers write through links, and some leave a file its mode
    os.umask(mask := os.umask(0o077))
    usual = stat.S_IFREG | 0o666 & ~mask, 1, os.geteuid()
    it = os.lstat(path) if lexists(path) else None
    return not it or (it.st_mode, it.st_nlink, it.st_uid) == usual
def write(path, data):  # elsewhere first, so that nobody sees a part
    with tempfile.TemporaryDirectory(dir=dirname(path) or b".") as folder:
        with open(join(folder, b"part"), "xb") as file: file.write(data)
        os.replace(join(folder, b"part"), path)
def start(words, given=b"", more={}):
    return subprocess.run(words, input=given, env={**os.environb, **more}, capture_output=True)

class Store:  # a folder of one's own, with entries that begin with their sum
    def __init__(self, at):
        self.at = abspath(at)
        with suppress(FileExistsError): os.makedirs(self.at, 0o700)
        is_private = is_own(it := os.lstat(self.at), stat.S_ISDIR) and not it.st_mode & 0o077
        if not is_private: stop(f"lookup.py: {os.fsdecode(self.at)}: not yours alone", 64)
    def get(self, name):  # None: there is none, or a broken one
        if not lexists(path := join(self.at, name)): return None
        with open(os.open(path, os.O_RDONLY | os.O_NOFOLLOW | os.O_NONBLOCK), "rb") as file:
            need(is_own(os.fstat(file.fileno()), stat.S_ISREG), b"no own file: " + path)
            sum, data = file.read(64), file.read()
        return data if digest(data) == sum else None
    def put(self, name, data): return write(join(self.at, name), digest(data) + data) or data

class Machine:  # answers questions, and remembers the answers, and how each file was that it read
    def __init__(self, command, store):
        self.command, self.store, self.answers, self.stamps = command, store, {}, {}
        self.start = time.time_ns() - 10**7  # (clocks of file systems are coarse)
    def answer(self, *question):
        if question not in self.answers: self.answers[question] = self.look(*question)
        return self.answers[question]
    def look(self, *question):  # the fields of an answer
        match question:
            case b"env", name: return [os.environb[name]] if name in os.environb else []
            case b"program", name: return self.program(name or self.command[0])
            case b"file", path: return [self.standing(path)]
            case b"bytes", path: return [self.note(path) and content(path)] if isfile(path) else []
            case b"names", path: return sorted(os.listdir(path))
            case b"real", path: return [realpath(path)]
            case b"times", path: return [b"%d %d" % self.note(path)[:2]]
            case b"run", language, *words: return self.run(language, words)
        raise KeepNothing("a question that is not known")
    def standing(self, path):
        if not exists(path): return b"-"
        if isdir(path): return b"/"
        if any(re.match(rb"/(proc|dev(?!/shm/))/", it) for it in way(path)): return b"!"
        return b"=" + self.sum(path) if isfile(path) else b"!"
    def note(self, path):  # how it was when it was first looked at
        return self.stamps.setdefault(path, need(stamp(path), b"no file: " + path))
    def sum(self, path):  # of a large file that is older than 2 seconds it is remembered
        was = self.note(path)
        if was[0] < 2**20 or self.start - was[-1] < 2 * 10**9: return digest(content(path))
        known = b"sum-" + digest(b"%b %r" % (path, was))
        return self.store.get(known) or self.store.put(known, digest(content(path)))
    def program(self, name):  # with its libraries
        if not (path := shutil.which(name)): return []
        paths = [path, *re.findall(rb"(?:=> |^\t)(/.*) \(0x", start([b"ldd", path]).stdout, re.M)]
        return [digest(b"".join(map(self.sum, paths))), name, *way(path)]
    def run(self, language, words):
        with tempfile.TemporaryDirectory(dir=self.store.at) as folder:
            own = join(folder, b"own")
            more = {b"TMPDIR": folder, **({b"LC_ALL": language} if language else {})}
            ran = start([self.command[0], *(own if it == b"\0" else it for it in words)], more=more)
            texts = ran.stdout, ran.stderr, content(own) if exists(own) else b""
        name = re.escape(folder) + rb'[^\s"]*'  # (of a temporary file)
        return [b"%d" % (ran.returncode & 255), *(re.sub(name, b"\0", it) for it in texts)]
    def fact(self, kind, path):  # a line that says what stands there, if that is wanted
        kinds = need(WANTED.get(self.answer(b"file", path)[0][:1]), b"no regular file: " + path)
        text = [line(*self.answer(b"bytes", path))] if kind == b"file" and kind in kinds else []
        return b"\t".join([line(kind, path), *text]) if kind in kinds else None
    def is_old(self):  # what was read has not changed since the start
        return all(stamp(it) == was and was[-1] < self.start for it, was in self.stamps.items())
    def held(self, made):  # what is asked once more, but for what was made
        return [it for it in self.answers if it[0] in HELD and abspath(it[1]) not in made]
    def is_as_before(self, made, is_listed):  # (a list stands for the runs)
        runs = [] if is_listed else [it for it in self.answers if it[:2] == (b"run", b"")]
        same = (self.look(*it) == self.answers[it] for it in [*self.held(made), *runs])
        return all(same) and self.is_old()
    def recalled(self, first):  # the name that a list has whose answers are the same today
        if not (kept := self.store.get(b"list-" + first)): return None
        name, *pairs = unpacked(zlib.decompress(kept))
        with suppress(KeepNothing, OSError):
            same = (self.answer(*unpacked(it)) == unpacked(was) for it, was in map(unpacked, pairs))
            return name if all(same) else None
    def remember(self, first, name, made):  # (it stands for runs in the user's language)
        is_early = lambda it: it[0] in (b"env", b"program") or it[:2] == (b"run", b"C")
        listed = [*filter(is_early, self.answers), *self.held(made)]
        pairs = (packed([packed(it), packed(self.answers[it])]) for it in listed)
        self.store.put(b"list-" + first, zlib.compress(packed([name, *pairs])))

# ---- a call
def rows_of(*lines):
    ran = start([os.environb[b"DESCRIBE"]], b"\n".join([*lines, b""]))
    need(not ran.returncode, "describe fails")
    return [list(map(unescaped, it.split(b" "))) for it in ran.stdout.splitlines()]
def looked_up(machine):  # the rows behind the last answer, and where a list may stand
    names = [it[1] for it in map(COMPILER.search, machine.answer(b"program", b"")[1:]) if it]
    head = [b"lookup", b"setting wants wants", line(b"compiler", need(names, "no known name")[0])]
    head += [line(b"cwd", os.getcwdb()), *(line(b"word", it) for it in machine.command[1:])]
    facts, answers, first = [], [], None
    while True:
        rows = rows_of(*head, *facts, *answers)
        found = [machine.fact(*row[1:]) for row in rows if row[0] == b"wants"]
        asked = [row[1:] for row in rows if row[0] == b"ask"]
        if more := [it for it in found if it and it not in facts]: facts, answers = facts + more, []
        elif not asked: return rows, first
        else:
            first = first or next(row[1] for row in rows if row[0] == b"first")
            name = None if answers else machine.recalled(first)
            if name: return [*rows, [b"name", name]], None
            answers += [line(b"answer", it[0], *machine.answer(*it)) for it in asked]
def show(output, messages, rows):  # built commands force colours
    is_plain = not sys.stderr.isatty() and [b"color", b"auto"] in rows
    messages = re.sub(rb"\x1b\[[\d;]*[mK]", b"", messages) if is_plain else messages
    if output: sys.stdout.buffer.write(output), sys.stdout.flush()
    if messages: sys.stderr.buffer.write(messages), sys.stderr.flush()
def call(machine):  # what is done, why, and the status
    need(None not in (sys.stdin, sys.stdout, sys.stderr), "a standard stream is closed")
    rows, first = looked_up(machine)
    why_not = [b" ".join(it) for it in rows if it[0] in WHY_NOT and it != [b"keep", b"yes"]]
    name = need([row[1] for row in rows if row[0] == b"name"], b", ".join(why_not))[0]
    outputs = {row[3]: row[4:] == [b"optional"] for row in rows if row[:2] == [b"key", b"output"]}
    for path in outputs: need(is_usual(path), b"an output that is no usual file: " + path)
    if not (kept := machine.store.get(name)):
        what, status = compile_and_keep(machine, name, rows, outputs)
    else:
        messages, *files = unpacked(kept)
        for path, data in zip(files, files[len(files) // 2 :]): write(path, data)
        what, status = b"hit" if first else b"direct", show(b"", messages, rows) or 0
    with suppress(OSError):
        is_listed = [b"listed"] in rows and what != b"unkept" and machine.is_old()
        if is_listed: machine.remember(first, name, {*map(abspath, outputs)})
    return what, name, status
def compile_and_keep(machine, name, rows, outputs):
    given = (row[4:] for row in rows if row[:4] == [b"key", b"is", b"run-words", b"given"])
    words = next(given, [row[1] for row in rows if row[0] == b"arg"])
    before = {it: stamp(it) for it in outputs}
    ran = subprocess.run([machine.command[0], *words], capture_output=True)
    show(ran.stdout, ran.stderr, rows)
    written = [it for it in outputs if stamp(it) not in (None, before[it])]
    lacking = [it for it, may_lack in outputs.items() if not may_lack and it not in written]
    with suppress(KeepNothing, OSError, ValueError):
        is_kept = not (ran.returncode or ran.stdout or lacking) and all(map(is_usual, written))
        made, is_listed = {*map(abspath, outputs)}, [b"listed"] in rows
        need(is_kept and machine.is_as_before(made, is_listed), "it may be another then")
        machine.store.put(name, packed([ran.stderr, *written, *map(content, written)]))
        return b"miss", 0
    return b"unkept", ran.returncode

def main():
    command, at = list(map(os.fsencode, sys.argv[1:])), os.environb.get(b"CACHE")
    if command[:1] in ([b"--help"], [b"-h"]): sys.exit(print(__doc__))
    if not command or not at or b"DESCRIBE" not in os.environb: stop(__doc__, 64)
    signal.signal(signal.SIGTERM, lambda it, _: sys.exit(128 + it))  # (its compiler is killed then)
    try: what, why, status = call(Machine(command, Store(at)))
    except Exception as error:  # (whatever fails here, the compiler may not)
        what, why, status = b"given", str(error).encode("utf-8", "surrogateescape"), None
    said, at = b" ".join([what, why, b"|", *command]), os.environb.get(b"CACHE_LOG", b"/dev/null")
    with suppress(OSError), open(at, "ab") as log: log.write(said.replace(b"\n", b" ") + b"\n")
    if status is not None: sys.exit(status if status >= 0 else 128 - status)
    for it in signal.SIGPIPE, signal.SIGXFSZ: signal.signal(it, signal.SIG_DFL)  # (Python: ignored)
    try: os.execvp(command[0], command)
    except OSError as error: stop(f"lookup.py: {sys.argv[1]}: {error.strerror}", 127)

if __name__ == "__main__": main()
