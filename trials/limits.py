#!/usr/bin/env python3
"""Tries hazards with the compilers of this machine: runs command lines as they are given and as `describe` builds them, in
fresh folders of one name, and compares every file that they write, and standard output.

usage: trials/limits.py DESCRIBE [--compiler NAME] [ROW ..]            tries rows of docs/LIMITS.md, all without rows
       trials/limits.py DESCRIBE [--compiler NAME] --random N [SEED]   tries N random command lines

DESCRIBE is the path of the program `describe`. It needs gcc 12 and clang 14; for clang-cl, where there is none of this name,
it calls clang --driver-mode=cl. What is no difference: the time in an object of clang-cl.

NAME is another compiler, as gcc-11 or clang-19: only it is tried, also for C++ and, of clang, as clang-cl, and `describe` gets
its version. A row then says what was seen with gcc 12 and clang 14; commands that come out the same have not to be named.

Of a row it says whether each command differs as the row says, and whether `describe` names the row's hazard. Of random lines it
counts those that differ, and those of them without a hazard; those that come out the same, and those of them with one. It
prints both kinds. Lines that neither command compiles are passed over. A hazard counts as none there if it is only of messages, or
does not compare the built command with the given one.

Status 0: all is as the page says, and no random line differs without a hazard; 1: not so; 64: called wrongly, or
a compiler is not there.
"""
import os
import random
import re
import shlex
import shutil
import subprocess
import sys
import tempfile
from dataclasses import dataclass, field

DOCS = os.path.join(os.path.dirname(os.path.realpath(__file__)), "..", "docs", "LIMITS.md")

SOURCE = "int main(void) { return 0; }\n"

# A source in which most differences show: of definitions, headers, languages, standards and libraries.
RICH = """\
#define TEXT(x) #x
#define TEXT_OF(x) TEXT(x)
extern const char text[], x[];
const char text[] = "??=", x[] = TEXT_OF(X);
int size = sizeof('a');
#ifdef A_FIRST
int a_first;
#endif
#if __has_include(<q.h>)
#include <q.h>
int q = Q;
#endif
#if defined __cplusplus && __has_include(<cstddef>)
#include <cstddef>
#ifdef _LIBCPP_VERSION
int libcxx;
#endif
#endif
int main(void) { return sizeof(text); }
"""

# What stands in the folder of each run, beside the files of the row.
FILES = {
    **dict.fromkeys([".c", "a.c", "a.b.c", "a.cc", "a.cu", "a.hip", "b.c", "sub/a.c", "@y.c", "sub/@w.c", "\u00e9.c"], SOURCE),
    **dict.fromkeys(["a.h", "a.hh", "a.hp", "a.HPP", "a.h++", "a.tcc"], "#ifndef B\n#define A_FIRST 1\n#endif\n"),
    **dict.fromkeys(["a.S", "a.sx", "c.s"], "#define ONE 1\n.globl x\nx: .long ONE\n"),
    **dict.fromkeys(["x.c"], "#ifdef X\nint x;\n#endif\n"),
    **dict.fromkeys(["r.c", "r.cc", "r.m", "sub/r.c"], RICH),
    "a.cppm": "export module a;\n",
    "a.rs": "",
    "b.h": "#define B 1\n",
    "p.h": "static int p(void) { return 1; }\n",
    "in/q.h": "#define Q 1\n",
    "on/q.h": "#define Q 2\n",
    "a.s": ".globl x\nx: .long 1\n",
    "d.c": "const char *s = X;\n",
    "n.c": "#ifdef A_FIRST\nint a_first;\n#else\nint b_first;\n#endif\n",
    "o.c": "@class A;\n",
    "q.c": "#include <q.h>\nint q = Q;\n",
    "s.c": "int size = sizeof('a');\n",
    "t.c": 'char x[] = "??=";\n',
    "u.c": "int main(void) { return p(); }\n",
    "v.hip": "static __attribute__((device)) int v = 3;\nint *p() { return &v; }\n",
    "v.cc": "#include <vector>\nint main() { return std::vector<int>{1}.size() - 1; }\n",
    **dict.fromkeys(["w.o", "y.o"], "b.o -pipe"),
}

# What random lines are of.
COMPILERS = ["gcc", "g++", "clang", "clang++", "clang-cl"]

# The words that a compiler is called by, and the versions that `describe` gets.
PROGRAMS = {"clang-cl": [["clang-cl"], ["clang-cl-14"], ["clang", "--driver-mode=cl"]]}
VERSIONS = {}

# How the names of objects end.
OBJECTS = (".o", ".obj", ".s", ".gch", ".pcm", ".ast")

# When each file of a folder was changed.
TIME = 1_000_000_000

# What is said where a compiler takes neither command, as one of another version may.
NEITHER = "neither compiles"

# What an object of clang-cl begins with; its time follows, in four bytes.
OBJECT_MARK = b"\x64\x86"


@dataclass
class Line:
    """A command line: what is run before it, and what `describe` gets beside it."""

    compiler: str
    words: list
    files: dict = field(default_factory=dict)
    environment: dict = field(default_factory=dict)
    before: list = None


@dataclass
class Row:
    """A row of docs/LIMITS.md."""

    number: int
    hazard: str
    lines: list
    said: str


@dataclass
class Answer:
    """What `describe` says of a line: the built words, if there are any, its hazards, outputs and runs of the preprocessor."""

    words: list
    hazards: list
    outputs: list
    runs: list


@dataclass
class Run:
    """What a command did: its status, and the files that are new, with standard output among them."""

    status: int
    made: dict


# ---- the page


def bytes_of(text):
    """The bytes of a text in which `<0C>` stands for the byte 0C."""
    parts = re.split(r"<([0-9A-F]{2}(?: [0-9A-F]{2})*)>", text)
    return b"".join(bytes.fromhex(part) if at % 2 else part.encode() for at, part in enumerate(parts))


def line_of(compiler, words, beside):
    """The command line of a compiler, with what stands beside it, as ", `r`: `a.c`, after `-c b.c`"."""
    line = Line(compiler, shlex.split(words))
    for name, text in re.findall(r", `([^`]*)`: `([^`]*)`", beside):
        (line.environment if name.isupper() else line.files)[name] = bytes_of(text)
    before = re.search(r", after `([^`]*)`", beside)
    line.before = shlex.split(before[1]) if before else None
    return line


def lines_of(cell):
    """The command lines of a cell: a compiler's name holds for those after it, and those before are of gcc and clang."""
    lines, compilers = [], ["gcc", "clang"]
    for names, words, beside in re.findall(r"(?:^|; )([a-z+, -]*?) ?`([^`]*)`((?:, (?:after )?`[^`]*`(?:: `[^`]*`)?)*)", cell):
        compilers = names.split(", ") if names else compilers
        lines += [line_of(compiler, words, beside) for compiler in compilers]
    return lines


def rows_of(text):
    """The rows of the page. A row without a name has that of the row above."""
    rows, hazard = [], ""
    for number, name, given, said in re.findall(r"^\| (\d+) \| (?:([\w-]+) )?\| (.*?) \| (.*?) \| .*\|$", text, re.M):
        hazard = name or hazard
        rows.append(Row(int(number), hazard, lines_of(given), said))
    return rows


# ---- the program


def escaped(data):
    """The field of a request that says these bytes."""
    return "".join(chr(byte) if 0x21 <= byte <= 0x7E and byte != 0x5C else f"\\x{byte:02x}" for byte in data)


def unescaped(text):
    return text.encode().decode("unicode_escape").encode("latin-1")


def headers_beside(line):
    """The precompiled headers that the command before makes beside a file that the line names."""
    made = line.before[-1] if line.before else ""
    return [made for word in line.words if made in (f"{word}.gch", f"{word}.pch")]


def request_of(line, words, folder):
    lines = [f"compiler {line.compiler}", f"cwd {escaped(folder.encode())}"]
    for name, data in line.files.items():
        lines.append(f"file {escaped(os.path.join(folder, name).encode())}\t{escaped(data)}")
    lines += [f"env {name}\t{escaped(value)}" for name, value in line.environment.items()]
    lines += [f"exists {escaped(os.path.join(folder, made).encode())}" for made in headers_beside(line)]
    lines += [f"setting version {VERSIONS[line.compiler]}"] if line.compiler in VERSIONS else []
    lines += [f"word {escaped(os.fsencode(word))}" for word in words]
    return "\n".join([*lines, "end", ""])


def answer_of(text):
    rows = [line.partition(" ") for line in text.splitlines()]
    told = {name: [rest for keyword, _, rest in rows if keyword == name] for name in ("arg", "hazard", "output", "run")}
    words = [unescaped(rest) for rest in told["arg"]] if rows and rows[0][0] == "ok" else None
    outputs = [unescaped(rest.split(" ")[1]).decode(errors="replace") for rest in told["output"]]
    return Answer(words, told["hazard"], outputs, [[unescaped(word) for word in rest.split(" ")] for rest in told["run"]])


def answers_to(program, asked, folder):
    """The answers of `describe --batch` to pairs of a line and its words."""
    requests = "".join(request_of(line, words, folder) for line, words in asked)
    done = subprocess.run([program, "--batch"], input=requests.encode(), stdout=subprocess.PIPE)
    answers = [answer_of(text) for text in done.stdout.decode(errors="replace").split("\nend\n")[:-1]]
    if done.returncode != 0 or len(answers) != len(asked):
        sys.exit(called_wrongly(f"{program} --batch: status {done.returncode}, {len(answers)} answers to {len(asked)} requests"))
    return answers


# ---- a command run


def program_of(compiler):
    called = PROGRAMS.get(compiler, [[compiler]])
    return next((words for words in called if shutil.which(words[0])), called[0])


def lacking_of(compilers):
    """The programs of these compilers that are not there."""
    return sorted({program_of(it)[0] for it in compilers if not shutil.which(program_of(it)[0])})


def fill(folder, files):
    for name, data in files.items():
        path = os.path.join(folder, name)
        os.makedirs(os.path.dirname(path), exist_ok=True)
        with open(path, "wb") as file:
            file.write(data if isinstance(data, bytes) else data.encode())
        # (precompiled headers of clang hold the times of files)
        os.utime(path, (TIME, TIME))


def contents(folder):
    found = {}
    for at, _, names in os.walk(folder):
        for name in names:
            path = os.path.join(at, name)
            with open(path, "rb") as file:
                found[os.path.relpath(path, folder)] = file.read()
    return found


def without_time(data):
    return data[:4] + data[8:] if data.startswith(OBJECT_MARK) else data


def run(line, commands, folder, environment):
    """Runs the commands one after the other in a new folder, which is taken away again. The answer is of the last one."""
    os.mkdir(folder)
    try:
        fill(folder, {**FILES, **line.files})
        variables = {**os.environ, **{name: os.fsdecode(value) for name, value in environment.items()}}
        for words in commands:
            before = contents(folder)
            if any(b"\0" in os.fsencode(word) for word in words):
                return Run(127, {})
            done = subprocess.run(program_of(line.compiler) + words, cwd=folder, capture_output=True, env=variables, timeout=60)
        made = {name: without_time(data) for name, data in contents(folder).items() if before.get(name) != data}
        return Run(done.returncode, {**made, "stdout": done.stdout} if done.stdout else made)
    finally:
        shutil.rmtree(folder)


def targets(data):
    return data.decode(errors="replace").partition(":")[0]


def file_seen(name, given, built):
    """What differs in a file that both commands wrote."""
    one, two = given.made[name], built.made[name]
    if name.endswith(".d") and targets(one) != targets(two):
        return [f"{name}: {targets(one)} \u2192 {targets(two)}"]
    return ["differs" if name.endswith(OBJECTS) else f"{name} differs"] if one != two else []


def seen(given, built):
    """What the built command does differently, as the page says it."""
    if given.status != 0 and built.status != 0:
        return NEITHER
    if (given.status == 0) != (built.status == 0):
        return "stops" if given.status == 0 else "compiles"
    gone, come = sorted(given.made.keys() - built.made.keys()), sorted(built.made.keys() - given.made.keys())
    if len(gone) == len(come) == 1:
        found = [f"{gone[0]} \u2192 {come[0]}"]
    else:
        found = [f"no {name}" for name in gone] + [f"also {name}" for name in come]
    for name in sorted(given.made.keys() & built.made.keys()):
        found += file_seen(name, given, built)
    return ", ".join(found) or "the same files"


def given_of(line, folder):
    """What the given commands of a line do."""
    return run(line, [line.before, line.words] if line.before else [line.words], folder, line.environment)


def tried(line, answers, folder):
    """What the given and the built commands of a line do."""
    return given_of(line, folder), run(line, [answer.words for answer in answers], folder, {})


def seen_built(line, answers, folder):
    """What the built commands of a line do differently from the given ones."""
    return seen(*tried(line, answers, folder))


def seen_outputs(line, answers, folder):
    """Which outputs of the record the given command does not write, and what it writes in their place."""
    made, outputs = given_of(line, folder).made, answers[-1].outputs
    lacking = [name or "no name" for name in outputs if name not in made]
    others = [name for name in made if name not in outputs] if lacking else []
    return f"{', '.join(lacking)} \u2192 {', '.join(sorted(others)) or 'nothing'}" if lacking else "the same files"


def seen_run(line, answers, folder):
    """What the run of the preprocessor writes differently into a file that the given command writes too."""
    given, other = given_of(line, folder), run(line, answers[-1].runs[:1], folder, line.environment)
    found = [it for name in sorted(given.made.keys() & other.made.keys() - {"stdout"}) for it in file_seen(name, given, other)]
    return ", ".join(found) or "the same files"


# With what the given command is compared under a hazard; else with the built one.
COMPARED = {"output-elsewhere": seen_outputs, "output-is-no-file": seen_outputs, "dependency-names-of-input": seen_run}


# ---- rows


def faults_of(row, line, answers, folder):
    """What is not as the row says."""
    if any(answer.words is None for answer in answers):
        return ["no command is built"]
    differs = COMPARED.get(row.hazard, seen_built)(line, answers, folder)
    wanted = row.said.replace("messages", "the same files")
    names = answers[-1].hazards
    if VERSIONS and (differs == NEITHER or differs == "the same files" and row.hazard not in names):
        return []
    faults = [] if differs == wanted else [f"seen: {differs}; the row says: {row.said}"]
    return faults if row.hazard in names else [*faults, f"named: {' '.join(names) or 'nothing'}"]


def try_rows(program, rows, folder):
    tries = [(row, line) for row in rows for line in row.lines]
    asked = [[(line, words) for words in (line.before, line.words) if words] for _, line in tries]
    answers = iter(answers_to(program, [pair for pairs in asked for pair in pairs], folder))
    count = 0
    for (row, line), pairs in zip(tries, asked):
        faults = faults_of(row, line, [next(answers) for _ in pairs], folder)
        count += bool(faults)
        print(f"{row.number} {row.hazard}: {line.compiler} {shlex.join(line.words)}:", "; ".join(faults) or row.said, flush=True)
    print(f"{len(tries)} commands of {len(rows)} rows, {count} not as docs/LIMITS.md says")
    return 1 if count else 0


# ---- random lines

INPUTS = ["r.c"] * 12 + ["r.cc"] * 4 + ["sub/r.c", "r.m", "a.s", "a.S", "a.h"]

# Groups of words that builds write, and groups that hazards know; those of only one compiler stand after its name.
USUAL = {
    "gnu": """
-O0; -O2; -Os; -g; -g -O2; -Wall; -Wextra; -Wall -Wextra; -Werror; -Wno-unused; -pipe; -fPIC; -fno-common; -fno-strict-aliasing; -ffunction-sections
-fdata-sections; -fvisibility=hidden; -fomit-frame-pointer; -fstack-protector-strong; -m64; -march=x86-64; -mtune=generic; -pthread; -std=gnu11
-std=c99; -std=gnu99; -DNDEBUG; -DX=1; -D X; -DX='"a b"'; -UX; -I.; -I in; -Iin; -Ion; -iquote in; -isystem on; -include a.h; -include b.h; -imacros b.h
-MD; -MMD; -MD -MP; -MD -MF x.d; -MMD -MP -MF x.d -MT a.o; -MD -MQ one; -o x.o; -o sub/x.o; -x c; -x c++; -w; -fno-exceptions; -idirafter on; -undef
-fdiagnostics-color=always; -fdiagnostics-color; -gsplit-dwarf; -g3; -ggdb; -gdwarf-4; -fno-diagnostics-color; -Wp,-DY; -Wl,-s; -lm; -L.; --sysroot=/
-nostdinc; -fno-builtin; -ffreestanding; -fwrapv; -funsigned-char; -Wp,-MD,y.d; -D_FORTIFY_SOURCE=2; @r
""",
    "clang-cl": """
/O1; /O2; /Od; /W3; /W4; /WX; /Z7; /nologo; /DX; /DNDEBUG; /D X; /UX; /Iin; /I on; /FIa.h; /external:Iin; /EHsc; /GR-; /GS-; /MD; /MT; /TC; /TP; /Gy
/Fox.obj; /Fosub/; -m64; /std:c11; /utf-8; /showIncludes; /arch:AVX2; /wd4091; -Wno-unused; -Wall; -O2; -Xclang -DX; -Xclang -I -Xclang in; -clang:-O3
-clang:-DX; -fno-exceptions; -imsvcin; /Zc:inline; /fp:fast; -g; @r; -fcolor-diagnostics; -fdiagnostics-absolute-paths; /bigobj; --target=x86_64-pc-windows-msvc
""",
}
KNOWN = {
    "gnu": """
-S; --assemble; --preprocess; --dependencies; --user-dependencies; --output=z.o; --output z.o; --language=c; --language=c++; -trigraphs; -ansi; --std=gnu11
-std=gnu11 -trigraphs; --include=b.h; --imacros=b.h; --include-directory=in; --include-directory-after=in; --include-prefix=./; -iprefix ./; -iwithprefix in
-iwithprefixbefore on; --include-with-prefix=in; -fdiagnostics-color=never; -fdiagnostics-color=x; -fworking-directory; -fno-working-directory; -fverbose-asm
-frecord-gcc-switches; -MTone; -MF y.d; -MFy.d; -MP; -MT one; -MT one -MT two; -Wp,-MT,one; -Wp,-MMD,y.d; -Xpreprocessor -MD; -o .hidden; -o 'a$b.o'
-o a#b.o; -e; -T; -T x.ld; -l m; -dumpbase x; -ggdb3; --debug=3; -gno-split-dwarf; -fdump-go-spec=g.go; -Winvalid-pch; -Wno-error; -std=c2x
-x assembler-with-cpp; -x c-header
""",
    "gcc": "--serialize-diagnostics d.dia; -dumpdir ./; --dump=M",
    "clang": """
-emit-llvm; -emit-ast; -frecord-command-line; -grecord-command-line; -fembed-bitcode-marker; -Xclang -DX; -Xclang -I -Xclang in; -z defs; -object; -ObjC
--serialize-diagnostics d.dia; -stdlib=libstdc++; --stdlib=libc++; -stdlib=; -imultilibin; -Xanalyzer; -Xarch_host; -fdebug-macro; -fno-debug-macro
--driver-mode=g++; -fno-trigraphs; -Weverything; -Wno-everything; -Qunused-arguments; -iwithsysroot/in; -isystem-after; -target x86_64-windows-msvc; -mllvm
-Wno-unused-command-line-argument; -frewrite-includes; -rewrite-objc; --start-no-unused-arguments; -fcolor-diagnostics; -fno-color-diagnostics
""",
    "clang-cl": """
/Fo.hidden; /MP; -link; -vctoolsdir; -sourceDependencies x.json; /depsx; -fsanitize-coverage=; /Xclang -DX; --via-file-asm; --rsp-quoting=posix; -clang:@r
-clang:--include-directory=in; -clang:-Ion; -clang:--include=a.h; -clang:-include -clang:b.h; -clang:-std=gnu11; -clang:-trigraphs; -clang:-fplugin=libc.so.6
-clang:-grecord-command-line; -clang:-lm; -clang:-MTone; -clang:-fno-exceptions; -clang:-isystem-after -clang:in; -Xclang -iframework -Xclang in
""",
}
TEXTS = {
    "gnu": [b"-DX -O2", b"'-DX=\"a\\\\b\"'", b'-DX "" -O1', b"-DX\x0c-DY", b"-DX\x0b-DY", b"-DY\\", b"\xef\xbb\xbf-DX", b"-DX -I in"],
    "clang-cl": [b"/DX /O2", b'"/DX=a b"', b'"/DX=""q"""', b'/O2 "/DX', b"/DX='a' /I in", b"\xef\xbb\xbf/DX"],
}


def groups_of(text):
    return [shlex.split(group) for line in text.strip().splitlines() for group in line.split("; ")]


def random_line(chance):
    """A line of the input, `-c` and one to eight groups of words, one in eight of these known to hazards."""
    weighted = ["gcc", "gcc", "gcc", "g++", "clang", "clang", "clang", "clang++", "clang-cl", "clang-cl"]
    compiler = chance.choice([it for it in weighted if it in COMPILERS])
    family = "clang-cl" if compiler == "clang-cl" else "gnu"
    own = {"g++": "gcc", "clang++": "clang", "clang-cl": ""}.get(compiler, compiler)
    usual, known = groups_of(USUAL[family]), [*groups_of(KNOWN[family]), *groups_of(KNOWN.get(own, ""))]
    groups = [["-c"], [chance.choice(INPUTS)]]
    groups += [chance.choice(known if chance.random() < 1 / 8 else usual) for _ in range(chance.randint(1, 8))]
    chance.shuffle(groups)
    return Line(compiler, [word for group in groups for word in group], {"r": chance.choice(TEXTS[family])})


def random_tries(program, chance, count, folder):
    """Random lines that are compiled, as given or as built, with their answers and what differs."""
    while count:
        lines = [random_line(chance) for _ in range(count)]
        for line, answer in zip(lines, answers_to(program, [(line, line.words) for line in lines], folder)):
            runs = tried(line, [answer], folder) if answer.words is not None else ()
            if any(run.status == 0 for run in runs):
                yield line, answer, seen(*runs)
                count -= 1


def try_random(program, rows, count, seed, folder):
    of_others = {*COMPARED, *(row.hazard for row in rows if row.said == "messages")}
    differing = unnamed = flagged = 0
    for line, answer, differs in random_tries(program, random.Random(seed), count, folder):
        is_other, has_name = differs != "the same files", bool(set(answer.hazards) - of_others)
        differing += is_other
        unnamed += is_other and not has_name
        flagged += has_name and not is_other
        if is_other != has_name:
            text = f", r: {line.files['r']}" if any("@r" in word for word in line.words) else ""
            print(f"{line.compiler} {shlex.join(line.words)}{text}: {differs}; named: {' '.join(answer.hazards) or 'nothing'}", flush=True)
    print(f"{differing} of {count} lines differ, {unnamed} of them without a hazard; {count - differing} come out the same, {flagged} of them with one")
    return 1 if unnamed else 0


def called_wrongly(told=None):
    print(f"trials/limits.py: {told}" if told else __doc__.split("\n\n")[1], file=sys.stderr)
    return 64


def take_compiler(name):
    """Sets that this compiler is tried in the place of its kind, in each of its drivers, and no other."""
    kind = next((it for it in ("clang", "gcc") if name.startswith(it)), None)
    if kind is None or not shutil.which(name):
        return False
    version = subprocess.run([name, "-dumpfullversion", "-dumpversion"] if kind == "gcc" else [name, "-dumpversion"], stdout=subprocess.PIPE, text=True)
    drivers = {kind: [name], {"gcc": "g++", "clang": "clang++"}[kind]: [name.replace("gcc", "g++").replace("clang", "clang++")]}
    PROGRAMS.update({it: [words] for it, words in drivers.items()})
    PROGRAMS["clang-cl"] = [[name, "--driver-mode=cl"]]
    COMPILERS[:] = [it for it in COMPILERS if it in drivers or it == "clang-cl" and kind == "clang"]
    VERSIONS.update(dict.fromkeys(COMPILERS, ".".join(version.stdout.split(".")[:2])))
    return True


def chosen_rows(rows, numbers):
    """The rows of these numbers, or all, with the command lines of compilers that are tried."""
    kept = [Row(it.number, it.hazard, [line for line in it.lines if line.compiler in COMPILERS], it.said) for it in rows]
    return [row for row in kept if row.lines and (not numbers or row.number in numbers)]


def main():
    arguments = sys.argv[1:]
    if arguments[:1] in (["--help"], ["-h"]):
        print(__doc__, end="")
        return 0
    if arguments[1:2] == ["--compiler"]:
        if not take_compiler("".join(arguments[2:3])):
            return called_wrongly(f"{''.join(arguments[2:3])}: no gcc or clang of this name")
        del arguments[1:3]
    is_random = arguments[1:2] == ["--random"]
    numbers = arguments[2:] if is_random else arguments[1:]
    if not arguments or arguments[0].startswith("-") or not all(map(str.isdigit, numbers)) or is_random and len(numbers) not in (1, 2):
        return called_wrongly()
    program = os.path.realpath(arguments[0])
    if not shutil.which(program):
        return called_wrongly(f"{program}: no program")
    for variable in ("CL", "_CL_"):
        os.environ.pop(variable, None)
    numbers = [int(number) for number in numbers]
    with tempfile.TemporaryDirectory() as base:
        folder = os.path.join(base, "work")
        with open(DOCS, encoding="utf-8") as docs:
            rows = rows_of(docs.read())
        absent = set() if is_random else set(numbers) - {row.number for row in rows}
        if absent:
            return called_wrongly(f"docs/LIMITS.md has no row {min(absent)}")
        chosen = chosen_rows(rows, [] if is_random else numbers)
        lacking = lacking_of(COMPILERS if is_random else {line.compiler for row in chosen for line in row.lines})
        if lacking:
            return called_wrongly(f"not there: {', '.join(lacking)}")
        if is_random:
            return try_random(program, rows, numbers[0], numbers[1] if numbers[1:] else 1, folder)
        return try_rows(program, chosen, folder)


if __name__ == "__main__":
    sys.exit(main())
