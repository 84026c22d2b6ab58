"""What the programs take for four times as much: the shapes of `bench/scale --check`, and how each is measured."""
import json
import math
import os
import resource
import subprocess
import tempfile

# By what a shape is multiplied between its two measurements, and the exponent above which it fails.
TIMES = 4
MOST = 1.2

# A shape is doubled until it takes this many seconds beyond those of an empty one, so that what a start costs does not hide its growth.
ENOUGH = 0.15

# Below this many seconds nothing grows.
LEAST = 0.02

# Each size is run so many times, and the fastest run counts; a shape that is above is measured again before it fails.
RUNS = 2
ROUNDS = 10

# A run that takes longer fails.
LONGEST = 30


class Failed(Exception):
    """A run that failed, in words."""


def request(compiler, words):
    lines = [f"compiler {compiler}", "word -c", "word a.c", *(f"word {word}" for word in words)]
    return "\n".join(lines) + "\n"


def repeated(compiler, words_of):
    """A request with these words for each number."""
    return lambda folder, count: ([], request(compiler, [word for number in range(count) for word in words_of(number)]))


def long(compiler, front, part):
    """A request with one word of so many parts."""
    return lambda folder, count: ([], request(compiler, [front + part * count]))


def write_database(folder, name, numbers, more):
    """A database of an entry for each number; `more` is what it has beside its directory and file."""
    entries = [{"directory": folder, "file": f"d/f{number}.c", **more(number)} for number in numbers]
    with open(os.path.join(folder, name), "w", encoding="utf-8") as file:
        json.dump(entries, file)


def command_of(number):
    return {"arguments": ["gcc", "-c", f"d/f{number}.c", f"-DNAME_{number}"]}


def no_command(number):
    return {}


def databases(more):
    """Two databases whose entries stand in opposite orders."""

    def make(folder, count):
        write_database(folder, "a.json", range(count), more)
        write_database(folder, "b.json", reversed(range(count)), more)
        return ["diff", "-p", "a.json", "-p", "b.json"], ""

    return make


def options(folder, count):
    """Two entries that have no option in common."""
    written = lambda number: {"arguments": ["gcc", "-c", "a.c", *(f"-DNAME_{number}_{at}" for at in range(count))]}
    write_database(folder, "a.json", range(2), written)
    return ["diff", "-p", "a.json", "f0.c", "f1.c"], ""


def sources(folder, count):
    """As many names as entries."""
    write_database(folder, "a.json", range(count), no_command)
    return ["why", "-p", "a.json", *(f"f{number}.c" for number in reversed(range(count)))], ""


# Of each shape the program, what it is given for a number, and the largest number before it is multiplied.
SHAPES = {
    "words": ("describe", repeated("gcc", lambda number: [f"-funknown-{number}"]), 200_000),
    "defines": ("describe", repeated("gcc", lambda number: [f"-DNAME_{number}=1"]), 200_000),
    "folders": ("describe", repeated("gcc", lambda number: ["-I", f"include/{number}"]), 100_000),
    "headers": ("describe", repeated("gcc", lambda number: ["-include", f"h{number}.h"]), 100_000),
    "empty-values": ("describe", repeated("clang", lambda number: ["-parallel-jobs", ""]), 100_000),
    "diagnostics": ("describe", repeated("clang", lambda number: ["--serialize-diagnostics", f"f{number}.dia"]), 100_000),
    "assembler-parts": ("describe", long("gcc", "-Wa", ",-MD"), 200_000),
    "values": ("describe", long("gcc", "-mx", "=a"), 200_000),
    "commas": ("describe", long("gcc", "-mx", ",a=b"), 200_000),
    "diff": ("scl", databases(command_of), 20_000),
    "diff-sources": ("scl", databases(no_command), 20_000),
    "diff-options": ("scl", options, 20_000),
    "why": ("scl", sources, 20_000),
}

# The number that a shape begins with.
FIRST = 250


def seconds_of(command, given, folder):
    """The seconds that a processor worked for a run. It may end with any status but that of a wrong call, 2."""
    with tempfile.TemporaryFile() as taken, tempfile.TemporaryFile() as told:
        taken.write(given.encode())
        taken.seek(0)
        child = subprocess.Popen(command, stdin=taken, stdout=subprocess.DEVNULL, stderr=told, cwd=folder, env={"LANG": "C.UTF-8"}, preexec_fn=limited)
        _, status, usage = os.wait4(child.pid, 0)
        child.returncode = os.waitstatus_to_exitcode(status)
        if child.returncode == 2 or not 0 <= child.returncode < 128:
            told.seek(0)
            raise Failed(f"a run ended with status {child.returncode}: {told.read(200).decode(errors='replace').strip()}")
    return usage.ru_utime + usage.ru_stime


def limited():
    """Ends a run that takes too long."""
    resource.setrlimit(resource.RLIMIT_CPU, (LONGEST, LONGEST + 1))


def fastest(program, make, count, runs=RUNS):
    """The seconds of the fastest of some runs with this number."""
    with tempfile.TemporaryDirectory() as folder:
        words, given = make(folder, count)
        return min(seconds_of([program, *words], given, folder) for _ in range(runs))


class Grown:
    """What a shape took: for a number, and for four times as many."""

    def __init__(self, count, empty, before, after):
        self.count, self.before, self.after = count, before, after
        self.exponent = math.log(max(after - empty, LEAST) / max(before - empty, LEAST), TIMES)

    def holds(self):
        return self.exponent <= MOST


def measured(program, make, most):
    """What a shape takes, from the first number that takes long enough."""
    empty, count = fastest(program, make, 1), FIRST
    while fastest(program, make, count, 1) - empty < ENOUGH and count * 2 <= most:
        count *= 2
    before = after = math.inf
    rounds = []
    for _ in range(ROUNDS):
        rounds.append(Grown(count, empty, fastest(program, make, count), fastest(program, make, count * TIMES)))
        before, after = min(before, rounds[-1].before), min(after, rounds[-1].after)
        grown = Grown(count, empty, before, after)
        if grown.holds():
            return grown
    # a host of two speeds gives one number its fast runs and the other its slow ones; the two of a round are of one moment
    return sorted(rounds, key=lambda it: it.exponent)[ROUNDS // 2]


def row(name, program, grown):
    """A shape as an object of JSON."""
    return {
        "shape": name,
        "program": program,
        "counts": [grown.count, grown.count * TIMES],
        "seconds": [round(grown.before, 3), round(grown.after, 3)],
        "exponent": round(grown.exponent, 2),
        "holds": grown.holds(),
    }


def line(told):
    (few, many), (before, after) = told["counts"], told["seconds"]
    end = "" if told["holds"] else f", above {MOST}"
    return f"{told['shape']} ({told['program']}): {few:,} in {before:.3f} s, {many:,} in {after:.3f} s: exponent {told['exponent']:.2f}{end}"


def check(programs, names, as_json):
    """Measures the shapes of these names, and prints a line for each. Whether none failed."""
    are_well = True
    for name in names:
        kind, make, most = SHAPES[name]
        try:
            told = row(name, kind, measured(programs[kind], make, most))
            print(json.dumps(told) if as_json else line(told), flush=True)
            are_well = are_well and told["holds"]
        except Failed as failed:
            print(json.dumps({"shape": name, "program": kind, "failed": str(failed), "holds": False}) if as_json else f"{name} ({kind}): {failed}", flush=True)
            are_well = False
    return are_well
