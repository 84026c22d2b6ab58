"""Tries edits in copies of the crates: those that change bodies of different functions together in one check, all others by `rt must-fail`.

A *round* is one check of a crate with one edit in each of many functions. In it an edit counts as refused only by a goal of a
function that it changes, which the checker leaves open; `read_round` has the lines that say so. What a round does not refuse
goes on to a later round, or is tried by itself: no round makes an edit count as one that is not refused.

Where `rt ci` kept the libraries below a crate, as it proved them of these same files, a check is of the edited functions alone, and
the crate is not first proved as it stands: `rt ci` proved it too, or else these functions of it are proved first."""
import concurrent.futures
import contextlib
import functools
import os
import queue
import re
import resource
import shutil
import subprocess
import sys
import tempfile
import threading
import time

from calling import installed_rt
from outline import Source

NOT_PROVED = "logic=not-proved"
# how a check of some functions ends that does not prove all of them
SOME_NOT_PROVED = re.compile(r"^only=(\d+) proved=(?!\1\b)\d+.*$\s*\Z", re.M)
# rattle knows no function by a name that it was given
CALLED_WRONGLY = 2
FLAGS = ["--jobs", "1"]
# what is said of a function: `fn NAME: proved`, `not proved`, `no proof`, with more after `:` or `;`; or `could not tell`
FUNCTION = re.compile(r"^fn (\S+): (.*)$")
# a goal that is left open, at a line of the source; and, of these, what a callee asks of its caller
GOAL = re.compile(r"^note: (?:\./)?(src/\S+?):(\d+):\d+: (it is not proved that .*)$")
ASKED = re.compile(r"it is not proved that what `.*` requires holds at this call")
# a function, as a closure, whose body decides what it asks of its callers
ASKS = "proved where its callers give what it asks"
# a function that it calls is not proved: its goals may wait for that one, so a later round judges it
CALLEE = re.compile(r"(?:; |no proof: )it (?:calls|passes the block) `")
# the front end refuses the text: no proof was tried
FRONT_END = re.compile(r"^(?:\./)?(src/\S+?):(\d+):\d+: error\[")
# why a crate is not proved as it stands
UNPROVED = re.compile(r"^fn \S+: (?:not proved|no proof|could not tell)|: error|ran out of|memory")
REFUSED, SINGLY, LATER = "refused", "singly", "later"


@functools.cache
def rt():
    """The toolchain's command `rt`, for which a check of some functions ends as one of a whole crate."""
    made = installed_rt()
    made.checked = ending_as_whole(made.checked)
    return made


def ending_as_whole(checked):
    def call(*given):
        done = checked(*given)
        done.stdout = SOME_NOT_PROVED.sub(NOT_PROVED, done.stdout)
        return done

    return call


class Place:
    """A function whose body an edit changes: its file, its module, its lines and the names that the checker may call it by."""

    def __init__(self, crate, path, function):
        inside = path.removeprefix("src/").removesuffix(".rt").removesuffix("/mod").split("/")
        self.path, self.first, self.last = path, function.first, function.last
        module = [it for it in inside if it not in ("lib", "main")]
        self.module = "::".join(module)
        self.names = {"::".join([crate.name, *module, *([owner] if owner else []), function.name]) for owner in function.owners}

    def has(self, path, line):
        return path == self.path and self.first <= line <= self.last

    def key(self):
        return self.path, self.first


def places_of(edit):
    """The functions whose bodies an edit changes; none if it changes anything else, as a definition, a signature or a type, or a
    `const fn`, whose value others may read: it is tried by itself then."""
    found = []
    for path, was in edit.was.items():
        now, lines = edit.changed[path], was.split("\n")
        if now == was:
            continue
        if not path.startswith("src/") or len(now.split("\n")) != len(lines):
            return []
        source = Source(was)
        if Source(now).outline() != source.outline():
            return []
        functions = source.functions()
        for at, (old, new) in enumerate(zip(lines, now.split("\n")), 1):
            if old != new:
                inside = [it for it in functions if it.first <= at <= it.last]
                if len(inside) != 1 or inside[0].is_const:
                    return []
                found.append(Place(edit.crate, path, inside[0]))
    return list({it.key(): it for it in found}.values())


def texts_of(edits):
    """The files as all of these edits change them, each edit the lines of its own functions."""
    texts = {}
    for edit in edits:
        for path, was in edit.was.items():
            lines = texts.setdefault(path, was.split("\n"))
            for at, (old, new) in enumerate(zip(was.split("\n"), edit.changed[path].split("\n"))):
                if old != new:
                    lines[at] = new
    return {path: "\n".join(lines) for path, lines in texts.items()}


def round_of(left):
    """The edits of the next round, one for each function, and those that wait for another one."""
    taken, chosen, others = set(), [], []
    for edit, places in left:
        keys = {it.key() for it in places}
        (others if keys & taken else chosen).append((edit, places))
        if not keys & taken:
            taken |= keys
    return chosen, others


def read_round(chosen, output):
    """What a round says of each of its edits: that it is refused, with the line that says so; or that it is tried in a later round or by itself.

    Of the checker's lines one says that an edit is refused, with a line L of a function that the edit changes, or of its attributes:

      note: src/F.rt:L:C: it is not proved that ..    whatever follows, as `..; `search` gave up at one of its limits`

    These say nothing of an edit in NAME, as they may come of another edit, or of a name that is gone:

      ./proofs/M/NAME/Answers.antt:L:C: error: `GOAL`: ..
      fn NAME: not proved; could not tell; no proof: expected answers in FILE; `search` did not prove ..
      fn NAME: no proof: it calls `OTHER`, which is not proved; `..; it calls ..`; `.. it passes the block ..`
      impl NAME: not proved; it waits for the proof of ..
      note: `search` has not tried the goals of ..

    What a function has to show stands on its own body, and of all others on their contracts, which no edit of a round changes.
    The one exception asks of its callers what its body needs (ASKS): where there is one, a goal that a callee asks for does not count.
    """
    lines = output.split("\n")
    told = {it[1]: it[2] for it in map(FUNCTION.match, lines) if it}
    one_asks = any(it.startswith(ASKS) for it in told.values())
    goals = [(it[1], int(it[2]), it[0]) for it in map(GOAL.match, lines) if it and not (one_asks and ASKED.search(it[0]))]
    for edit, places in chosen:
        why = [line for path, at, line in goals if any(it.has(path, at) for it in places)]
        waits = any(CALLEE.search(told.get(name, "")) for it in places for name in it.names)
        yield (edit, REFUSED, why[0]) if why else (edit, LATER if waits else SINGLY, "")


class Room:
    """Two copies of the crates in which edits of these are tried: nothing outside is changed. In one all is proved anew; the other has what `rt ci` kept."""

    def __init__(self, crates):
        self.needed = {it.name for crate in crates for it in (crate, *crate.below)}

    def __enter__(self):
        self.top = tempfile.mkdtemp(prefix="edits-")
        self.anew, self.kept = self.copy("anew"), self.copy("kept")
        self.proved = take_kept(self.kept, self.needed)
        return self

    def __exit__(self, *_):
        shutil.rmtree(self.top, ignore_errors=True)

    def copy(self, name):
        to = f"{self.top}/{name}"
        shutil.copytree("crates", f"{to}/crates", ignore=shutil.ignore_patterns("out", "must-fail", "wrong"))
        for file in ("crates.txt", "HANDLES"):
            if os.path.isfile(file):
                shutil.copy(file, to)
        return to

    def has_libraries_of(self, crate):
        return all(it.name in self.proved for it in crate.below)


def take_kept(top, needed):
    """Gives these crates what `rt ci` kept on this machine of the same files over the same libraries, and returns the names of those that it proved."""
    rt().Crate.allowed = rt().handles_of(top)
    crates, proved = [it for it in rt().rtlib.crates_below(top) if it.name in needed], set()
    kept = rt().Kept(crates)
    for crate in crates:
        if all(it.name in proved for it in crate.below()) and kept.give(crate, False, kept.key(crate)):
            kept.is_built(crate)
            proved.add(crate.name)
    return proved


class Trial:
    """The tries of a crate's edits in a room, where the crate and those below it are first proved."""

    def __init__(self, room, crate, top):
        self.room, self.crate, self.folder = room, crate, f"{top}/{crate.folder}"
        self.known = next(it for it in rt().rtlib.crates_below(top) if it.name == crate.name)
        self.kept, self.rounds = f"{self.folder}/out/incremental", 0

    def why_unproved(self, _):
        """Proves the crate as it stands, with which each try begins; why not, where that fails. A crate that is not proved refuses every edit."""
        printed, status = self.call("check")
        return why_failed(printed) if status else ""

    def build(self):
        """Builds the library for those above it. Where that fails, their own checks say so."""
        if self.known.makes_rlib():
            self.call("lib")

    def call(self, verb):
        how = {"stdin": subprocess.DEVNULL, "stdout": subprocess.PIPE, "stderr": subprocess.STDOUT, "errors": "replace"}
        done = subprocess.run(["rt", verb, "--jobs", "1"], cwd=self.folder, check=False, **how)
        return done.stdout, done.returncode

    def verdicts(self, edits, together):
        """What the prover says of each of these edits: whether it is refused, and the verdict."""
        others = []
        for edit, verdict, why in self.in_rounds(edits) if together else [(it, SINGLY, "") for it in edits]:
            if verdict == REFUSED:
                yield edit, True, f"refused in a round: {why[:160]}"
            else:
                others.append(edit)
        for edit in others:
            begin = time.monotonic()
            verdict = self.singly(edit)
            sys.stderr.write(f"bench/edits: {self.crate.name}: one by itself, {time.monotonic() - begin:.0f} seconds\n")
            yield edit, is_refusal(verdict), verdict

    def in_rounds(self, edits):
        """What rounds say of these edits: which are refused, and which are to be tried by themselves."""
        places = {it: places_of(it) for it in edits}
        yield from ((it, SINGLY, "") for it in edits if not places[it])
        left = [(it, found) for it, found in places.items() if found]
        while left:
            chosen, others = round_of(left)
            later = []
            for edit, verdict, why in self.a_round(chosen):
                if verdict == LATER:
                    later.append((edit, places[edit]))
                else:
                    yield edit, verdict, why
            if len(later) == len(chosen):
                # the calls between them lead round in a circle, or to something that no edit changes
                yield from ((it, SINGLY, "") for it, _ in later)
                later = []
            left = later + others

    def a_round(self, chosen):
        """One round; where the checker does not take the text, or comes to no verdict, rounds of fewer edits."""
        begin = time.monotonic()
        output, status = self.check(chosen)
        self.rounds += 1
        sys.stderr.write(f"bench/edits: {self.crate.name}: a round of {len(chosen)} edits, {time.monotonic() - begin:.0f} seconds\n")
        if status == 1 and output.rstrip().split("\n")[-1].startswith(NOT_PROVED):
            yield from read_round(chosen, output)
            return
        if status == 0 or len(chosen) == 1:
            yield from ((it, SINGLY, "") for it, _ in chosen)
            return
        errors = [(it[1], int(it[2])) for it in map(FRONT_END.match, output.split("\n")) if it]
        blamed = [it for it in chosen if any(place.has(*error) for place in it[1] for error in errors)]
        yield from ((it, SINGLY, "") for it, _ in blamed)
        rest = [it for it in chosen if it not in blamed]
        halves = [rest] if blamed else [rest[: len(rest) // 2], rest[len(rest) // 2 :]]
        for half in filter(None, halves):
            yield from self.a_round(half)

    def check(self, chosen):
        """Checks the crate with these edits: what that printed, and its status."""
        with self.over_kept() as kept:
            done = rt().checked(self.known, texts_of([it for it, _ in chosen]), FLAGS, kept)
            return done.stdout, done.returncode

    @contextlib.contextmanager
    def over_kept(self):
        """A copy of what the check of the crate as it stands proved."""
        with tempfile.TemporaryDirectory(prefix="kept-", dir=self.room.top) as at:
            rt().linked(self.kept, f"{at}/kept")
            yield f"{at}/kept"

    def singly(self, edit):
        """What `rt must-fail` says of an edit; from nothing, where it knows nothing over what was proved."""
        with self.over_kept() as kept:
            kind, verdict = self.must_fail(edit, [], kept)
        return verdict if kind in rt().SETTLED else self.must_fail(edit, [], None)[1]

    def must_fail(self, edit, asked, kept):
        kind, verdict = rt().must_fail(self.known, edit.path, [*FLAGS, *asked], kept)
        return kind, verdict.partition(".edit: ")[2].replace("\n", "; ")[:400]


class KeptTrial(Trial):
    """The tries of a crate's edits over the libraries that `rt ci` kept: each check is of the edited functions alone."""

    def __init__(self, room, crate, top):
        super().__init__(room, crate, top)
        self.is_proved = crate.name in room.proved
        os.makedirs(self.kept)

    def why_unproved(self, edits):
        """Where `rt ci` did not prove the crate, proves the functions that are edited, as they stand; why not, if that fails."""
        sys.stderr.write(f"bench/edits: {self.crate.name}: over what `rt ci` proved of {'it and of ' * self.is_proved}the libraries below it\n")
        return self.why_unproved_of(named_by([place for it in edits for place in places_of(it)]))

    def why_unproved_of(self, ways):
        if self.is_proved or not ways:
            return ""
        done = self.check_of({}, ways)
        return why_failed(done.stdout) if done.returncode else ""

    def build(self):
        """Nothing: those above it take what `rt ci` kept."""

    def check(self, chosen):
        done = self.check_of(texts_of([it for it, _ in chosen]), named_by([place for _, places in chosen for place in places]))
        return done.stdout, done.returncode

    def check_of(self, texts, ways):
        """A check of the functions named in the first of these ways that rattle knows them by."""
        for names in ways:
            done = rt().checked(self.known, texts, [*FLAGS, *only(names)], self.kept)
            if done.returncode != CALLED_WRONGLY:
                break
        return done

    def singly(self, edit):
        """What `rt must-fail` says of the functions of an edit. An edit of a body that is still proved changes no other function; what
        else is not refused so may be refused by others of the crate, if that was proved."""
        places = places_of(edit)
        ways = named_by(places) if places else own_of(edit)
        verdict = "is not tried: its own function is of another crate, and `rt ci` did not prove this one"
        why = "" if places else self.why_unproved_of(ways)
        if why:
            return f"is not tried: its function is not proved as it stands: {why}"
        for names in ways:
            kind, verdict = self.must_fail(edit, only(names), self.kept)
            if is_refusal(verdict) or places and kind in (*rt().SETTLED, rt().MISSED):
                return verdict.replace("the crate is still proved", "its function is still proved")
        return self.must_fail(edit, [], self.kept)[1] if self.is_proved else verdict


def only(names):
    return [word for it in sorted(names) for word in ("--only", it)]


def named_by(places):
    """The ways to name these functions to rattle: each by its path; or, as the path of one that a macro made may be another, all of their modules."""
    modules = {it.module for it in places}
    functions = {name.partition("::")[2] for it in places for name in it.names}
    return [it for it in (functions, modules) if it and "" not in it]


def own_of(edit):
    """The ways to name the function whose promise an edit breaks, if it is one of the crate."""
    own = {it for it in edit.said["of"] if edit.crate.has(it)}
    return [own] if own else []


def why_failed(printed):
    lines = [it for it in printed.split("\n") if UNPROVED.search(it)] or printed.strip().split("\n")
    return lines[-1][:200] or "it printed nothing"


def is_refusal(verdict):
    """Whether a verdict says that a clause refuses the edit, and not only that a name of a proof is lost, or that the prover met a limit."""
    return verdict.startswith("refused, as it must be") and not verdict.startswith("refused, as it must be (only ")


def begun(crate, room, made, is_whole):
    """The trial of a crate's edits in a room: over what `rt ci` kept there, if that is all that it needs."""
    if room.has_libraries_of(crate) and not is_whole:
        return KeptTrial(room, crate, room.kept)
    # what is proved in one room is taken by the others, so no library is proved in two
    for it in crate.below:
        if it in made:
            made[it].wait()
    return Trial(room, crate, room.anew)


def try_crates(chosen, given, report, is_done):
    """Tries the edits that are chosen of each crate, lowest first, in as many rooms side by side as there are jobs. report gets each
    edit with its verdict as soon as it is known, is_done each crate with its trial."""
    resource.setrlimit(resource.RLIMIT_AS, (given["memory"] * 2**30,) * 2)
    # what it starts has to be there before any thread
    rt().rtlib.guarded()
    made, rooms = {it: threading.Event() for it in chosen}, queue.SimpleQueue()

    def work(crate):
        room = rooms.get()
        try:
            trial = begun(crate, room, made, given["singly"])
            why = trial.why_unproved(chosen[crate])
            if not why and any(crate in it.below for it in chosen):
                trial.build()
            made[crate].set()
            if why:
                for edit in chosen[crate]:
                    report(edit, False, f"is not tried: {crate.name} is not proved as it stands: {why}")
            else:
                for it in trial.verdicts(chosen[crate], not given["singly"]):
                    report(*it)
            is_done(crate, trial)
        finally:
            made[crate].set()
            rooms.put(room)

    with contextlib.ExitStack() as held, concurrent.futures.ThreadPoolExecutor(given["jobs"]) as pool:
        for _ in range(given["jobs"]):
            rooms.put(held.enter_context(Room(chosen)))
        # of two crates the lower one has fewer below it
        list(pool.map(work, sorted(chosen, key=lambda it: len(it.below))))
