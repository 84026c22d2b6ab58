"""How bench/tries.py makes and reads rounds, shown on lines that the checker printed and with a checker that only pretends. It proves nothing."""
import contextlib
import io
import os
import tempfile
import types
from unittest import mock

import tries
from calling import installed_rt

# lines of a round of scl_devices: count_call and failures have wrong bodies, CountedRead::read a right one above a wrong one,
# write_whole a wrong one whose answers also name what is gone, new an answer alone
RECORDED = """\
./proofs/write/write_whole/Answers.antt:10:276: error: `loop-written-preserved`: record `After-known_told` has no field `ensures`
./proofs/counted/Counted/new/Answers.antt:3:1: error: `returns`: the two types differ
impl scl_devices::counted::CountedRead: not proved; it waits for the proof of `read`, `read_exact`
note: src/counted.rt:56:5: it is not proved that what the function ensures holds when it returns (`returns`)
fn scl_devices::counted::Counted::count_call: no proof: expected answers in ./proofs/counted/Counted/count_call/Answers.antt; `search` did not prove `returns`
fn scl_devices::counted::Counted::count_failure: proved
note: src/counted.rt:50:5: it is not proved that what the function ensures holds when it returns (`returns`); `search` gave up at one of its limits
fn scl_devices::counted::Counted::failures: no proof: expected answers in ./proofs/counted/Counted/failures/Answers.antt; `search` did not prove `returns`
fn scl_devices::counted::Counted::new: not proved
fn scl_devices::counted::CountedRead::read: no proof: it calls `scl_devices::counted::Counted::count_call`, which is not proved
note: src/write.rt:23:31: it is not proved that what the function ensures holds when it returns (`returns-in-Ok-2`)
fn scl_devices::write::write_whole: not proved; it calls `scl_devices::counted::CountedWrite::write`, which is not proved
logic=not-proved"""
READ = (
    ("src/counted.rt", 54, 58, "counted::Counted::count_call", tries.REFUSED),
    ("src/counted.rt", 60, 64, "counted::Counted::count_failure", tries.SINGLY),
    ("src/counted.rt", 48, 52, "counted::Counted::failures", tries.REFUSED),
    ("src/counted.rt", 30, 40, "counted::Counted::new", tries.SINGLY),
    ("src/counted.rt", 70, 80, "counted::CountedRead::read", tries.LATER),
    ("src/write.rt", 20, 40, "write::write_whole", tries.REFUSED),
)
# edits of a file of twelve functions, each a line that calls the next, by what the checker makes of their bodies; then how each is
# judged, and in how many rounds
LINES = 12
MADE = (
    (["wrong"] * 6, ["refused"] * 6, 1),
    (["right", "wrong", "right", "wrong"], ["singly", "refused", "singly", "refused"], 2),
    (["wrong", "bad", "wrong"], ["refused", "singly", "refused"], 2),
    (["wrong", "wrong", "large", "wrong"], ["refused", "refused", "singly", "refused"], 5),
    (["right", "right"], ["singly", "singly"], 1),
)
# an edit that is tried by itself over what `rt ci` kept, by what the checker makes of its body; then how its verdict begins
ALONE = (
    ("wrong", "refused, as it must be: note: src/lib.rt:1:5: "),
    ("right", "NOT REFUSED: its function is still proved"),
    ("clumsy", "refused, as it must be (only because a proof file names"),
    ("bad", "BAD EDIT: it did not reach the prover"),
    ("large", "NOT TRIED: its check was killed"),
    ("absent", "BAD EDIT: an 'old:' text is in src/lib.rt 0 times"),
)


class Crate:
    name, folder = "low", "crates/low"


class Edit:
    """An edit of one function."""

    def __init__(self, at, kind, path=""):
        text = "\n".join(f"fn f{it}() {{ body({it}); }}" for it in range(LINES))
        self.crate, self.path, self.was, self.changed = Crate, path, {"src/lib.rt": text}, {"src/lib.rt": text.replace(f"body({at})", f"{kind}({at})")}


def said_of(text, asked):
    """What the checker says of the functions that it is asked for, and its status: it leaves a goal of `wrong` open, and one of `clumsy`
    only as its answer names what is gone; it proves `right`, takes no `bad`, and is killed at `large`."""
    kinds = [line.split("{ ")[1].split("(")[0] for line in text.split("\n")]
    if "bad" in kinds:
        return f"src/lib.rt:{kinds.index('bad') + 1}:3: error[E1]: no such thing", 1
    if "large" in kinds:
        return "", -9
    lines, is_open, proved = [], False, 0
    for at, kind in reversed([*enumerate(kinds)]):
        if kind == "wrong":
            lines.append(f"note: src/lib.rt:{at + 1}:5: it is not proved that what the function ensures holds when it returns (`returns`)")
        if kind == "clumsy":
            lines.append(f"./proofs/f{at}/Answers.antt:1:9: error: `returns`: record `After-f{at}` has no field `told`")
        waits = f"it calls `low::f{at + 1}`, which is not proved"
        is_wrong = kind in ("wrong", "clumsy")
        lines.append(f"fn low::f{at}: {f'no proof: {waits}' if is_open else 'not proved' if is_wrong else 'proved'}")
        is_open = is_open or is_wrong
        proved += f"f{at}" in asked and not is_open
    last = f"only={len(asked)} proved={proved}" if asked else "logic=not-proved" if is_open else "logic=proved functions=12"
    return "\n".join([*lines, last]), int(is_open)


class Pretending(tries.Trial):
    def __init__(self):
        self.crate, self.rounds = Crate, 0

    def check(self, chosen):
        return said_of(tries.texts_of([it for it, _ in chosen])["src/lib.rt"], [])


class KeptPretending(tries.KeptTrial):
    def __init__(self, folder=""):
        self.crate, self.rounds, self.kept, self.is_proved = Crate, 0, "", False
        self.known = types.SimpleNamespace(name="low", folder=folder)


def pretended(_, texts, flags, __):
    output, status = said_of(texts["src/lib.rt"], [it for before, it in zip(flags, flags[1:]) if before == "--only"])
    return types.SimpleNamespace(stdout=output, returncode=status)


class Named(tries.Place):
    def __init__(self, path, first, last, name):
        self.path, self.first, self.last, self.names = path, first, last, {f"scl_devices::{name}"}


def differing():
    """What is read or made otherwise, a text each."""
    chosen = [(name, [Named(path, first, last, name)]) for path, first, last, name, _ in READ]
    for (_, verdict, _), (*_, name, wanted) in zip(tries.read_round(chosen, RECORDED), READ):
        if verdict != wanted:
            yield f"the recorded round says of {name}: {verdict}, and not {wanted}"
    made = installed_rt.__wrapped__()
    made.checked = tries.ending_as_whole(pretended)
    with mock.patch.object(tries, "rt", lambda: made):
        for trial in (Pretending, KeptPretending):
            yield from differing_rounds(trial)
        yield from differing_alone()


def differing_rounds(pretending):
    for kinds, wanted, rounds in MADE:
        trial, edits = pretending(), [Edit(at, kind) for at, kind in enumerate(kinds)]
        with contextlib.redirect_stderr(io.StringIO()):
            found = {edit: verdict for edit, verdict, _ in trial.in_rounds(edits)}
        if ([found[it] for it in edits], trial.rounds) != (wanted, rounds):
            yield f"edits with bodies {' '.join(kinds)} are judged {' '.join(found[it] for it in edits)} in {trial.rounds} rounds"


def differing_alone():
    with tempfile.TemporaryDirectory(prefix="alone-") as folder:
        path = f"{folder}/one.edit"
        os.mkdir(f"{folder}/src")
        for kind, wanted in ALONE:
            edit = Edit(0, kind, path)
            with open(f"{folder}/src/lib.rt", "w", encoding="utf-8") as it:
                it.write(edit.was["src/lib.rt"])
            with open(path, "w", encoding="utf-8") as it:
                it.write(f"file: src/lib.rt\nold: {'no such text' if kind == 'absent' else 'body(0)'}\nnew: {kind}(0)\n")
            verdict = KeptPretending(folder).singly(edit)
            if not verdict.startswith(wanted):
                yield f"an edit with the body {kind}, tried by itself, is told so: {verdict}"
