"""The crates of crates.txt: what each uses, which stand on it, what `rt ci` spends on it, and whose proof reads a file."""
import os
import re

LINE = re.compile(r"^(\w+)(?: \w+)?:(.*)$", re.M)
COMMENT = re.compile(r"^\s*(?://|--).*$", re.M)
TIMES = "bench/times.txt"
TIMES_ARE = "# What `rt ci` spends on each crate apart from its edits: processor seconds of a quiet host. `bench/gate --times` writes it."
# the folders of a crate that its proof reads
PROVED = ("src", "specs", "proofs", "c")
# the texts of which catalogue/build makes sources
MADE = {
    "catalogue/hazards.txt": "scl_catalogue_default",
    "catalogue/effects.txt": "scl_catalogue_default",
}


def text_of(file):
    with open(file, encoding="utf-8") as it:
        return it.read()


class Crates:
    """The crates, in the order of crates.txt."""

    def __init__(self):
        self.uses = {name: names.split() for name, names in LINE.findall(text_of("crates.txt"))}
        self.seconds = {name: int(seconds) for name, seconds in re.findall(r"^(\w+) (\d+)$", text_of(TIMES), re.M)}

    def reading(self, file):
        """The crate whose proof reads the file, if any: also a text of the catalogue, of which its source is made."""
        name, _, inside = file.removeprefix("crates/").partition("/")
        is_read = file.startswith("crates/") and name in self.uses and inside.split("/")[0] in PROVED
        return name if is_read else MADE.get(file)

    def stands_on(self, name, those):
        return name in those or any(self.stands_on(it, those) for it in self.uses[name] if it in self.uses)

    def above(self, those):
        """These crates and all that stand on them."""
        return [it for it in self.uses if self.stands_on(it, those)]

    def below(self, those):
        """These crates and all on which they stand."""
        return [it for it in self.uses if any(self.stands_on(one, [it]) for one in those)]

    def files(self, name, parts=PROVED):
        """The files in these folders of a crate."""
        return sorted(f"{at}/{file}" for part in parts for at, _, files in os.walk(f"crates/{name}/{part}") for file in files)

    def minutes(self, those):
        """What the proofs of these crates take, as far as it is known."""
        return sum(self.seconds.get(it, 0) for it in those) / 60

    def unused(self):
        """What crates.txt says that a crate uses, and no file of the crate names outside comments."""
        for name, uses in self.uses.items():
            words = {word for file in self.files(name) for word in re.findall(r"\w+", COMMENT.sub("", text_of(file)))}
            yield from (f"crates.txt: {name} uses {it}, which no file of it names" for it in uses if it not in words)

    def write_times(self, found):
        """Writes what each crate took; one that was not measured keeps its line."""
        seconds = {**self.seconds, **found}
        lines = [TIMES_ARE, *[f"{it} {seconds[it]:.0f}" for it in self.uses if it in seconds]]
        with open(TIMES, "w", encoding="utf-8") as it:
            it.write("".join(f"{line}\n" for line in lines))
