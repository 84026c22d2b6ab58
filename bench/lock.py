"""The lock of the edits in wrong/, which the gate does not try: for each the key of all that its refusal stands on.

A wrong body that was refused stays so while its key does. The key is made of parts:

  - the toolchain, as `rt version` names it: another prover may find what this one did not
  - the lines of the edit that change files, and these files, without their comments
  - of its crate and of each below: the line of crates.txt; each file of specs/; and of each file of src/ its outline, which is what
    stands outside the bodies of functions: signatures, clauses, types, tables, constants and macros

Proofs are no part of it, nor what steers them: they cannot make a wrong body right. A file `lock` in wrong/ has lines

  toolchain NAME        what tried the edits
  edit NAME KEY SUM ..  an edit and its key; four digits of the sums of its text and of each file that it changes
  crate NAME SUM ..     a crate whose parts are in the keys; four digits of the sum of each

Only the key decides: the short sums say what changed. What else a merge leaves there a try removes."""
import hashlib
import os
import re
import subprocess

from outline import Source

EDIT = re.compile(r"edit ([a-z0-9_]+) ([0-9a-f]{24})((?: [0-9a-f]{4})+)")
CRATE = re.compile(r"crate (\w+)((?: [0-9a-f]{4})+)")
TOOLCHAIN = re.compile(r"toolchain (.+)")
SPEC_COMMENT = re.compile(r"^\s*--.*\n", re.M)


def text_of(file):
    with open(file, encoding="utf-8") as it:
        return it.read()


def sum_of(texts):
    made = hashlib.sha256()
    for text in texts:
        made.update(f"{len(text)}:{text}".encode())
    return made.hexdigest()[:24]


def code_of(path, text):
    """A file without its comments."""
    return Source(text).code() if path.endswith(".rt") else SPEC_COMMENT.sub("", text)


def short(parts):
    """Four digits of the sum of each part, with its name in it: enough to say which one changed."""
    return [sum_of(it)[:4] for it in parts.items()]


class Keys:
    """The keys of edits and the parts that they are made of, by the names that a reader knows them by. Each crate is read once."""

    def __init__(self):
        self.crates = {}
        self.toolchain = subprocess.run(["rt", "version"], capture_output=True, text=True, check=True).stdout.strip()
        self.given = dict(re.findall(r"^(\w+)([^\n#]*)$", text_of("crates.txt"), re.M))

    def of_crate(self, crate):
        """The parts of a crate that edits of it, and of those above it, read."""
        if crate.name not in self.crates:
            parts = {f"the line of {crate.name} in crates.txt": self.given[crate.name].strip()}
            for folder in ("src", "specs"):
                for at, folders, files in os.walk(f"{crate.folder}/{folder}"):
                    folders.sort()
                    for file in sorted(files):
                        path, text = f"{at.removeprefix('crates/')}/{file}", text_of(f"{at}/{file}")
                        if file.endswith(".rt"):
                            parts[f"the outline of {path}"] = Source(text).outline()
                        else:
                            parts[path] = SPEC_COMMENT.sub("", text)
            self.crates[crate.name] = {name: sum_of([text]) for name, text in parts.items()}
        return self.crates[crate.name]

    def of_text(self, edit):
        """The parts that are the edit's own: its text and the files that it changes."""
        lines = [it for it in text_of(edit.path).split("\n") if it.startswith(("file:", "old:", "new:"))]
        files = {f"{edit.crate.name}/{path}": sum_of([code_of(path, edit.was[path])]) for path in sorted(edit.was)}
        return {"its own text": sum_of(lines), **files}

    def of_edit(self, edit):
        crates = sorted([edit.crate, *edit.crate.below], key=lambda it: it.name)
        parts = [self.of_text(edit), *map(self.of_crate, crates)]
        return sum_of([self.toolchain, *(text for it in parts for part in it.items() for text in part)])


class Lock:
    """The file `lock` of a crate."""

    def __init__(self, crate):
        self.crate, self.file = crate, f"{crate.folder}/wrong/lock"
        lines = text_of(self.file).splitlines() if os.path.isfile(self.file) else []
        self.edits = {it[1]: (it[2], it[3].split()) for it in map(EDIT.fullmatch, lines) if it}
        self.crates = {it[1]: it[2].split() for it in map(CRATE.fullmatch, lines) if it}
        self.toolchain = next((it[1] for it in map(TOOLCHAIN.fullmatch, lines) if it), "")
        self.odd = [it for it in lines if not any(form.fullmatch(it) for form in (EDIT, CRATE, TOOLCHAIN))]

    def why_stale(self, edit, keys):
        """Why the lock does not have the key of an edit, by what changed since it was refused; nothing if it has it."""
        if edit.name not in self.edits:
            return "was never tried"
        key, sums = self.edits[edit.name]
        if key == keys.of_edit(edit):
            return ""
        found = ["the toolchain"] if self.toolchain != keys.toolchain else []
        found += changed(keys.of_text(edit), sums)
        for crate in (edit.crate, *edit.crate.below):
            found += changed(keys.of_crate(crate), self.crates.get(crate.name, []), f"a file of {crate.name} that is gone")
        # a file whose outline changed has changed
        found = [it for it in found if f"the outline of {it}" not in found] or ["what the lock does not name"]
        more = f" and {len(found) - 3} more" if len(found) > 3 else ""
        return f"was refused before a change of {', '.join(found[:3])}{more}"

    def renew(self, edits, keys, is_refused):
        """Writes the lock anew. Of the crate's edits in wrong/ it has those that were refused, and those that were not tried and are there."""
        known = {it.name: it for it in edits}
        kept = {name: it for name, it in self.edits.items() if name in known and known[name] not in is_refused}
        kept.update((name, (keys.of_edit(it), short(keys.of_text(it)))) for name, it in known.items() if is_refused.get(it))
        if not kept:
            if os.path.isfile(self.file):
                os.remove(self.file)
            return
        crates = sorted([self.crate, *self.crate.below], key=lambda it: it.name)
        lines = [f"toolchain {keys.toolchain}"]
        lines += [" ".join(["edit", name, key, *sums]) for name, (key, sums) in sorted(kept.items())]
        lines += [" ".join(["crate", it.name, *short(keys.of_crate(it))]) for it in crates]
        with open(self.file, "w", encoding="utf-8") as it:
            it.write("".join(f"{line}\n" for line in lines))


def changed(parts, known, gone=None):
    """The names of the parts whose short sums are not known; what is gone where all are, and one more is."""
    found = [name for name, it in zip(parts, short(parts)) if it not in known]
    return found or ([gone] if gone and len(known) > len(parts) else [])
