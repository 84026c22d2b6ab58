#!/usr/bin/env python3
"""Tries the stores of the caches of examples/ with what is not the user's own in them.

usage: capi/tests/stores.py CACHE ..

Each CACHE is a program, as examples/cache.py, that is started with DESCRIBE. It wants gcc; device nodes and files of another owner
are tried only by root. The store is made with mode 700. One that is not the user's own folder, or that others may write, is refused
with status 64 and its name. Once a line is in the store, each file there is put aside, and a link to it, a pipe, a device or the file
with another owner stands in its place: then the given words run, the name is in CACHE_LOG or on standard error, and no file outside is
written. Prints a line for each CACHE; the status is 1 where one does otherwise."""
import os
import shutil
import stat
import subprocess
import sys
import tempfile
import time

STRANGER = 12345
SECONDS = 60


class Room:
    """A folder with a source, a store and a log."""

    def __init__(self, cache, at):
        self.cache, self.at, self.store, self.log = os.path.abspath(cache), at, f"{at}/store", f"{at}/log"
        self.write("a.c", "int f(void) { return 1; }\n")
        time.sleep(0.1)  # (what has only just changed is not kept)

    def write(self, name, text):
        with open(f"{self.at}/{name}", "w", encoding="utf-8") as it:
            it.write(text)

    def text(self, name):
        with open(f"{self.at}/{name}", "rb") as it:
            return it.read()

    def compile(self):
        """The status, and what is said: messages, and the log's last line."""
        how = {**os.environ, "CACHE": self.store, "CACHE_LOG": self.log}
        if os.path.exists(f"{self.at}/a.o"):
            os.remove(f"{self.at}/a.o")
        try:
            ran = subprocess.run([self.cache, "gcc", "-c", "a.c"], cwd=self.at, env=how, stdin=subprocess.DEVNULL, stdout=subprocess.PIPE,
                                 stderr=subprocess.STDOUT, text=True, check=False, timeout=SECONDS)
        except subprocess.TimeoutExpired:
            return None, "it hangs"
        lines = self.text("log").decode().splitlines() if os.path.exists(self.log) else []
        return ran.returncode, ran.stdout + (lines[-1] if lines else "")

    def files(self):
        """The files of the store."""
        return sorted(f"{at}/{name}" for at, _, names in os.walk(self.store) for name in names)


def stores():
    """What may stand in the place of the store, by name."""
    def as_pipe(path): os.rmdir(path), os.mkfifo(path)
    def as_link(path): os.rename(path, f"{path}.real"), os.symlink(f"{path}.real", path)
    def as_shared(path): os.chmod(path, 0o777)
    def as_stranger(path): os.chown(path, STRANGER, -1)
    return {"a pipe": as_pipe, "a link": as_link, "one that others may write": as_shared, **({"of another owner": as_stranger} if not os.geteuid() else {})}


def files():
    """What may stand in the place of a file of the store, whose bytes stand at `aside`, by name."""
    def as_link(path, aside): os.symlink(aside, path)
    def as_pipe(path, aside): os.mkfifo(path)
    def as_device(path, aside): os.mknod(path, stat.S_IFCHR | 0o666, os.makedev(1, 3))
    def as_stranger(path, aside): shutil.copyfile(aside, path), os.chown(path, STRANGER, -1)
    return {"a link": as_link, "a pipe": as_pipe, **({"a device": as_device, "of another owner": as_stranger} if not os.geteuid() else {})}


def wrong_stores(cache):
    """How the cache does otherwise than it must with a store."""
    for name, change in stores().items():
        with tempfile.TemporaryDirectory() as at:
            room = Room(cache, at)
            os.mkdir(room.store, 0o700)
            change(room.store)
            status, said = room.compile()
            if status != 64 or room.store not in said:
                yield f"a store that is {name}: status {status}, {said.strip()}"


def wrong_files(cache):
    """How the cache does otherwise than it must with what is in a store."""
    for name, change in files().items():
        with tempfile.TemporaryDirectory() as at:
            room = Room(cache, at)
            for wanted in ("miss", "hit", "hit"):
                status, said = room.compile()
                if status or said.split(" ")[0] not in {wanted, "direct"}:
                    yield f"no {wanted}: status {status}, {said}"
                    return
            if stat.S_IMODE(os.stat(room.store).st_mode) != 0o700:
                yield f"the store is made with mode {stat.S_IMODE(os.stat(room.store).st_mode):o}"
            os.mkdir(f"{at}/aside")
            for path in room.files():
                yield from wrong_file(room, path, name, change)


def wrong_file(room, path, name, change):
    """How it does otherwise with one file, after which the store is as it was. What is not read is not refused, and not written."""
    aside = f"{room.at}/aside/{os.path.basename(path)}"
    os.rename(path, aside)
    before = room.text(f"aside/{os.path.basename(path)}")
    change(path, aside)
    was = os.lstat(path)
    status, said = room.compile()
    is_refused = os.path.basename(path) in said and (status == 64 or status == 0 and said.startswith("given ") and os.path.isfile(f"{room.at}/a.o"))
    is_unread = status == 0 and said.startswith(("hit ", "direct "))
    if not is_refused and not (is_unread and os.path.basename(path) not in said) or room.text(f"aside/{os.path.basename(path)}") != before:
        yield f"{os.path.relpath(path, room.store)} is {name}: status {status}, {said.strip()}"
    if os.path.lexists(path) and os.lstat(path).st_ino != was.st_ino:
        yield f"{os.path.relpath(path, room.store)} is {name}, and is replaced"
    if os.path.lexists(path):
        os.remove(path)
    os.rename(aside, path)


def main(caches):
    if not caches or not shutil.which("gcc"):
        print(__doc__, file=sys.stderr)
        return 64
    tried = ", ".join(files())
    failed = False
    for cache in caches:
        wrong = [*wrong_stores(cache), *wrong_files(cache)]
        failed |= bool(wrong)
        for it in wrong:
            print(f"{cache}: {it}", flush=True)
        if not wrong:
            print(f"the store of {os.path.basename(cache)}: each {tried} is refused by its name")
    return int(failed)


if __name__ == "__main__":
    sys.exit(main(sys.argv[1:]))
