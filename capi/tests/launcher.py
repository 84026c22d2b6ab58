#!/usr/bin/env python3
"""Runs the script of docs/LAUNCHER.md as its reader does.

usage: capi/tests/launcher.py SCL

SCL is the program scl. It wants gcc, and tries sh, bash and dash, those that are there: a compiler below a folder with `=` in its name,
and below one with a blank too, gets the built command, however its path begins, and its messages in a log have no escapes. The status is 1
where the script does otherwise."""
import os
import re
import shutil
import subprocess
import sys
import tempfile

FOLDERS = ("a=b", "a=b c")
PAGE = os.path.join(os.path.dirname(os.path.realpath(__file__)), "../../docs/LAUNCHER.md")


def script():
    """The page's script."""
    with open(PAGE, encoding="utf-8") as it:
        return re.search(r"^    #!/bin/sh\n(?:    .*\n)+", it.read(), re.M)[0].replace("\n    ", "\n")[4:]


def wrong(shell, room, path):
    """How the script does otherwise in this shell."""
    for compiler in [f"{before}{folder}/gcc" for before in (f"{room}/", "./", "") for folder in FOLDERS]:
        with open(f"{room}/words", "w", encoding="utf-8"):
            pass
        ran = subprocess.run([shell, f"{room}/launcher", compiler, "-c", "a.c", "-DX=a b"], cwd=room, env={**os.environ, "PATH": path},
                             stdin=subprocess.DEVNULL, stdout=subprocess.PIPE, stderr=subprocess.STDOUT, check=False)
        with open(f"{room}/words", encoding="utf-8") as it:
            words = it.read().splitlines()
        if ran.returncode or words[:2] != ["-x", "c"] or b"warning" not in ran.stdout or b"\x1b" in ran.stdout:
            yield f"{shell}, {compiler}: status {ran.returncode}, {words}, {ran.stdout!r}"


def write(path, text, mode=0o644):
    os.makedirs(os.path.dirname(path), exist_ok=True)
    with open(path, "w", encoding="utf-8") as it:
        it.write(text)
    os.chmod(path, mode)


def main(words):
    if len(words) != 1 or not shutil.which("gcc"):
        print(__doc__, file=sys.stderr)
        return 64
    shells = [it for it in ("sh", "bash", "dash") if shutil.which(it)]
    with tempfile.TemporaryDirectory() as room:
        compiler = f'#!/bin/sh\nprintf "%s\\n" "$@" > {room}/words\nexec {shutil.which("gcc")} "$@"\n'
        for folder in FOLDERS:
            write(f"{room}/{folder}/gcc", compiler, 0o755)
        write(f"{room}/launcher", script())
        write(f"{room}/a.c", "int f(void) { return undeclared(); }\n")
        path = f"{os.path.dirname(os.path.abspath(words[0]))}:{os.environ['PATH']}"
        found = [line for shell in shells for line in wrong(shell, room, path)]
    print("\n".join(found) or f"the script of docs/LAUNCHER.md runs the built command below a folder with `=`, and writes no escapes into a log, in {', '.join(shells)}")
    return int(bool(found))


if __name__ == "__main__":
    sys.exit(main(sys.argv[1:]))
