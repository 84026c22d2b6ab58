#!/usr/bin/env python3
"""Makes a release twice, and tries it in an empty folder by the steps of docs/INSTALL.md.

usage: capi/tests/install.py [--library FILE] [--programs FOLDER]

The two flags are those of capi/release. It tries that

  - both releases are the same bytes
  - the package has no error of lintian, and its programs and library run where it puts them; the wheel's tag is true, also by
    auditwheel if that is there; the manual's pages are clean; the completions can be read, and bash completes
  - no link of its pages is broken; and those that only who changes scl makes use of are not there
  - the commands of docs/INSTALL.md (lines of a block that begin with `$ `) write what stands after them, with nothing but the
    archive: no clone, no toolchain of Rattle
  - in each language each of the five examples writes what bindings/expected says

What is not there, as a language, is named as not tried. The status is 0 where all is well, 1 where something failed, and 2 where it
was called wrongly."""
import argparse
import glob
import os
import re
import shutil
import subprocess
import sys
import tempfile
import zipfile

HERE = os.path.dirname(os.path.realpath(__file__))
ROOT = os.path.dirname(os.path.dirname(HERE))
PAGE = f"{ROOT}/docs/INSTALL.md"
EXAMPLES = ("first", "key", "cache", "database", "error")
# What a section's commands need. (a section that is not named here has no commands)
NEEDS = {"The archive": [], "Python": ["python3"], "C": ["cc", "pkg-config"], "C++": ["c++", "pkg-config"], "CMake": ["cmake", "cc"],
         "Rust": ["cargo", "pkg-config"], "Go": ["go", "cc", "pkg-config"], "Node": ["node"]}
OWN_LIBRARY = "import os, scl; at = os.path.dirname(scl.__file__); assert scl._lib._name == at + '/libscl.so.1' and os.path.exists(at + '/py.typed')"


def fail(why):
    print(f"capi/tests/install.py: {why}", flush=True)
    sys.exit(1)


def run(words, **how):
    """What a command prints; it must succeed."""
    try:
        ran = subprocess.run(words, stdout=subprocess.PIPE, stderr=subprocess.STDOUT, text=True, check=False, **how)
    except OSError as error:
        fail(f"{words[0]}: {error.strerror}")
    if ran.returncode:
        sys.stdout.write(ran.stdout)
        fail(f"{' '.join(words)}: status {ran.returncode}")
    return ran.stdout


def text_of(path):
    with open(path, encoding="utf-8") as it:
        return it.read()


def bytes_of(path):
    with open(path, "rb") as it:
        return it.read()


# ---- the files of a release


def made_twice(room, words):
    """Makes the release twice; gives the folder of one, and what was said of the C library."""
    told = [run([f"{ROOT}/capi/release", "--out", f"{room}/{name}", *words]) for name in ("one", "two")][0]
    names = sorted(os.listdir(f"{room}/one"))
    other = [name for name in names if not os.path.exists(f"{room}/two/{name}") or bytes_of(f"{room}/one/{name}") != bytes_of(f"{room}/two/{name}")]
    if other or names != sorted(os.listdir(f"{room}/two")):
        fail(f"two releases differ: {', '.join(other) or names}")
    return f"{room}/one", told


def check_glibc(told):
    """The page says which glibc is wanted."""
    *programs, library = pairs_in(r" (\d+)\.(\d+)(?:,|$)", told.split("\n")[0])
    said = "programs need glibc {}.{} or later, `libscl.so` and the wheel {}.{}.".format(*max(programs), *library)
    if said not in text_of(PAGE):
        fail(f"docs/INSTALL.md does not say: {said}")


def pairs_in(pattern, text):
    """The versions that a text has at the places of a pattern, as pairs of numbers."""
    return [(int(major), int(minor)) for major, minor in re.findall(pattern, text)]


def check_wheel(folder, room):
    """The wheel's tag is true: its library needs the C library only, and none that is newer."""
    wheel = glob.glob(f"{folder}/*.whl")[0]
    tag = pairs_in(r"manylinux_(\d+)_(\d+)", wheel)[0]
    with zipfile.ZipFile(wheel) as it:
        library = it.extract("scl/libscl.so.1", room)
    needed, wanted = re.findall(r"NEEDED\s+(\S+)", run(["objdump", "-p", library])), pairs_in(r"GLIBC_(\d+)\.(\d+)", run(["objdump", "-T", library]))
    if needed != ["libc.so.6"] or max(wanted) > tag:
        fail(f"the wheel's tag, {tag}, is not true: it needs {needed} and {max(wanted)}")
    if not shutil.which("auditwheel"):
        return ["auditwheel"]
    found = pairs_in(r'platform tag:\s*"manylinux_(\d+)_(\d+)', run(["auditwheel", "show", wheel]))
    if not found or found[0] > tag:
        fail(f"auditwheel finds {found}, and the wheel's tag says {tag}")
    return []


def check_package(folder, room):
    """The package's programs and library run, unpacked below a folder."""
    package, root = glob.glob(f"{folder}/*.deb")[0], f"{room}/debian"
    run(["dpkg-deb", "-x", package, root])
    run([f"{root}/usr/bin/scl", "--version"])
    if shutil.which("cc") and shutil.which("pkg-config"):
        library = f"{root}/usr/lib/x86_64-linux-gnu"
        how = {**os.environ, "PKG_CONFIG_LIBDIR": f"{library}/pkgconfig", "PKG_CONFIG_SYSROOT_DIR": root, "PKG_CONFIG_ALLOW_SYSTEM_LIBS": "1"}
        flags = run(["pkg-config", "--cflags", "--libs", "scl"], env=how).split()
        run(["cc", f"{root}/usr/share/scl/c/examples/first.c", *flags, "-o", f"{room}/first"])
        if run([f"{room}/first"], env={**os.environ, "LD_LIBRARY_PATH": library}) != expected("first"):
            fail("the client of the package's library answers differently")
    if not shutil.which("lintian"):
        return ["lintian"]
    told = subprocess.run(["lintian", "--allow-root", "--tag-display-limit", "0", package], stdout=subprocess.PIPE, stderr=subprocess.STDOUT, text=True, check=False).stdout
    errors = [line for line in told.split("\n") if line.startswith("E:")]
    if errors:
        fail(f"lintian: {'; '.join(errors)}")
    return []


def check_texts(tree):
    """The manual's pages are clean; the completions can be read, and those for bash complete."""
    lacking = []
    if shutil.which("mandoc"):
        run(["mandoc", "-Tlint", "-W", "warning", *sorted(glob.glob(f"{tree}/share/man/man1/*.1"))])
    else:
        lacking.append("mandoc")
    for shell, files in (("bash", "bash-completion/completions/*"), ("zsh", "zsh/site-functions/*"), ("fish", "fish/vendor_completions.d/*")):
        if shutil.which(shell):
            for file in sorted(glob.glob(f"{tree}/share/{files}")):
                run([shell, "-n", file])
        else:
            lacking.append(shell)
    for words, wanted in (("'' 1", "explain"), ("explain --compiler '' 3", "clang-cl"), ("explain --json --comp 3", "--compiler"), ("explain gcc -- 3", "")):
        *given, at = words.split(" ")
        script = f". {tree}/share/bash-completion/completions/scl; COMP_WORDS=(scl {' '.join(given)}) COMP_CWORD={at}; _scl; echo ${{COMPREPLY[@]}}"
        told = run(["bash", "-c", script]).split()
        if wanted not in told if wanted else told:
            fail(f"bash completes scl {' '.join(given)} by {told}")
    return lacking


def check_links(tree):
    """Each link of a page to a file has its file."""
    pages = glob.glob(f"{tree}/share/doc/scl/**/*.md", recursive=True)
    links = [(page, link) for page in pages for link in re.findall(r"\[[^]\[]*\]\(([^)#\s:]+)(?:#[^)]*)?\)", text_of(page))]
    broken = [f"{os.path.relpath(page, tree)}: {link}" for page, link in links if not os.path.exists(os.path.join(os.path.dirname(page), link))]
    if broken or not links:
        fail(f"broken links: {'; '.join(broken) or 'there are none at all'}")
    useless = [it for it in ("CLAUSES.txt", "DECISIONS.md", "DESIGN.md", "GATE.md") if os.path.exists(f"{tree}/share/doc/scl/docs/{it}")]
    if useless:
        fail(f"the release has {', '.join(useless)}")
    return []


# ---- the page


class Step:
    """A command of the page, and what it writes, if the page says."""

    def __init__(self, command):
        self.command, self.wanted = command, ""

    def named(self, name):
        """The same with another example."""
        step = Step(re.sub(r"\bfirst\b", name, self.command))
        step.wanted = expected(name) if self.wanted else ""
        return step


def expected(name):
    return text_of(f"{ROOT}/bindings/expected/{name}.txt")


def steps_of(section):
    """The steps of a section's blocks; a command ends with its line, or with the text that it gets as its input."""
    steps, end = [], None
    for line in section.split("\n"):
        text = line[4:]
        if end:
            steps[-1].command += f"\n{text}"
            end = None if text == end else end
        elif line.startswith("    $ "):
            steps.append(Step(text[2:]))
            given = re.search(r"<<'?(\w+)", text)
            end = given[1] if given else None
        elif line.startswith("    ") and steps:
            steps[-1].wanted += f"{text}\n"
    return steps


def sections_of(page):
    """The steps of each section."""
    parts = re.split(r"^## (.*)$", page, flags=re.M)
    found = {title: steps_of(text) for title, text in zip(parts[1::2], parts[2::2])}
    named = {title for title, steps in found.items() if steps}
    if named != set(NEEDS):
        fail(f"docs/INSTALL.md has commands in {', '.join(sorted(named))}, and this check knows {', '.join(sorted(NEEDS))}")
    return {title: found[title] for title in found if found[title]}


def all_steps(title, steps):
    """The steps of a section, and those of the other examples."""
    if title == "The archive":
        return steps
    again = [step.named(name) for name in EXAMPLES[1:] for step in steps if re.search(r"\bfirst\b", step.command)]
    more = [Step(f'venv/bin/python -c "{OWN_LIBRARY}"')] if title == "Python" else []
    return steps + more + (again if title != "CMake" else [])


def plain_environment(room):
    """Variables that name nothing of this repository, and a PATH without Rattle's toolchain."""
    folders = [it for it in os.environ.get("PATH", "").split(":") if not os.path.exists(f"{it}/rt")]
    rustup = os.environ.get("RUSTUP_HOME", os.path.expanduser("~/.rustup"))
    return {"PATH": ":".join(folders), "HOME": f"{room}/home", "LANG": "C.UTF-8", "TMPDIR": f"{room}/home", "RUSTUP_HOME": rustup, "PIP_DISABLE_PIP_VERSION_CHECK": "1"}


def run_steps(steps, room):
    """Runs all steps in one shell, in the order of the page."""
    os.mkdir(f"{room}/told")
    lines = ["set -u"]
    for at, step in enumerate(steps):
        lines.append(f"{{\n{step.command}\n}} > {room}/told/{at} 2> {room}/told/{at}.error || {{ echo {at} > {room}/told/failed; exit 1; }}")
    with open(f"{room}/steps", "w", encoding="utf-8") as it:
        it.write("\n".join(lines) + "\n")
    ran = subprocess.run(["bash", f"{room}/steps"], cwd=f"{room}/empty", env=plain_environment(room), stdin=subprocess.DEVNULL, check=False)
    if os.path.exists(f"{room}/told/failed"):
        at = int(text_of(f"{room}/told/failed"))
        fail(f"this step of docs/INSTALL.md fails: {steps[at].command}\n{text_of(f'{room}/told/{at}')}{text_of(f'{room}/told/{at}.error')}")
    if ran.returncode:
        fail(f"the shell that runs the steps of docs/INSTALL.md ended with status {ran.returncode}")
    for at, step in enumerate(steps):
        told = text_of(f"{room}/told/{at}")
        if step.wanted and told != step.wanted:
            fail(f"{step.command}\nwrites\n{told}and docs/INSTALL.md or bindings/expected says\n{step.wanted}")


def check_page(folder, room):
    """Runs the page's commands; gives the sections that were tried, and what is not there."""
    os.makedirs(f"{room}/empty")
    os.makedirs(f"{room}/home")
    for name in (*glob.glob(f"{folder}/*.tar.gz"), f"{folder}/SHA256SUMS"):
        shutil.copy(name, f"{room}/empty")
    path, steps, tried, lacking = plain_environment(room)["PATH"], [], [], []
    for title, those in sections_of(text_of(PAGE)).items():
        missing = [it for it in NEEDS[title] if not shutil.which(it, path=path)]
        lacking += [f"{title} ({it} is not there)" for it in missing[:1]]
        if not missing:
            steps += all_steps(title, those)
            tried.append(title)
    run_steps(steps, room)
    return tried[1:], lacking


def main():
    parser = argparse.ArgumentParser(prog="capi/tests/install.py", add_help=False)
    for name in ("--library", "--programs"):
        parser.add_argument(name)
    parser.add_argument("--help", "-h", action="store_true")
    given = parser.parse_args()
    if given.help:
        print(__doc__)
        return
    words = [word for name in ("library", "programs") if getattr(given, name) for word in (f"--{name}", os.path.abspath(getattr(given, name)))]
    with tempfile.TemporaryDirectory(prefix="scl-install-") as room:
        folder, told = made_twice(room, words)
        check_glibc(told)
        tried, lacking = check_page(folder, room)
        tree = glob.glob(f"{room}/empty/scl-*-linux")[0]
        run([sys.executable, f"{os.path.dirname(os.path.realpath(__file__))}/launcher.py", f"{tree}/bin/scl"])
        lacking += check_texts(tree) + check_links(tree) + check_wheel(folder, room) + check_package(folder, room)
    also = f"; not there, so not tried: {', '.join(lacking)}" if lacking else ""
    print(f"a release, made twice, is the same bytes, and runs by docs/INSTALL.md in an empty folder: {', '.join(tried)}{also}")


if __name__ == "__main__":
    main()
