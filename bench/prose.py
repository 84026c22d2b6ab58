"""What bench/pages looks for: in pages by hand long sentences, headings and names that are not there; in every file what a merge left open."""
import glob
import os
import re
import subprocess

MOST = 30
ITEM = re.compile(r"\s*(?:[-*]|\d+\.) ")
END = re.compile(r"(?<=[.!?])[)*\"]*\s+")
CITED = re.compile(r"\b([A-Z]{4,})(?:\.md)?(?:\]\([^)]*\))?(?:, | \()([A-Z][\w -]*(?:(?:, and|,| and) [A-Z][\w -]*)*)")
LINK = re.compile(r"\]\(([^)#\s]+)(?:#[^)]*)?\)")
NAME = re.compile(r"`([\w/.-]+)`")


def pages(made):
    """The pages by hand, each as its path and its text."""
    for path in sorted([*glob.glob("*.md"), *glob.glob("docs/*.md"), *glob.glob("*/README.md"), *glob.glob("crates/*/README.md")]):
        if path not in made:
            with open(path, encoding="utf-8") as it:
                yield path, it.read()


def blocks(text):
    """The texts that a reader reads in one go: paragraphs, items of lists, cells, headings; no code."""
    block = []
    for line in text.split("\n"):
        is_new = not line.strip() or line.startswith(("#", "|")) or ITEM.match(line)
        if is_new and block:
            yield " ".join(block)
            block = []
        if line.startswith("|"):
            yield from re.split(r"(?<!\\)\|", line)
        elif line.strip() and (block or not line.startswith("    ") or ITEM.match(line)):
            block.append(line.strip())
    if block:
        yield " ".join(block)


def long_sentences(path, text):
    """The sentences of more words than a reader keeps in mind. A piece of code is one word."""
    for block in blocks(text):
        for sentence in END.split(re.sub(r"``.+?``|`[^`]*`", "x", block)):
            count = sum(1 for word in sentence.split() if re.search(r"\w", word))
            if count > MOST:
                yield f"{path} has a sentence of {count} words: {sentence[:80]} .."


def broken_links(path, text):
    """The links of a page to files of the repository that are not there."""
    for target in LINK.findall(text):
        if "://" not in target and not os.path.exists(os.path.join(os.path.dirname(path), target)):
            yield f"{path} has a link to {target}, and there is no such file"


def headings(path):
    with open(path, encoding="utf-8") as it:
        return " | ".join(line.lstrip("#").strip() for line in it if line.startswith("#")).lower()


def unknown_headings(made):
    """The headings that a page or a source cites, as `docs/RULES.md, Owners` does, and that the page has not."""
    sources = [it for folder in ("crates/*/src/**/*.rt", "bench/*", "trials/*", "examples/*", "capi/*", "capi/examples/*") for it in glob.glob(folder, recursive=True)]
    files = [*(path for path, _ in pages(made)), *sorted(filter(os.path.isfile, sources))]
    known = {os.path.basename(path)[:-3]: headings(path) for path in [*glob.glob("docs/*.md"), "CONTRIBUTING.md", "CHANGELOG.md"]}
    for file in files:
        with open(file, encoding="utf-8", errors="replace") as it:
            text = it.read()
        for page, cited in CITED.findall(text):
            for heading in re.split(r", and |, | and\b ?", cited):
                if page in known and heading[:1].isupper() and heading.strip().lower() not in known[page]:
                    yield f"{file} cites {page}, {heading.strip()}, and there is no such heading"


def unknown_names(file):
    """The names in a file of recipes that no file of the repository has."""
    sources = [it for kind in ("rt", "antt") for it in glob.glob(f"crates/**/*.{kind}", recursive=True) if "/out/" not in it]
    words = {os.path.basename(it) for it in sources} | {os.path.basename(it).rpartition(".")[0] for it in sources}
    for path in sources:
        with open(path, encoding="utf-8") as it:
            words.update(re.findall(r"[A-Za-z_][\w'-]*\w", it.read()))
    with open(file, encoding="utf-8") as it:
        named = set(NAME.findall(it.read()))
    return [f"{file} names {it}, and nothing here has that name" for it in sorted(named - words) if not os.path.exists(it)]


def unmerged():
    """The conflict markers in text files, except in those that git ignores."""
    words = ["git", "grep", "--no-index", "--exclude-standard", "-nIE", r"^(<{7}|>{7})( |$)"]
    found = subprocess.run(words, stdout=subprocess.PIPE, check=False, text=True, errors="replace").stdout
    for path, number, marker in (line.split(":", 2) for line in found.splitlines()):
        yield f"{path} has a conflict marker in line {number}: {marker}"
