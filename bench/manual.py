#!/usr/bin/env python3
"""The manual's pages and the completions for shells: what `scl man` and `scl completions` print, and what a release installs.

usage: bench/manual.py OUT VERSION DATE

It runs at the top of the repository, and builds nothing: `scl` has them by the rows in crates/scl_options and the texts in
crates/scl_help, `describe` by what its --help prints, and `ccline` by the text below. Below OUT it writes share/man/man1, and the
folders in which bash, zsh and fish look for completions. DATE stands on each page, as 2026-01-31. bench/pages writes what `scl`
prints into crates/scl_help/src/pages.rt.

Example: bench/manual.py /tmp/out 1.0.0 2026-01-31

The status is 0; or 1 if a source is not as it has to be; or 2 if called wrongly."""
import os
import re
import sys

ROWS, PARTS, DESCRIBE = "crates/scl_options/src/rows.rt", "crates/scl_help/src/parts.rt", "crates/describe/src/main.rt"
PROGRAM = "crates/scl_program/src"
# (ccline has no --help: it takes no words)
CCLINE = """\
Answers a request about a compiler's command line with the command to run in its place.

usage: ccline    one request on standard input, its answer on standard output

It takes no words. docs/PROTOCOL.md says what a request and an answer are; describe(1) answers the same request with everything that was read.

example: printf 'compiler gcc\\nword -c\\nword a.c\\n' | ccline

statuses: 0 answered, 2 a bad line (its number is on standard error), 3 out of memory, 4 reading or writing failed
"""
HEADINGS = {"example": "EXAMPLES", "statuses": "EXIT STATUS"}
TEXT = r'"((?:[^"\\]|\\.)*)"'
ROW = re.compile(rf"^    \((\w+|&\[[^]]*\]), {TEXT}, {TEXT}, Takes::(\w+)(?:\((\w+|{TEXT})\))?, {TEXT}\),$", re.M)
NAMES = re.compile(r"^const (\w+): &\[&str\] = &\[(.*?)\];", re.M | re.S)
PART = re.compile(rf"    Part \{{\s*name: {TEXT},\s*about: {TEXT},\s*example: {TEXT},\s*\}},", re.S)
CONST = re.compile(rf"pub const (\w+): &str =\s*{TEXT};", re.S)
# (a text that is an option's name, and any that is asked for)
ASKED = re.compile(rf'(?<!b)"(--?[a-z0-9][a-z0-9-]*)"|\.(?:has|value|values|get_flag|get_str|get_strs)\(\s*(?:\w+,\s*)?{TEXT}')
WHAT = {"BASH": "The completions for bash.", "ZSH": "The completions for zsh.", "FISH": "The completions for fish.", "MANUAL": "The manual's page."}


def text_of(path):
    with open(path, encoding="utf-8") as it:
        return it.read()


def unquoted(text):
    return re.sub(r"\\(.)", lambda it: {"n": "\n"}.get(it[1], it[1]), text)


class Item:
    """An option, or a value without one."""

    def __init__(self, flags, value, text, values=(), takes=""):
        self.flags, self.value, self.text, self.values, self.takes = flags, value, text, values, takes
        self.is_path = value in ("FILE", "DIR", "PATH", "BUILD")
        self.is_rest = takes in ("Rest", "RestOrNothing", "NameAndRest")

    def head(self):
        """How it is called, as help has it."""
        named = f"<{self.value}>" if self.value else ""
        if self.flags:
            return " ".join([", ".join(self.flags), *([named] if named else [])])
        named = named if self.takes in ("Rest", "Paths", "OneNameOf") else f"[{self.value}]"
        return named + "..." * (self.is_rest or self.takes == "Paths")


HELP_ITEM, VERSION_ITEM = Item(["-h", "--help"], "", "Print help"), Item(["-V", "--version"], "", "Print version")


class Help:
    """What there is to say of a program, or of its command."""

    def __init__(self, name, about, usage, items, paragraphs):
        self.name, self.about, self.usage, self.paragraphs = name, about, usage, paragraphs
        self.options = [it for it in items if it.flags]
        self.arguments = [it for it in items if not it.flags]

    def flags(self):
        return [flag for it in self.options for flag in it.flags]

    def first_values(self):
        """The values of its first argument, if they are known."""
        return self.arguments[0].values if self.arguments else ()


def paragraphs_of(text):
    return [it for it in re.split(r"\n\s*\n", text.strip("\n")) if it]


def rows():
    """The rows of options: the commands that have one, and what it is."""
    text = text_of(ROWS)
    names = {name: re.findall(TEXT, inside) for name, inside in NAMES.findall(text)}
    found = ROW.findall(text)
    if len(found) != text.count(", Takes::"):
        raise ValueError(f"{ROWS}: a row is not as the others are")
    return [
        (re.findall(TEXT, of) or names[of], name, Item([name] if name.startswith("-") else [], value, unquoted(help), names.get(held, ()), takes))
        for of, name, value, takes, held, _, help in found
    ]


def of_scl():
    """The program `scl`, and its commands by their names."""
    parts, commands = text_of(PARTS), {}
    texts = {name: unquoted(text) for name, text in CONST.findall(parts)}
    for name, about, example in PART.findall(parts):
        items = [it for of, _, it in rows() if name in of]
        words = " ".join(["scl", name, "[OPTIONS]", *[it.head() for it in items if not it.flags]])
        commands[name] = Help(f"scl-{name}", unquoted(about), [words], [*items, HELP_ITEM], paragraphs_of(unquoted(example)))
    own = Help("scl", texts["ABOUT"], ["scl [OPTIONS] <COMMAND>"], [HELP_ITEM, VERSION_ITEM], paragraphs_of(texts["STATUSES"]))
    return own, commands, texts["VERSION"]


def of_text(name, text):
    """A program by what its --help prints: what it is for, how it is called, and paragraphs."""
    first, usage, *rest = paragraphs_of(text)
    if not usage.startswith("usage: "):
        raise ValueError(f"the help of {name} is not as it has to be")
    lines = [line.strip() for line in usage.removeprefix("usage: ").split("\n")]
    flags = dict.fromkeys(flag for line in lines for flag in re.findall(r"--[\w-]+", line))
    items = [Item([flag], "FILE" if flag == "--catalogue" else "", "") for flag in flags]
    return Help(name, " ".join(first.split()), lines, items, rest)


def of_describe():
    found = re.search(r'const HELP: &str = "\\\n(.*?)";', text_of(DESCRIBE), re.S)
    if not found:
        raise ValueError(f"{DESCRIBE} has no HELP")
    return of_text("describe", unquoted(found[1]))


def unknown_names():
    """The options that the program asks for by a name that no row has."""
    known = {name for _, name, _ in rows()}
    for file in sorted(os.listdir(PROGRAM)):
        for name in dict.fromkeys(first or second for first, second in ASKED.findall(text_of(f"{PROGRAM}/{file}"))):
            if name not in known:
                yield f"{PROGRAM}/{file} asks for {name}, and {ROWS} has no such row"


# ---- pages


def roff(text):
    text = text.replace("\\", "\\e").replace("-", "\\-")
    return re.sub(r"^(?=[.'])", "\\\\&", text, flags=re.M)


def tagged(them):
    return [line for it in them for line in (".TP", f".B {roff(it.head())}", roff(it.text) + f" ({', '.join(it.values)})" * bool(it.values) or "\\&")]


def paragraph_lines(text):
    """A paragraph, of which lines that are indented stand as they are."""
    shown = [line for line in text.split("\n") if line.startswith("    ")]
    prose = " ".join(line.strip() for line in text.split("\n") if not line.startswith("    "))
    return ([".PP", roff(prose)] if prose else []) + ([".PP", ".nf", *map(roff, shown), ".fi"] if shown else [])


def headed(paragraph):
    """The heading of a paragraph that has one of its own, and the rest of its text."""
    head, _, rest = paragraph.partition(":")
    if head.lower() not in HEADINGS:
        return "DESCRIPTION", paragraph
    return HEADINGS[head.lower()], rest.strip("\n") if rest.startswith("\n") else "    " * (head.lower() == "example") + re.sub(r"\n\s+", " ", rest.strip())


def sections(it, commands=()):
    """The sections of a page by their headings, but for those at its beginning and its end."""
    found = {"DESCRIPTION": [], "COMMANDS": [line for of in commands for line in subsection(of)]}
    found |= {"ARGUMENTS": tagged(it.arguments), "OPTIONS": tagged(it.options), **{name: [] for name in HEADINGS.values()}}
    for paragraph in it.paragraphs:
        heading, text = headed(paragraph)
        found[heading] += paragraph_lines(text)
    return {heading: lines[lines[0] == ".PP" :] for heading, lines in found.items() if lines}


def subsection(it):
    """What the page of a program says of its command."""
    lines = [f".SS {roff(it.name.replace('-', ' ', 1))}", roff(it.about) + ".", ".PP", ".nf", *map(roff, it.usage), ".fi", *tagged(it.arguments + it.options)]
    return lines + [line for paragraph in it.paragraphs for line in paragraph_lines(headed(paragraph)[1])]


def page_of(it, version, date, others, commands=()):
    """The manual's page of a program, or of its command."""
    lines = [f'.TH {roff(it.name).upper()} 1 "{date}" "scl {version}" "User Commands"', ".SH NAME", f"{roff(it.name)} \\- {roff(it.about.rstrip('.'))}"]
    lines += [".SH SYNOPSIS", ".nf", *map(roff, it.usage), ".fi"]
    lines += [line for heading, text in sections(it, commands).items() for line in (f".SH {heading}", *text)]
    lines += [".SH SEE ALSO", ", ".join(f"{roff(other)}(1)" for other in others if other != it.name)]
    return "\n".join(lines) + "\n"


# ---- completions


def quoted(text):
    return "'" + text.replace("'", "'\\''") + "'"


def function_of(name):
    """The name of a program's function, which is none of the shell's own."""
    return "_scl" if name == "scl" else f"_scl_{name}"


def bash_values(it):
    """Offers the values of an option, if they are known, or files."""
    offered = f"-W {quoted(' '.join(it.values))}" if it.values else "-f" if it.is_path else ""
    return f'COMPREPLY=($(compgen {offered} -- "$word")); ' if offered else ""


def bash(own, commands):
    """A function for bash: commands first, then options, and their values. After a word of the compiler's it offers files."""
    name, function = own.name, function_of(own.name)
    valued = {flag: it for of in (own, *commands.values()) for it in of.options for flag in it.flags if it.value}
    kinds = "".join(f"        {flag}) {bash_values(it)}return ;;\n" for flag, it in sorted(valued.items()))
    cases = "".join(f"        {command}) options={quoted(' '.join(of.flags()))} values={quoted(' '.join(of.first_values()))} ;;\n" for command, of in commands.items())
    firsts = " ".join([*commands, *own.flags()])
    first = f"""    if [ "$COMP_CWORD" = 1 ]; then
        COMPREPLY=($(compgen -W {quoted(firsts)} -- "$word"))
        return
    fi
    case ${{COMP_WORDS[1]}} in
{cases}        *) return ;;
    esac
""" if commands else f"    options={quoted(firsts)}\n"
    return f"""# Completions of {name} for bash.
{function}() {{
    local word=${{COMP_WORDS[COMP_CWORD]}} options values at
    COMPREPLY=()
    case ${{COMP_WORDS[COMP_CWORD - 1]}} in
{kinds}    esac
{first}    for ((at = {2 if commands else 1}; at < COMP_CWORD; at++)); do
        case ${{COMP_WORDS[at]}} in
            {'|'.join(sorted(valued)) or '--'}) ((at++)) ;;
            -*) ;;
            *) return ;;
        esac
    done
    case $word in
        -*) COMPREPLY=($(compgen -W "$options" -- "$word")) ;;
        *) [ -z "$values" ] || COMPREPLY=($(compgen -W "$values" -- "$word")) ;;
    esac
}}
complete -o default -F {function} {name}
"""


def zsh_values(it):
    return f"({' '.join(it.values)})" if it.values else "_files" if it.is_path else " "


def zsh_text(text):
    return text.replace("[", "(").replace("]", ")").replace(":", "")


def zsh_option(it):
    value = f":{zsh_text(it.value)}:{zsh_values(it)}" if it.value else ""
    return [quoted(f"{'*' * (it.takes == 'Several')}{flag}[{zsh_text(it.text)}]{value}") for flag in it.flags]


def zsh_argument(it):
    named = quoted(f":{it.value.lower()}:{zsh_values(it)}")
    if it.takes == "NameAndRest":
        return [named, "'*: :_files'"]
    if it.is_rest:
        return ["'*::word:_normal'"]
    return [quoted(f"*:{it.value.lower()}:{zsh_values(it)}")] if it.takes == "Paths" else [named]


def zsh_words(of):
    """The options of a program, or of its command, and what follows them: another program's words, or files."""
    return " ".join([word for it in of.options for word in zsh_option(it)] + [word for it in of.arguments for word in zsh_argument(it)])


def zsh(own, commands):
    """A function for zsh, which is called where the file is that of the function, and else is made known."""
    name, function = own.name, function_of(own.name)
    listed = "".join(f"        {quoted(command + ':' + of.about.replace(':', ','))}\n" for command, of in commands.items())
    cases = "".join(f"        {command}) _arguments {zsh_words(of)} ;;\n" for command, of in commands.items())
    plain = f"_arguments {zsh_words(own)}"
    body = f"""    local -a commands=(
{listed}    )
    if (( CURRENT == 2 )); then
        _describe command commands
        {plain}
        return
    fi
    local command=$words[2]
    shift words
    (( CURRENT-- ))
    case $command in
{cases}    esac
""" if commands else f"    {plain}\n"
    return f"""#compdef {name}
# Completions of {name} for zsh.
{function}() {{
{body}}}
if [ "$funcstack[1]" = {function} ]; then {function} "$@"; else compdef {function} {name}; fi
"""


def fish_option(name, condition, it):
    flags = " ".join(f"-l {flag[2:]}" if flag.startswith("--") else f"-s {flag[1:]}" for flag in it.flags)
    value = f" -x -a {fish_text(' '.join(it.values))}" if it.values else " -r" if it.is_path else " -x" if it.value else ""
    return f"complete -c {name}{condition} {flags}{value} -d {fish_text(it.text)}\n"


def fish_text(text):
    return "'" + re.sub(r"(['\\])", r"\\\1", text) + "'"


def fish_command(name, command, of):
    condition = f" -n '__fish_seen_subcommand_from {command}'"
    values = f"complete -c {name}{condition} -f -a {fish_text(' '.join(of.first_values()))}\n" if of.first_values() else ""
    return values + "".join(fish_option(name, condition, it) for it in of.options)


def fish(own, commands):
    first = " -n __fish_use_subcommand" if commands else ""
    text = f"# Completions of {own.name} for fish.\n"
    text += "".join(f"complete -c {own.name}{first} -f -a {command} -d {fish_text(of.about)}\n" for command, of in commands.items())
    text += "".join(fish_option(own.name, first, it) for it in own.options)
    return text + "".join(fish_command(own.name, command, of) for command, of in commands.items())


# ---- files


def page(_):
    """The lines of the source that holds what `scl` prints."""
    own, commands, version = of_scl()
    manual = page_of(own, version.split("\n", 1)[0], "", ["ccline", "describe", *[it.name for it in commands.values()]], commands.values())
    made = ["//! The completions and the manual's page, which `bench/pages` writes of the rows and texts of help."]
    for name, text in {"BASH": bash(own, commands), "ZSH": zsh(own, commands), "FISH": fish(own, commands), "MANUAL": manual}.items():
        escaped = text.replace("\\", "\\\\").replace('"', '\\"')
        lines = f'pub const {name}: &str = "{escaped}";'.split("\n")
        # (rt fmt puts a first line of more than 100 columns below the name)
        made += ["", f"/// {WHAT[name]}", *(lines if len(lines[0]) <= 100 else [*lines[0].replace(' = "', ' =\n    "', 1).split("\n"), *lines[1:]])]
    return made


def write(path, text):
    os.makedirs(os.path.dirname(path), exist_ok=True)
    with open(path, "w", encoding="utf-8") as it:
        it.write(text)


def main(out, version, date):
    scl, commands, _ = of_scl()
    pages = [scl, of_describe(), of_text("ccline", CCLINE), *commands.values()]
    names = sorted(it.name for it in pages)
    for it in pages:
        write(f"{out}/share/man/man1/{it.name}.1", page_of(it, version, date, names, commands.values() if it is scl else ()))
    for own, those in ((scl, commands), (of_describe(), {})):
        places = {f"bash-completion/completions/{own.name}": bash, f"zsh/site-functions/{function_of(own.name)}": zsh, f"fish/vendor_completions.d/{own.name}.fish": fish}
        for path, made_by in places.items():
            write(f"{out}/share/{path}", made_by(own, those))


if __name__ == "__main__":
    if len(sys.argv) != 4 or sys.argv[1].startswith("-"):
        is_asked = sys.argv[1:] in (["--help"], ["-h"])
        print(__doc__, file=sys.stdout if is_asked else sys.stderr)
        sys.exit(0 if is_asked else 2)
    try:
        main(*sys.argv[1:])
    except (OSError, ValueError) as error:
        sys.exit(f"bench/manual.py: {error}")
