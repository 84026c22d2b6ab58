"""Which `==` a definition or a law cites, and which laws say that what is equal by it is one."""
import glob
import re

# the contract of a derived `==`, as a file cites it: the crate, the module and the type
CITED = re.compile(r"Rattle\.(\w+)\.specs\.contracts\.((?:\w+\.)*\w+?)PartialEq\.TheImpl\b")


def cited_in(paths):
    return {(it[1], it[2]): path for path in paths for it in CITED.finditer(open(path).read())}


def confusing():
    """A line for each `==` that a definition cites and of which no law says that it tells all apart."""
    laws = [path for path in glob.glob("crates/*/src/laws.rt") if "_told_apart" in open(path).read()]
    known = cited_in(laws)
    for (crate, name), path in sorted(cited_in(sorted(glob.glob("crates/*/specs/**/*.antt", recursive=True))).items()):
        if (crate, name) not in known:
            yield f"{path}: it cites the == of {name} of {crate}, and no src/laws.rt has a clause `.. are_told_apart` of it"
