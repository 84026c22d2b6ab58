"""What bench/pages looks for: a place that says another version than the page or header from which it is taken."""
import os
import re

NAME, MAKER, HELP = "crates/scl_talks/src/name.rt", "crates/scl_requests/src/making.rt", "crates/scl_help/src/parts.rt"
# Where each number stands: of the places with one the first is right. A file that is not there says nothing.
PLACES = {
    "release": [("CHANGELOG.md", r"^## (\d[\d.]*)$"), (NAME, r'RELEASE: &str = "(.*?)"'), (HELP, r'VERSION: &str = "(.*?)\\n')],
    "rules": [("README.md", r"^\[sccache\]\(\S+\) ([\d.]+),"), (NAME, r'RULES: &str = "(.*?)"'), (HELP, r'VERSION: &str = ".*\\nrules (.*?)\\n')],
    "protocol": [("capi/scl.h", r"^#define SCL_PROTOCOL (\d+)$"), (MAKER, r'"version", b"(.*?)"'), (HELP, r'VERSION: &str = ".*\\nprotocol (.*?)"')],
}


def said(path, pattern):
    """The number that a file says; None if it says none."""
    with open(path, encoding="utf-8") as it:
        found = re.search(pattern, it.read(), re.M)
    return found and found[1]


def unlike():
    """The files that say another release, other rules or another protocol."""
    for what, places in PLACES.items():
        (first, wanted), *others = [(path, said(path, pattern)) for path, pattern in places if os.path.isfile(path)]
        for path, number in others:
            if number is None or number != wanted:
                yield f"{path} says {what} {number}, and {first} {wanted}"
