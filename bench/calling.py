"""How the scripts of this folder are called: their help is their own text, and a mistake ends with status 2. Also what they call of the toolchain."""
import argparse
import functools
import importlib.machinery
import importlib.util
import os
import subprocess
import sys


class Parser(argparse.ArgumentParser):
    """A parser of the words after a script that has this text."""

    def __init__(self, text):
        super().__init__()
        self.text = text

    def error(self, message):
        sys.stderr.write(f"bench/{os.path.basename(sys.argv[0])}: {message}\n\n{self.text}")
        sys.exit(2)

    def print_help(self, file=None):
        print(self.text, end="", file=file)


@functools.cache
def installed_rt():
    """The toolchain's command `rt` as a module, found beside the page that `rt doc` names; `rtlib` in it is what it is made of."""
    page = subprocess.run(["rt", "doc"], capture_output=True, text=True, check=True).stdout.strip()
    loader = importlib.machinery.SourceFileLoader("rt", f"{os.path.dirname(page)}/bin/rt")
    made = importlib.util.module_from_spec(importlib.util.spec_from_loader("rt", loader))
    loader.exec_module(made)
    return made
