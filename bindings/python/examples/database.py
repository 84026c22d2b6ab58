"""A compile database: how many entries a cache gains, and why the rest is lost. `scl database` does the same for files, with words
of a shell's text."""
import json
import os

import scl

DATABASE = """[
  {"directory": "/w", "file": "a.c", "arguments": ["gcc", "-c", "a.c"]},
  {"directory": "/w", "file": "c.c", "arguments": ["gcc", "-E", "c.c"]},
  {"directory": "/w", "file": "d.c", "arguments": ["gcc", "-c", "d.c", "-MD", "-MT", "one", "-MT", "two"]}
]"""

cached = with_hazard = 0
entries = json.loads(DATABASE)
for number, entry in enumerate(entries, 1):
    program, *words = map(os.fsencode, entry["arguments"])
    answer = scl.ask(program, words, os.fsencode(entry["directory"]), wants_hazards=True)
    cached += answer.outcome == scl.COMPILED
    with_hazard += bool(answer.hazards)
    if answer.outcome == scl.CANNOT_CACHE:
        print(f"entry {number} cannot be cached: {answer.reason.decode()}")
    for hazard in answer.hazards:
        print(f"entry {number} has a hazard: {hazard}")
print(f"{len(entries)} entries, {cached} can be cached, {with_hazard} with a hazard")
