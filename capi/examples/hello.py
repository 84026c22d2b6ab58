"""python3 hello.py COMPILER WORD..: the command to run in the place of the words, what it makes, and its hazards. It wants PYTHONPATH to
name the folder of scl.py, as /usr/local/share/scl, and libscl.so.1 where the loader finds it (or SCL_LIBRARY)."""
import os
import sys

import scl

if len(sys.argv) < 2:
    sys.exit(__doc__)
answer = scl.ask(os.fsencode(sys.argv[1]), [os.fsencode(it) for it in sys.argv[2:]], directory=os.fsencode(os.getcwd()), wants_hazards=True)
if answer.outcome == scl.COMPILED:
    for word in answer.command:
        print("arg", os.fsdecode(word))
    for name, path, _ in answer.record.outputs:
        print("makes", os.fsdecode(path), "as", name.decode())
    for name in answer.hazards:
        print("hazard", name)
else:
    print("cannot-cache " + answer.reason.decode() if answer.outcome == scl.CANNOT_CACHE else "not-compilation")
