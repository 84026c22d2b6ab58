"""The key of `gcc -c a.c -O2 -DX=1`: which rows a cache hashes as they are, which it looks up and hashes with their answer, and
which it hashes only if the macro counts (docs/CACHE.md). Of a row `by name` the fields say where to look, and only the name is hashed."""
import scl

answer = scl.ask(b"gcc", [b"-c", b"a.c", b"-O2", b"-DX=1"], wants_key=True)
if not answer.is_cacheable or not answer.key:
    print("keep nothing")
for name, *fields in answer.key if answer.is_cacheable else []:
    if name in (b"is", b"output"):
        print("hash", name.decode(), *[field.decode() for field in fields])
    elif name == b"shown":
        print("hash if it counts", name.decode(), fields[0].decode())
    else:
        print("look up " + name.decode() + (", by name" if name in (b"plan", b"run", b"run-else", b"pch") else ""))
