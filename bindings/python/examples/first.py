"""A first question: which command may run in the place of `gcc -c a.c -O2`, and what it reads and makes."""
import scl

answer = scl.ask(b"gcc", [b"-c", b"a.c", b"-O2"], wants_hazards=True)
if answer.record and not answer.hazards:
    print("run: gcc", *[word.decode() for word in answer.command])
    print("reads:", answer.record.input.decode())
    for name, path, is_optional in answer.record.outputs:
        print("makes:", path.decode())
    print("may be kept:", "yes" if answer.is_cacheable else "no")
else:
    print("run the given words")
