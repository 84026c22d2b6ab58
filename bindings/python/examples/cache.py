"""The loop of a cache over three command lines: it asks until no file is wanted that is there, and decides. The files of this
example are in memory. The look-ups are left out, and so are hits: docs/CACHE.md goes through a whole cache."""
import scl

DISK = {b"/w/flags": b"-O2 -DX=1"}


def answered(words):
    """The answer when every file that is wanted and there was given."""
    files = {}
    while True:
        answer = scl.ask(b"gcc", words, b"/w", files=files.items(), wants_questions=True, wants_key=True)
        found = {path: DISK[path] for path in answer.questions.files if path in DISK}
        if not found:
            return answer
        for path in found:
            print("  reads", path.decode())
        files.update(found)


def decision(answer):
    if answer.outcome == scl.CANNOT_CACHE:
        return "run it as given: " + answer.reason.decode()
    if answer.keep:
        return "run it as given: " + b" ".join(answer.keep[0][1:]).decode()
    if not answer.is_cacheable or not answer.key:
        return "run it as given"
    names = [name for name, *_ in answer.key]
    facts, macros = names.count(b"is") + names.count(b"output"), names.count(b"shown")
    return f"hash {facts} rows, look up {len(names) - facts - macros}, hash {macros} if it counts"


for line in (b"gcc -c a.c @flags", b"gcc -E a.c", b"gcc -c a.c -o -"):
    print(line.decode())
    print("  " + decision(answered(line.split()[1:])))
