"""What can go wrong, and how it is reported: in each case run the given words, and keep nothing."""
import scl

MEANINGS = {scl.UnknownCompiler: "no such compiler", scl.TooManyWords: "too many words", scl.Newer: "not known to this library",
            scl.BadCatalogue: "a bad catalogue", MemoryError: "out of memory"}


def ask(title, compiler=b"gcc", **more):
    try:
        answer = scl.ask(compiler, [b"-E", b"a.c"], **more)
    except tuple(MEANINGS) as error:
        print(f"{title}: {MEANINGS[type(error)]}")
        return
    print(f"{title}: answered")
    if answer.outcome == scl.CANNOT_CACHE:
        print(f"word {answer.at}, {answer.reason.decode()}: {answer.sentence.decode()}")


ask("rustc", b"rustc")
ask("a setting", settings=[b"what-none-knows 1"])
ask("one word at most", most_words=1)
ask("a catalogue", catalogue=b"what is this\n")
ask("gcc -E")
