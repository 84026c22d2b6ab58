#!/usr/bin/env python3
"""Refuses each request for memory of a run in turn, fails each read and each write in turn, and checks what the program says:
  memory was refused     status 3, and nothing written; the whole answer if a block could not be made smaller (it stays as it is)
  a read failed          status 4, and nothing written
  a write failed         status 4, and a beginning of the answer, less than the whole

usage: bench/refusals.py PROGRAM [REQUEST_FILE ..]   (it needs cc; without files: requests of its own)

PROGRAM is the path of a built `ccline` or `describe`.

Example: bench/refusals.py crates/ccline/out/ccline

Status 0: each run said what it should; 1: one did not, and what it said is printed; 2: called wrongly, or there is no cc.
"""
import os
import shutil
import subprocess
import sys
import tempfile

sys.dont_write_bytecode = True

from calling import Parser

SHIM = r"""
#define _GNU_SOURCE
#include <dlfcn.h>
#include <errno.h>
#include <malloc.h>
#include <stdlib.h>
#include <unistd.h>
static long wanted(const char *name) { const char *text = getenv(name); return text ? atol(text) : 0; }
static int hit(const char *name, long *count) { long at = wanted(name); return at && ++*count == at; }
static long memory, reads, writes;
/* The size that was asked for stands in a block's last bytes, after those of the program. */
static size_t *size_of(void *block) { return (size_t *)((char *)block + malloc_usable_size(block)) - 1; }
static void *sized(void *block, size_t size) { if (block) *size_of(block) = size; return block; }
void *malloc(size_t size) {
    static void *(*real)(size_t);
    if (!real) real = dlsym(RTLD_NEXT, "malloc");
    if (hit("REFUSE_MEMORY", &memory)) { write(2, "#", 1); return 0; }
    return sized(real(size + sizeof(size_t)), size);
}
void *realloc(void *old, size_t size) {
    static void *(*real)(void *, size_t);
    if (!real) real = dlsym(RTLD_NEXT, "realloc");
    if (hit("REFUSE_MEMORY", &memory)) { write(2, old && size <= *size_of(old) ? "~" : "#", 1); return 0; }
    return sized(real(old, size + sizeof(size_t)), size);
}
int posix_memalign(void **out, size_t align, size_t size) {
    static int (*real)(void **, size_t, size_t);
    if (!real) real = dlsym(RTLD_NEXT, "posix_memalign");
    if (hit("REFUSE_MEMORY", &memory)) { write(2, "#", 1); return ENOMEM; }
    int status = real(out, align, size + sizeof(size_t));
    if (!status) sized(*out, size);
    return status;
}
void *aligned_alloc(size_t align, size_t size) {
    static void *(*real)(size_t, size_t);
    if (!real) real = dlsym(RTLD_NEXT, "aligned_alloc");
    if (hit("REFUSE_MEMORY", &memory)) { write(2, "#", 1); return 0; }
    return sized(real(align, size + sizeof(size_t)), size);
}
ssize_t read(int file, void *to, size_t size) {
    static ssize_t (*real)(int, void *, size_t);
    if (!real) real = dlsym(RTLD_NEXT, "read");
    if (file == 0 && hit("FAIL_READ", &reads)) { errno = EIO; write(2, "#", 1); return -1; }
    return real(file, to, file == 0 && size > 7 && wanted("FAIL_READ") ? 7 : size);
}
ssize_t write(int file, const void *from, size_t size) {
    static ssize_t (*real)(int, const void *, size_t);
    if (!real) real = dlsym(RTLD_NEXT, "write");
    if (file == 1 && hit("FAIL_WRITE", &writes)) { errno = EIO; real(2, "#", 1); return -1; }
    return real(file, from, file == 1 && size > 7 && wanted("FAIL_WRITE") ? 7 : size);
}
"""

REQUESTS = [
    b"compiler diab\nword -c\nword foo.cxx\nword -fabc\nword -I\nword include\nword -o\nword foo.o\nword -include\nword file\n",
    b"compiler diab\nfile foo\t-c\\x20foo.c\\x20-o\\x20foo.o\nword -@foo\n",
    b"compiler gcc\nword -c\nword src/foo.cc\nword -stdlib=libc++\nword -MMD\n",
    b"compiler clang\nword -c\nword -Xclang\nword -include\nword -Xclang\nword pch.h\nword --\nword -a.c\n",
    b"compiler cl\nenv CL\t/DA#1\\x20/O2\nword /c\nword x.c\n",
    b"compiler gcc\nword -c\nword a.c\nword -gsplit-dwarf\nword -pipe\n",
    b"compiler tasking\nword --dep-file\nword -c\nword foo.c\n",
    b"compiler gcc\ncwd /w\nenv A\tB\ndir d\nexists e\nword -c\nword src/foo.cc\nword -stdlib=libc++\nword -MMD\nword -gsplit-dwarf\n",
    b"compiler gcc\nfile r\t-c\\x20a.c\nword @r\nword -Idir\n",
    b"compiler gcc\nword -c\nword a.c\nword b.c\n",
    b"compiler clang\ncwd /w\nword -c\nword a.c\nword -Xclang\nword -load\nword -Xclang\nword p.so\nword -MD\n",
    b"compiler cl\ncwd /w\nenv CL\t/DA#1\nenv B\tC\nenv _CL_\t/O2\nfile /w/r\t/Zi\\x20/Fdx\nexists /w/x.pdb\nword /c\nword /Tpa\nword @r\n",
    b"compiler clang-cl\ncwd /w\nword /c\nword a.cc\nword /Foout/\nword -Xclang\nword -load\nword -Xclang\nword p.so\nword -clang:-MD\n",
]


def run(program, shim, request, **variables):
    environment = dict(os.environ, LD_PRELOAD=shim, **variables)
    done = subprocess.run([program], input=request, capture_output=True, env=environment)
    return done.returncode, done.stdout, done.stderr


def named(program):
    """What stands before a message of the program: its name, which `ccline` alone leaves out."""
    name = os.path.basename(program)
    return b"" if name.startswith("ccline") else f"{name}: ".encode()


def tries(program, shim, request, whole, variable, status, text, check):
    """Fails each call of a kind in turn, until a run meets none; gives how many there were, and how many would have made a block smaller."""
    failed = smaller = 0
    while True:
        number = failed + smaller + 1
        got, out, err = run(program, shim, request, **{variable: str(number)})
        met, kept = err.startswith(b"#"), err == b"~"
        wanted = (got == status and err == b"#" + named(program) + text + b"\n" and check(out)) if met else (got, out) == (0, whole)
        if not wanted:
            sys.exit(f"{variable}={number}: status {got}, standard output {out!r}, standard error {err!r}")
        if not met and not kept:
            return failed, smaller
        failed, smaller = failed + met, smaller + kept


def with_shim(use):
    """Builds the shim and calls this with its path."""
    with tempfile.TemporaryDirectory() as folder:
        shim = os.path.join(folder, "shim.so")
        with open(os.path.join(folder, "shim.c"), "w") as source:
            source.write(SHIM)
        subprocess.run(["cc", "-shared", "-fPIC", "-O1", "-o", shim, os.path.join(folder, "shim.c"), "-ldl"], check=True)
        use(shim)


def answers(program, shim, requests):
    """Refuses and fails each call of each request in turn, and prints how many there were."""
    for request in requests:
        status, whole, told = run(program, shim, request)
        if status != 0:
            sys.exit(f"a request is not answered: status {status}, {told.decode(errors='replace').strip()}")
        memory, smaller = tries(program, shim, request, whole, "REFUSE_MEMORY", 3, b"out of memory", lambda out: out == b"")
        reads, _ = tries(program, shim, request, whole, "FAIL_READ", 4, b"read failed", lambda out: out == b"")
        writes, _ = tries(program, shim, request, whole, "FAIL_WRITE", 4, b"write failed", lambda out: out != whole and whole.startswith(out))
        if not (memory and reads and writes):
            sys.exit(f"{memory} requests for memory, {reads} reads and {writes} writes were met: none may be 0")
        print(f"{memory} requests for memory refused and {smaller} blocks not made smaller, {reads} reads and {writes} writes failed: {request.split()[1].decode()}, {whole.splitlines()[0].decode()}")


def main():
    parser = Parser(__doc__)
    parser.add_argument("program")
    parser.add_argument("requests", nargs="*")
    given = parser.parse_args()
    program = os.path.realpath(given.program)
    absent = [name for name in given.requests if not os.path.isfile(name)]
    if not shutil.which(program) or absent:
        parser.error(f"{absent[0]}: no file" if absent else f"{program}: no program")
    if not shutil.which("cc"):
        parser.error("there is no cc")
    requests = [open(name, "rb").read() for name in given.requests] or REQUESTS
    with_shim(lambda shim: answers(program, shim, requests))


if __name__ == "__main__":
    main()
