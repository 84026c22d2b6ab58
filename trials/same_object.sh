#!/usr/bin/env bash
# Compiles a C file as it is asked for, and again by the command that `scl command` gives for the same words,
# and compares the two objects and dependency files byte for byte.
#
# usage: trials/same_object.sh PATH_OF_SCL [gcc|g++|clang|clang++|clang-cl]
#
# Status 0: they are the same; 1: they differ, or there is no built command; 64: called wrongly, or the compiler is not there.
set -euo pipefail

help() {
    sed -n '2,/^set /{/^set /d;s/^# \{0,1\}//p}' "$0"
}

usage() {
    help >&2
    exit 64
}
case "${1-}" in --help | -h) help && exit ;; esac
[ $# -eq 1 ] || [ $# -eq 2 ] || usage
[ -f "$1" ] && [ -x "$1" ] || { echo "trials/same_object.sh: $1: no program" >&2; usage; }
scl=$(realpath "$1")
compiler=${2:-gcc}
case $compiler in gcc | g++ | clang | clang++ | clang-cl) ;; *) usage ;; esac
executable=$compiler
command -v "$executable" > /dev/null || executable=$compiler-14
command -v "$executable" > /dev/null || { echo "trials/same_object.sh: there is no $compiler" >&2; exit 64; }
folder=$(mktemp -d)
trap 'rm -rf "$folder"' EXIT
cd "$folder"

mkdir include src build
cat > include/greeting.h <<'C'
#define TIMES 3
C
cat > src/main.c <<'C'
#ifdef _WIN32
int printf(const char *, ...);
#else
#include <stdio.h>
#endif
#include "greeting.h"

int main(void) {
    for (int i = 0; i < TIMES; i++)
        printf("%s %d\n", GREETING, i);
    return 0;
}
C
object=main.o
words=(-O2 -g -Wall -I include '-DGREETING="hello, \"world\""' -fno-common -MMD -o build/main.o -c src/main.c)
if [ "$compiler" = clang-cl ]; then
    object=main.obj
    words=(/O2 /Z7 /W3 /I include '/DGREETING="hello, \"world\""' -clang:-MD -clang:-MFbuild/main.d /Brepro /Fobuild/ /c src/main.c)
fi

mapfile -d '' -t built < <("$scl" command -0 -- "$executable" "${words[@]}")
if [ ${#built[@]} -eq 0 ]; then
    echo "trials/same_object.sh: there is no built command" >&2
    exit 1
fi

"$executable" "${words[@]}"
mv build asked
mkdir build
"${built[@]}"
printf 'asked: %s' "$executable"; printf ' %q' "${words[@]}"; echo
printf 'built:'; printf ' %q' "${built[@]}"; echo
cmp "asked/$object" "build/$object"
cmp asked/main.d build/main.d
echo "the objects are the same $(wc -c < "build/$object") bytes"
