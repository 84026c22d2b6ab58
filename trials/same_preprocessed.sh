#!/usr/bin/env bash
# Preprocesses a C and a C++ file with the words of the row `run` that the program `describe` gives for a compile command, and with the
# given words themselves, with -E and -P in the place of -c and its output, and compares the two texts byte for byte.
#
# usage: trials/same_preprocessed.sh PATH_OF_DESCRIBE
#
# Status 0: they are the same; 1: they differ, or there are no words; 64: called wrongly, or a compiler is not there.
set -euo pipefail

help() {
    sed -n '2,/^set /{/^set /d;s/^# \{0,1\}//p}' "$0"
}

usage() {
    help >&2
    exit 64
}
case "${1-}" in --help | -h) help && exit ;; esac
[ $# -eq 1 ] || usage
[ -f "$1" ] && [ -x "$1" ] || { echo "trials/same_preprocessed.sh: $1: no program" >&2; usage; }
program=$(realpath "$1")
for compiler in gcc g++ clang clang++; do
    command -v "$compiler" > /dev/null || { echo "trials/same_preprocessed.sh: there is no $compiler" >&2; exit 64; }
done
folder=$(mktemp -d)
trap 'rm -rf "$folder"' EXIT
cd "$folder"

mkdir include src build
cat > include/greeting.h <<'C'
#define TIMES 3
C
cat > src/main.c <<'C'
#include "greeting.h"

#ifdef LOUD
const char *greeting = GREETING "!";
#else
const char *greeting = GREETING;
#endif
int times = TIMES;
C
sed 's/^const/static const/' src/main.c > src/main.cc

same() {
    compiler=$1
    input=$2
    given=(-Iinclude '-DGREETING="hi"' -DLOUD -O2 -std="$3" -Wall)
    {
        echo "compiler $compiler"
        printf 'word %s\n' -c "$input" "${given[@]}" -o build/main.o
    } > request
    "$program" < request > answer || true
    [ "$(head -n 1 answer)" = ok ] || { echo "$compiler: no command is built: $(cat answer)" >&2; exit 1; }
    [ "$(grep -c '^run ' answer)" = 1 ] || { echo "$compiler: more runs than one" >&2; exit 1; }
    read -r -a words < <(sed -n 's/^run //p' answer) # none of these words has a byte that is escaped
    "$compiler" "${words[@]}" > by_runs.i
    "$compiler" -E -P "$input" "${given[@]}" > by_given.i
    cmp by_runs.i by_given.i || { echo "$compiler: the texts differ for $input" >&2; exit 1; }
    [ -s by_given.i ] || { echo "$compiler: no text" >&2; exit 1; }
    echo "$compiler, $input: the same $(wc -c < by_given.i) bytes, by: ${words[*]}"
}

same gcc src/main.c gnu11
same g++ src/main.cc gnu++17
same clang src/main.c gnu11
same clang++ src/main.cc gnu++17
