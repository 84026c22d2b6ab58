// The key of `gcc -c a.c -O2 -DX=1`: which rows a cache hashes as they are, which it looks up and hashes with their answer, and
// which it hashes only if the macro counts (docs/CACHE.md). Of a row `by name` the fields say where to look, and only the name is hashed.
#include <iostream>
#include "scl.hpp"

int main() {
    scl::Request request("gcc", {"-c", "a.c", "-O2", "-DX=1"});
    request.raw().wants_key = true;
    const scl::Answer answer = request.ask();
    if (!answer) return 1;
    if (!answer.is_cacheable() || !answer.key_size()) {
        std::cout << "keep nothing\n";
        return 0;
    }
    for (std::size_t at = 0; at < answer.key_size(); at++) {
        const scl::KeyRow row = answer.key_at(at);
        std::cout << (row.may_be_left_out ? "hash if it counts " : row.is_asked ? "look up " : "hash ") << row.name << (row.is_named ? ", by name" : "");
        if (!row.is_asked)
            for (std::string_view field : row.fields) std::cout << ' ' << field;
        std::cout << '\n';
    }
}
