// The classes of scl.hpp: memory is given back once, also after moves, and an answer that is none is empty. Run under the sanitizers.
#include <algorithm>
#include <cassert>
#include <cstdio>
#include <string>
#include <vector>
#include "scl.hpp"

static scl::Answer asked(std::string_view word) {
    scl::Request request("gcc", {"-c", "a.c"});
    request.add_word(word);
    request.raw().wants_key = true;
    return request.ask();
}

int main() {
    const std::string word = "-DTEXT=a b";
    scl::Answer answer = asked(word);
    const std::vector<std::string_view> words(answer.command().begin(), answer.command().end());
    assert(words.size() == answer.command().size() && std::count(words.begin(), words.end(), word) == 1);
    assert(answer.outputs().size() == 1 && answer.outputs()[0].path == "a.o" && !answer.outputs()[0].is_optional);
    assert(answer.key_size() > 1 && answer.key_at(0).name == "is" && !answer.key_at(0).is_asked);

    scl::Request based("gcc", {"-c", "/w/a.c"});
    based.add_base("/w");
    based.raw().wants_key = true;
    const scl::Answer shared = based.ask();
    assert(shared.key_at(0).name == "bases" && !shared.key_at(0).is_asked && scl::view(shared.raw().directory_in_object) == "no");

    scl::Answer moved = std::move(answer);
    assert(moved && moved.is_cacheable() && moved.command()[0] == "-x");
    moved = asked("-E");
    assert(moved.is_refused() && moved.reason() == "-E" && moved.command().empty());
    moved = scl::Request("rustc").ask();
    assert(!moved && moved.status() == scl::Status::no_such_compiler && !moved.is_cacheable());
    assert(moved.command().empty() && moved.hazards().empty() && moved.input().empty() && !moved.key_size());

    scl::Catalogue known, own("hazard of-ones-own object\n  says It is one's own.\n  gcc: input a.c\n");
    for (const scl::Catalogue *it : {&known, &own}) {
        scl::Request request("gcc", {"-c", "a.c"});
        request.set_catalogue(*it);
        request.raw().wants_hazards = true;
        const scl::Answer told = request.ask();
        assert(told && told.hazards().size() == (it == &own ? 1 : 0));
    }
    scl::Catalogue taken = std::move(own);
    assert(taken && !own && !taken.wrong_line());
    taken = scl::Catalogue("# one\n?\n");
    assert(!taken && taken.status() == scl::Status::bad_catalogue && taken.wrong_line() == 2);
    based.set_catalogue(taken);
    const scl::Answer none = based.ask();
    assert(!none && none.status() == scl::Status::bad_catalogue && !none.is_cacheable() && none.command().empty());
    std::puts("the classes of scl.hpp give their memory back");
}
