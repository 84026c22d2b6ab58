// The loop of a cache over three command lines: it asks until no file is wanted that is there, and decides. The files of this
// example are in memory. The look-ups are left out, and so are hits: docs/CACHE.md goes through a whole cache.
#include <iostream>
#include <map>
#include "scl.hpp"

static const std::map<std::string_view, std::string_view> disk = {{"/w/flags", "-O2 -DX=1"}};

// Adds each file that is wanted and there; whether there is one.
static bool look(const scl::Answer &answer, scl::Request &request) {
    bool is_found = false;
    for (std::string_view path : answer.wanted_files()) {
        const auto file = disk.find(path);
        if (file == disk.end()) continue;
        std::cout << "  reads " << path << '\n';
        request.add_file(file->first, file->second);
        is_found = true;
    }
    return is_found;
}

static void decide(const scl::Answer &answer) {
    std::size_t asked = 0, macros = 0;
    for (std::size_t at = 0; at < answer.key_size(); at++) asked += answer.key_at(at).is_asked, macros += answer.key_at(at).may_be_left_out;
    if (answer.is_refused()) std::cout << "  run it as given: " << answer.reason() << '\n';
    else if (!answer.keep().empty() && answer.keep()[0].size() > 2) std::cout << "  run it as given: " << answer.keep()[0][1] << ' ' << answer.keep()[0][2] << '\n';
    else if (!answer.is_cacheable() || !answer.key_size()) std::cout << "  run it as given\n";
    else std::cout << "  hash " << answer.key_size() - asked - macros << " rows, look up " << asked << ", hash " << macros << " if it counts\n";
}

static bool cache(const scl::Catalogue &known, std::string_view line, std::initializer_list<std::string_view> words) {
    scl::Request request("gcc", words);
    request.set_directory("/w");
    request.set_catalogue(known);
    request.raw().wants_questions = request.raw().wants_key = true;
    std::cout << line << '\n';
    scl::Answer answer = request.ask();
    while (answer && look(answer, request)) answer = request.ask();
    if (answer) decide(answer);
    return static_cast<bool>(answer);
}

int main() {
    const scl::Catalogue known; // read once
    const bool is_answered = cache(known, "gcc -c a.c @flags", {"-c", "a.c", "@flags"}) && cache(known, "gcc -E a.c", {"-E", "a.c"}) &&
                             cache(known, "gcc -c a.c -o -", {"-c", "a.c", "-o", "-"});
    return is_answered ? 0 : 1;
}
