// c++ -std=c++17 hello.cc $(pkg-config --cflags --libs scl): the command of a line of which some words stand in a response file, and its hazards.
#include <cstdio>
#include <memory>
#include <string_view>
#include <vector>
#include "scl.h"

static scl_bytes bytes(std::string_view text) { return scl_bytes_of(text.data(), text.size()); }
static std::string_view view(scl_bytes text) { return {reinterpret_cast<const char *>(text.at), text.len}; }

static void print(const char *name, scl_words words) {
    for (std::size_t i = 0; i < words.len; i++) {
        const std::string_view word = view(words.at[i]);
        std::printf("%s %.*s\n", name, static_cast<int>(word.size()), word.data());
    }
}

int main() {
    std::vector<scl_bytes> words;
    for (std::string_view word : {"-c", "src/foo.cc", "-o", "foo.o", "@flags"}) words.push_back(bytes(word));
    const scl_pair file{bytes("/work/flags"), bytes("-MMD -DQUOTED='a b'")};

    scl_request request = scl_request_of("g++", words.data(), words.size());
    request.directory = bytes("/work");
    request.files = scl_pairs_of(&file, 1);
    request.wants_hazards = true;
    scl_given given;
    if (scl_ask_new(&request, &given) != SCL_OK) return 1;
    std::unique_ptr<scl_given, void (*)(scl_given *)> held(&given, scl_free);
    print("arg", given.answer.command);
    print("hazard", given.answer.hazards);
}
