// What can go wrong, and how it is reported: in each case run the given words, and keep nothing.
#include <iostream>
#include "scl.hpp"

static void ask(const char *title, const scl::Request &request) {
    const scl::Answer answer = request.ask();
    std::cout << title << ": " << scl::sentence(answer.status()) << '\n';
    if (answer.is_refused()) std::cout << "word " << answer.raw().at << ", " << answer.reason() << ": " << answer.sentence() << '\n';
}

int main() {
    const scl::Request plain("gcc", {"-E", "a.c"});
    ask("rustc", scl::Request("rustc", {"-E", "a.c"}));
    scl::Request unknown = plain;
    unknown.add_setting("what-none-knows 1");
    ask("a setting", unknown);
    scl::Request bounded = plain;
    bounded.raw().most_words = 1;
    ask("one word at most", bounded);
    scl::Request other = plain;
    other.set_catalogue("what is this\n");
    ask("a catalogue", other);
    ask("gcc -E", plain);
}
