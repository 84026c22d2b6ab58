// A first question: which command may run in the place of `gcc -c a.c -O2`, and what it reads and makes.
#include <iostream>
#include "scl.hpp"

int main() {
    scl::Request request("gcc", {"-c", "a.c", "-O2"});
    request.raw().wants_hazards = request.raw().wants_key = true;
    const scl::Answer answer = request.ask();
    if (!answer) return 1;
    if (!answer.is_compiled() || !answer.hazards().empty()) {
        std::cout << "run the given words\n";
        return 0;
    }
    std::cout << "run: gcc";
    for (std::string_view word : answer.command()) std::cout << ' ' << word;
    std::cout << "\nreads: " << answer.input() << '\n';
    for (const scl::Output output : answer.outputs()) std::cout << "makes: " << output.path << '\n';
    std::cout << "may be kept: " << (answer.is_cacheable() ? "yes" : "no") << '\n';
}
