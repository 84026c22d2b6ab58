// A compile database: how many entries a cache gains, and why the rest is lost. The entries stand here as a reader of JSON gives
// them; `scl database` reads compile_commands.json itself.
#include <iostream>
#include <vector>
#include "scl.hpp"

int main() {
    const std::vector<std::vector<std::string_view>> entries = {
        {"gcc", "-c", "a.c"}, {"gcc", "-E", "c.c"}, {"gcc", "-c", "d.c", "-MD", "-MT", "one", "-MT", "two"}};
    const scl::Catalogue known; // read once
    std::size_t number = 0, cached = 0, with_hazard = 0;
    for (const auto &entry : entries) {
        scl::Request request(entry[0]);
        for (std::size_t at = 1; at < entry.size(); at++) request.add_word(entry[at]);
        request.set_directory("/w");
        request.set_catalogue(known);
        request.raw().wants_hazards = true;
        const scl::Answer answer = request.ask();
        if (!answer) return 1;
        number++;
        cached += answer.is_compiled();
        with_hazard += !answer.hazards().empty();
        if (answer.is_refused()) std::cout << "entry " << number << " cannot be cached: " << answer.reason() << '\n';
        for (std::string_view hazard : answer.hazards()) std::cout << "entry " << number << " has a hazard: " << hazard << '\n';
    }
    std::cout << number << " entries, " << cached << " can be cached, " << with_hazard << " with a hazard\n";
}
