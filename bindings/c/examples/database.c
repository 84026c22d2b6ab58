/* A compile database: how many entries a cache gains, and why the rest is lost. The entries stand here as a reader of JSON gives
 * them; `scl database` reads compile_commands.json itself. */
#include <stdio.h>
#include "scl.h"

enum { ENTRIES = 3, MOST = 8 };

static const char *const entries[ENTRIES][MOST] = {
    {"gcc", "-c", "a.c"},
    {"gcc", "-E", "c.c"},
    {"gcc", "-c", "d.c", "-MD", "-MT", "one", "-MT", "two"},
};

int main(void) {
    size_t cached = 0, hazards = 0, line;
    scl_catalogue *handle;
    if (scl_catalogue_new(SCL_NOTHING, 0, &handle, &line) != SCL_OK) return 1;
    for (size_t i = 0; i < ENTRIES; i++) {
        scl_bytes words[MOST];
        size_t len = 0;
        while (len + 1 < MOST && entries[i][len + 1]) {
            words[len] = scl_text(entries[i][len + 1]);
            len++;
        }
        scl_request request = scl_request_of(entries[i][0], words, len);
        request.directory = scl_text("/w");
        request.wants_hazards = true;
        request.handle = handle;
        scl_given given;
        if (scl_ask_new(&request, &given) != SCL_OK) return 1;
        const scl_answer *answer = &given.answer;
        cached += answer->outcome == SCL_COMPILED;
        hazards += answer->hazards.len > 0;
        if (answer->outcome == SCL_CANNOT_CACHE) printf("entry %zu cannot be cached: %s\n", i + 1, (const char *)answer->reason.at);
        for (size_t n = 0; n < answer->hazards.len; n++) printf("entry %zu has a hazard: %s\n", i + 1, (const char *)answer->hazards.at[n].at);
        scl_free(&given);
    }
    scl_catalogue_free(handle);
    printf("%d entries, %zu can be cached, %zu with a hazard\n", ENTRIES, cached, hazards);
    return 0;
}
