/* A first question: which command may run in the place of `gcc -c a.c -O2`, and what it reads and makes. */
#include <stdio.h>
#include "scl.h"

int main(void) {
    const scl_bytes words[] = {scl_text("-c"), scl_text("a.c"), scl_text("-O2")};
    scl_request request = scl_request_of("gcc", words, 3);
    request.wants_hazards = request.wants_key = true;

    scl_given given;
    if (scl_ask_new(&request, &given) != SCL_OK) return 1;
    const scl_answer *answer = &given.answer;
    if (answer->outcome == SCL_COMPILED && !answer->hazards.len) {
        printf("run: gcc");
        for (size_t i = 0; i < answer->command.len; i++) printf(" %s", (const char *)answer->command.at[i].at);
        printf("\nreads: %s\n", (const char *)answer->record.input.at);
        for (size_t i = 0; i < answer->record.outputs.len; i++) printf("makes: %s\n", (const char *)answer->record.outputs.at[i].path.at);
        printf("may be kept: %s\n", answer->is_cacheable ? "yes" : "no");
    } else {
        printf("run the given words\n");
    }
    scl_free(&given);
    return 0;
}
