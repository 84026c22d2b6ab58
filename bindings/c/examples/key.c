/* The key of `gcc -c a.c -O2 -DX=1`: which rows a cache hashes as they are, which it looks up and hashes with their answer, and
 * which it hashes only if the macro counts (docs/CACHE.md). Of a row `by name` the fields say where to look, and only the name is hashed. */
#include <stdio.h>
#include "scl.h"

int main(void) {
    const scl_bytes words[] = {scl_text("-c"), scl_text("a.c"), scl_text("-O2"), scl_text("-DX=1")};
    scl_request request = scl_request_of("gcc", words, 4);
    request.wants_key = true;

    scl_given given;
    if (scl_ask_new(&request, &given) != SCL_OK) return 1;
    if (!given.answer.is_cacheable || !given.answer.key.len) printf("keep nothing\n");
    for (size_t i = 0; given.answer.is_cacheable && i < given.answer.key.len; i++) {
        const scl_key_row row = scl_key_at(&given.answer, i);
        printf("%s %s%s", row.may_be_left_out ? "hash if it counts" : row.is_asked ? "look up" : "hash", scl_known_keys[row.kind].name, row.is_named ? ", by name" : "");
        for (size_t n = 0; !row.is_asked && n < row.fields.len; n++) printf(" %s", (const char *)row.fields.at[n].at);
        printf("\n");
    }
    scl_free(&given);
    return 0;
}
