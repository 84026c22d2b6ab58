/* The loop of a cache over three command lines: it asks until no file is wanted that is there, and decides. The files of this
 * example are in memory. The look-ups are left out, and so are hits: docs/CACHE.md goes through a whole cache. */
#include <stdio.h>
#include "scl.h"

/* The disk of this example has one response file. */
static bool find(scl_bytes path, scl_pair *file) {
    file->key = scl_text("/w/flags");
    file->value = scl_text("-O2 -DX=1");
    return scl_is(path, "/w/flags");
}

/* Adds each file that is wanted and there; how many these are. */
static size_t look(const scl_answer *answer, scl_pair *files, scl_request *request) {
    size_t before = request->files.len;
    for (size_t i = 0; i < answer->questions.files.len && request->files.len < 8; i++) {
        if (!find(answer->questions.files.at[i], &files[request->files.len])) continue;
        printf("  reads %s\n", (const char *)files[request->files.len].key.at);
        request->files.len++;
    }
    return request->files.len - before;
}

static void decide(const scl_answer *answer) {
    size_t asked = 0, macros = 0;
    if (answer->outcome == SCL_CANNOT_CACHE) {
        printf("  run it as given: %s\n", (const char *)answer->reason.at);
    } else if (answer->keep.len && answer->keep.at[0].len > 2) {
        printf("  run it as given: %s %s\n", (const char *)answer->keep.at[0].at[1].at, (const char *)answer->keep.at[0].at[2].at);
    } else if (answer->outcome != SCL_COMPILED || !answer->is_cacheable || !answer->key.len) {
        printf("  run it as given\n");
    } else {
        for (size_t i = 0; i < answer->key.len; i++) {
            const scl_key_row row = scl_key_at(answer, i);
            asked += row.is_asked, macros += row.may_be_left_out;
        }
        printf("  hash %zu rows, look up %zu, hash %zu if it counts\n", answer->key.len - asked - macros, asked, macros);
    }
}

static int cache(const scl_catalogue *handle, const char *line, const scl_bytes *words, size_t len) {
    scl_pair files[8];
    scl_request request = scl_request_of("gcc", words, len);
    request.directory = scl_text("/w");
    request.files.at = files;
    request.handle = handle;
    request.wants_questions = request.wants_key = true;
    scl_given given;
    printf("%s\n", line);
    for (;;) {
        if (scl_ask_new(&request, &given) != SCL_OK) return 1;
        if (!look(&given.answer, files, &request)) break;
        scl_free(&given);
    }
    decide(&given.answer);
    scl_free(&given);
    return 0;
}

int main(void) {
    const scl_bytes kept[] = {scl_text("-c"), scl_text("a.c"), scl_text("@flags")};
    const scl_bytes refused[] = {scl_text("-E"), scl_text("a.c")};
    const scl_bytes twice[] = {scl_text("-c"), scl_text("a.c"), scl_text("-o"), scl_text("-")};
    scl_catalogue *handle;
    size_t line;
    if (scl_catalogue_new(SCL_NOTHING, 0, &handle, &line) != SCL_OK) return 1;
    const int failed = cache(handle, "gcc -c a.c @flags", kept, 3) || cache(handle, "gcc -E a.c", refused, 2) || cache(handle, "gcc -c a.c -o -", twice, 4);
    scl_catalogue_free(handle);
    return failed;
}
