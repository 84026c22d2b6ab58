/* hello PROGRAM COMPILER WORD..: the command to run in the place of `PROGRAM WORD..`, what it reads and what it makes, and
 * its hazards: where there is one, run the given words.
 * cc hello.c $(pkg-config --cflags --libs scl); ./a.out gcc gcc -c a.c */
#include <stdio.h>
#include "scl.h"

static void print_words(const char *name, scl_words words) {
    for (size_t i = 0; i < words.len; i++) printf("%s %s\n", name, (const char *)words.at[i].at);
}

int main(int argc, char **argv) {
    if (argc < 3) {
        fprintf(stderr, "usage: hello PROGRAM COMPILER WORD.., as: hello /usr/bin/gcc gcc -c a.c\n");
        return 2;
    }
    size_t len = (size_t)argc - 3;
    scl_bytes *words = calloc(len + 1, sizeof *words);
    if (!words) return 3;
    for (size_t i = 0; i < len; i++) words[i] = scl_text(argv[i + 3]);

    scl_request request = scl_request_of(argv[2], words, len);
    request.wants_runs = request.wants_questions = request.wants_hazards = request.wants_key = true;
    scl_given given;
    int32_t status = scl_ask_new(&request, &given);
    free(words);
    if (status == SCL_BAD) fprintf(stderr, "hello: no compiler %s is served\n", argv[2]);
    if (status != SCL_OK) return (int)status;

    const scl_answer *answer = &given.answer;
    if (answer->outcome == SCL_CANNOT_CACHE) printf("cannot-cache %s\n", (const char *)answer->reason.at);
    if (answer->outcome == SCL_CANNOT_CACHE && answer->has_text) printf("text %s\n", (const char *)answer->text.at);
    if (answer->outcome == SCL_NOT_COMPILATION) printf("not-compilation\n");
    if (answer->outcome == SCL_COMPILED) {
        printf("program %s\n", argv[1]);
        print_words("arg", answer->command);
        print_words("hazard", answer->hazards);
        printf("cacheable %s\ninput %s\n", answer->is_cacheable ? "yes" : "no", (const char *)answer->record.input.at);
        for (size_t i = 0; i < answer->record.outputs.len; i++)
            printf("makes %s\n", (const char *)answer->record.outputs.at[i].path.at);
        for (size_t i = 0; i < answer->runs.len; i++) {
            printf("run %zu\n", i + 1);
            print_words("arg", answer->runs.at[i]);
        }
    }
    print_words("asks-file", answer->questions.files);
    scl_free(&given);
    return 0;
}
