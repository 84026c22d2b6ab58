/* What can go wrong, and how it is reported: in each case run the given words, and keep nothing. */
#include <stdio.h>
#include "scl.h"

static const char *meaning(int32_t status) {
    switch (status) {
    case SCL_BAD: return "no such compiler";
    case SCL_NO_MEMORY: return "out of memory";
    case SCL_TOO_MANY_WORDS: return "too many words";
    case SCL_NEWER: return "not known to this library";
    case SCL_BAD_CATALOGUE: return "a bad catalogue";
    default: return "answered";
    }
}

static void ask(const char *title, const scl_request *request) {
    scl_given given;
    const int32_t status = scl_ask_new(request, &given);
    printf("%s: %s\n", title, meaning(status));
    if (status != SCL_OK) return;
    if (given.answer.outcome == SCL_CANNOT_CACHE)
        printf("word %zu, %s: %s\n", given.answer.at, (const char *)given.answer.reason.at, (const char *)given.answer.sentence.at);
    scl_free(&given);
}

int main(void) {
    const scl_bytes words[] = {scl_text("-E"), scl_text("a.c")}, setting = scl_text("what-none-knows 1");
    const scl_request plain = scl_request_of("gcc", words, 2);
    scl_request it = scl_request_of("rustc", words, 2);
    ask("rustc", &it);
    it = plain;
    it.settings = scl_words_of(&setting, 1);
    ask("a setting", &it);
    it = plain;
    it.most_words = 1;
    ask("one word at most", &it);
    it = plain;
    it.catalogue = scl_text("what is this\n");
    ask("a catalogue", &it);
    ask("gcc -E", &plain);
    return 0;
}
