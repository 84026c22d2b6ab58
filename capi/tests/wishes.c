/* Linked with --wrap=scl_describe: what scl_ask requests for each set of wishes, and how often. A line of up to 400 words is asked once,
 * and its answer fits into the room of scl_usual_sizes. */
#include <stdio.h>
#include "scl.h"

enum { MOST = 400, SETS = 32 };
static const char *const rows[] = {"run", "wants", "hazard", "option", "key"};
static const char *const kinds[] = {"a.c", "-DN", "-DNAME=1", "-Iinclude/of/some/library", "-Wall", "-O2", "-fPIC", "-isystem/usr/include/x"};
enum { KINDS = sizeof kinds / sizeof *kinds };
static unsigned asked;
static char wanted_rows[128];

int32_t __real_scl_describe(const uint8_t *request, size_t request_len, uint8_t *room, size_t room_len, size_t *wanted);
int32_t __wrap_scl_describe(const uint8_t *request, size_t request_len, uint8_t *room, size_t room_len, size_t *wanted);

int32_t __wrap_scl_describe(const uint8_t *request, size_t request_len, uint8_t *room, size_t room_len, size_t *wanted) {
    scl_bytes text = scl_bytes_of(request, request_len), line;
    size_t len = 0;
    asked++;
    while (scl_next_row(&text, &line))
        if (line.len > 14 && !memcmp(line.at, "setting wants ", 14)) len += (size_t)sprintf(wanted_rows + len, "%.*s ", (int)line.len - 14, (const char *)line.at + 14);
    return __real_scl_describe(request, request_len, room, room_len, wanted);
}

static void fail(const char *what, unsigned set, size_t len) {
    printf("wishes: %s: the set %u, %zu words, wants %s\n", what, set, len, wanted_rows);
    exit(1);
}

/* The request with the wishes of this set, each a bit. */
static scl_request with(scl_request it, unsigned set) {
    it.wants_runs = set & 1, it.wants_questions = set & 2, it.wants_hazards = set & 4, it.wants_options = set & 8, it.wants_key = set & 16;
    return it;
}

static void check_rows(unsigned set) {
    char expected[128] = "version ";
    for (unsigned i = 0; i < 5; i++)
        if (set & 1u << i) strcat(strcat(expected, rows[i]), " ");
    if (strcmp(wanted_rows, expected)) fail("another set of rows is wanted", set, 0);
}

static void check(const scl_request *request, unsigned set) {
    scl_sizes sizes = scl_usual_sizes(request);
    size_t size = scl_room_size(&sizes);
    void *block = malloc(size);
    scl_answer answer;
    asked = 0;
    if (!block || scl_ask(request, scl_room_in(block, &sizes), &sizes, &answer) != SCL_OK) fail("the usual room is too short", set, request->words.len);
    check_rows(set);
    if (asked != 1) fail("it is asked twice", set, request->words.len);
    if (answer.is_cacheable != (request->wants_key && !answer.keep.len)) fail("what may be kept is another", set, request->words.len);
    free(block);
}

int main(void) {
    scl_bytes words[MOST + 2] = {scl_text("-c"), scl_text("src/a.c")};
    for (unsigned kind = 1; kind < KINDS; kind++)
        for (size_t len = 0; len <= MOST; len = 2 * len + 1) {
            for (size_t i = 0; i < len; i++) words[i + 2] = scl_text(kinds[kind]);
            scl_request request = scl_request_of("gcc", words, len + 2);
            for (unsigned set = 0; set < SETS; set++) {
                scl_request it = with(request, set);
                check(&it, set);
            }
        }
    printf("scl_ask wants the rows of its wishes, for each of %d sets, and asks once\n", SETS);
    return 0;
}
