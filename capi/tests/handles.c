/* handles: makes catalogues, alone and with a text over them, and asks by their handles. Answers are compared byte for byte with those of
 * scl_describe and scl_describe_with, also from eight threads that share a handle. An own entry adds, and replaces by its name; a wrong line
 * is reported by its number. Each request for memory of making and asking is refused in turn. Linked with --wrap=malloc, realloc and free.
 * Prints a line for each; the status is 0 if all is well. */
#include <pthread.h>
#include <stdio.h>
#include "scl.h"

void *__real_malloc(size_t);
void *__real_realloc(void *, size_t);
void __real_free(void *);

static _Thread_local long calls, failing = -1, live;

void *__wrap_malloc(size_t n) {
    if (calls++ == failing) return 0;
    void *p = __real_malloc(n);
    live += p != 0;
    return p;
}

void *__wrap_realloc(void *p, size_t n) {
    if (calls++ == failing) return 0;
    void *q = __real_realloc(p, n);
    live += !p && q;
    return q;
}

void __wrap_free(void *p) {
    live -= p != 0;
    __real_free(p);
}

#define FAIL(...) return (printf("handles: " __VA_ARGS__), printf("\n"), 1)

enum { ROOM = 1 << 15, THREADS = 8, TIMES = 100 };

/* Two targets make a hazard; the last words are known to no entry; a name, and lines that are wrong or not known. */
static const char *const requests[] = {
    "compiler gcc\nword -c\nword a.c\nword -MD\nword -MT\nword x\nword -MT\nword y\n",
    "compiler clang\ncwd /w\nword -c\nword a.c\nword -Xclang\nword -fno-pch-timestamp\nword @r\nfile /w/r\t-DQ\\x20-O1\n",
    "compiler cl\nword /c\nword a.c\nword /Zi\nenv CL\t/DA\nsetting wants key\n",
    "compiler gcc\nword -c\nword a.c\nword -fwhat-none-knows\nsetting wants key\n",
    "compiler gcc\nword -E\nword a.c\n",
    "name\nword ccache\nword gcc\n",
    "compiler none\n",
    "compiler gcc\nword -c\nsetting what-none-knows\n",
    "",
};
enum { REQUESTS = sizeof requests / sizeof *requests };

static const uint8_t *bytes(const char *text) { return (const uint8_t *)text; }

static scl_catalogue *made(const char *text) {
    scl_catalogue *handle = NULL;
    size_t wanted = 77;
    if (scl_catalogue_new(bytes(text), strlen(text), &handle, &wanted) != SCL_OK || !handle || wanted) {
        printf("handles: no catalogue is made of %s\n", text);
        exit(1);
    }
    return handle;
}

/* Whether both gave the same status, number and bytes, and left the rest of the room. */
typedef struct told {
    int32_t status;
    size_t wanted;
    uint8_t room[ROOM];
} told;

static int is_same(const told *one, const told *other) {
    return one->status == other->status && one->wanted == other->wanted && !memcmp(one->room, other->room, ROOM);
}

static void by_handle(const scl_catalogue *handle, const char *request, size_t room_len, told *to) {
    memset(to->room, 0xAA, ROOM);
    to->status = scl_catalogue_describe(handle, bytes(request), strlen(request), to->room, room_len, &to->wanted);
}

static void by_text(const char *text, const char *request, size_t room_len, told *to) {
    memset(to->room, 0xAA, ROOM);
    to->status = *text ? scl_describe_with(bytes(text), strlen(text), bytes(request), strlen(request), to->room, room_len, &to->wanted)
                       : scl_describe(bytes(request), strlen(request), to->room, room_len, &to->wanted);
}

/* Whether a line stands in the answer. */
static int has(const told *answer, const char *line) {
    char wanted[256];
    size_t len = (size_t)sprintf(wanted, "\n%s\n", line);
    for (size_t i = 0; answer->status == SCL_OK && i + len <= answer->wanted; i++)
        if (!memcmp(answer->room + i, wanted, len)) return 1;
    return 0;
}

/* ---- what is answered */

static int same(const char *text, const char *name) {
    static told handled, read;
    scl_catalogue *handle = made(text);
    size_t rooms = 0;
    for (size_t i = 0; i < REQUESTS; i++) {
        by_text(text, requests[i], ROOM, &read);
        size_t most = read.status == SCL_OK ? read.wanted : 0;
        const size_t lengths[] = {ROOM, most, most ? most - 1 : 0, 0};
        for (size_t k = 0; k < sizeof lengths / sizeof *lengths; k++, rooms++) {
            by_text(text, requests[i], lengths[k], &read);
            by_handle(handle, requests[i], lengths[k], &handled);
            if (!is_same(&handled, &read)) FAIL("%s: request %zu in a room of %zu bytes has the status %d, and not %d", name, i, lengths[k], (int)handled.status, (int)read.status);
        }
    }
    scl_catalogue_free(handle);
    if (live) FAIL("%s leaves %ld blocks", name, live);
    printf("%s: %zu answers by the handle are those by the text\n", name, rooms);
    return 0;
}

static int own_entries(void) {
    static told plain, other;
    static char hazard[128], text[1024];
    scl_catalogue *alone = made(""), *own;
    by_handle(alone, requests[0], ROOM, &plain);
    const char *row = plain.status == SCL_OK ? strstr((const char *)plain.room, "\nhazard ") : NULL;
    if (!row || sscanf(row, "\nhazard %100s", hazard) != 1) FAIL("the line has no hazard");
    sprintf(text, "hazard %s", hazard);
    if (!has(&plain, text)) FAIL("the row of the hazard has more than a name");

    own = made("# one's own\nhazard of-ones-own object\n  says It is one's own.\n  gcc: input a.c\n");
    by_handle(own, requests[0], ROOM, &other);
    if (!has(&other, text) || !has(&other, "hazard of-ones-own")) FAIL("an own entry does not add");
    by_handle(alone, requests[0], ROOM, &other);
    if (!is_same(&plain, &other)) FAIL("an own entry is known to another handle");
    scl_catalogue_free(own);

    sprintf(text, "hazard %s object\n  says It is another one.\n  gcc: input b.c\n", hazard);
    own = made(text);
    sprintf(text, "hazard %s", hazard);
    by_handle(own, requests[0], ROOM, &other);
    if (other.status != SCL_OK || has(&other, text)) FAIL("an own entry does not replace %s", hazard);
    scl_catalogue_free(own);

    by_handle(alone, requests[3], ROOM, &other);
    if (!has(&other, "keep unknown -fwhat-none-knows")) FAIL("a word that none knows has a key");
    own = made("plain of-ones-own\n  gcc: any unknown -fwhat-none-knows\n");
    by_handle(own, requests[3], ROOM, &other);
    if (!has(&other, "keep yes")) FAIL("a word that an own entry calls plain has no key");
    scl_catalogue_free(own);
    scl_catalogue_free(alone);
    scl_catalogue_free(NULL);
    if (live) FAIL("own entries leave %ld blocks", live);
    printf("an own entry adds, and replaces %s by its name; a key goes by it\n", hazard);
    return 0;
}

static int wrong_lines(void) {
    static const char *const texts[] = {"?", "# one\n\nhazard\n", "hazard a object\n  says A.\n  gcc: input a.c\n  gcc: what is this\n", "\n\n\n\n\r\n"};
    static const size_t numbers[] = {1, 3, 4, 5};
    scl_catalogue *const nowhere = (scl_catalogue *)(void *)&failing;
    for (size_t i = 0; i < sizeof texts / sizeof *texts; i++) {
        scl_catalogue *handle = nowhere;
        size_t wanted = 77;
        int32_t status = scl_catalogue_new(bytes(texts[i]), strlen(texts[i]), &handle, &wanted);
        if (status != SCL_BAD_CATALOGUE || wanted != numbers[i] || handle != nowhere) FAIL("the status %d and line %zu of the wrong text %zu", (int)status, wanted, i);
        if (live) FAIL("a wrong text leaves %ld blocks", live);
    }
    scl_catalogue *handle = NULL;
    size_t wanted = 77;
    if (scl_catalogue_new(NULL, 0, &handle, &wanted) != SCL_OK || wanted) FAIL("no text is not an empty one");
    if (scl_catalogue_describe(handle, NULL, 0, NULL, 0, &wanted) != SCL_BAD || wanted != 1) FAIL("no request is answered");
    scl_catalogue_free(handle);
    printf("wrong lines have their numbers, and no text is an empty one\n");
    return 0;
}

/* ---- structs */

/* The descriptions of a request with and without a handle, which must be the same; the catalogue's text is passed over where there is one. */
static int structs(void) {
    const scl_bytes words[] = {scl_text("-c"), scl_text("a.c"), scl_text("-MD"), scl_text("-MT"), scl_text("x"), scl_text("-MT"), scl_text("y")};
    scl_request request = scl_request_of("gcc", words, sizeof words / sizeof *words);
    char *texts[2];
    size_t lengths[2];
    scl_given given;
    scl_catalogue *handle = made("");
    request.wants_hazards = request.wants_key = request.wants_options = true;
    for (int i = 0; i < 2; i++, request.handle = handle, request.catalogue = scl_text("what is this\n"))
        if (scl_description_new(&request, &texts[i], &lengths[i]) != SCL_OK) FAIL("no description where i is %d", i);
    if (lengths[0] != lengths[1] || memcmp(texts[0], texts[1], lengths[0])) FAIL("a description by the handle is another");
    if (scl_ask_new(&request, &given) != SCL_OK || !given.answer.hazards.len) FAIL("scl_ask_new does not answer by the handle");
    scl_free(&given);
    request.handle = NULL;
    if (scl_ask_new(&request, &given) != SCL_BAD_CATALOGUE) FAIL("a wrong text is passed over where there is no handle");
    for (int i = 0; i < 2; i++) free(texts[i]);
    for (int i = 0; i < 2; i++)
        if (scl_catalogue_text_new(i ? handle : NULL, requests[0], strlen(requests[0]), &texts[i], &lengths[i]) != SCL_OK) FAIL("no text where i is %d", i);
    if (lengths[0] != lengths[1] || memcmp(texts[0], texts[1], lengths[0] + 1)) FAIL("a text by the handle is another");
    for (int i = 0; i < 2; i++) free(texts[i]);
    scl_catalogue_free(handle);
    if (live) FAIL("structs leave %ld blocks", live);
    printf("a request with a handle is answered as one without it, and its text is not read\n");
    return 0;
}

/* ---- refused memory */

static int refused_making(const char *text, const char *name) {
    scl_catalogue *const nowhere = (scl_catalogue *)(void *)&failing;
    static told wanted, other;
    by_text(text, requests[0], ROOM, &wanted);
    long refused = 0;
    for (failing = 0;; failing++, refused++) {
        scl_catalogue *handle = nowhere;
        size_t number = 77;
        calls = 0;
        int32_t status = scl_catalogue_new(bytes(text), strlen(text), &handle, &number);
        long made_by = calls, at = failing;
        failing = -1;
        if (status == SCL_OK) {
            by_handle(handle, requests[0], ROOM, &other);
            scl_catalogue_drop(handle);
            if (number || !is_same(&wanted, &other)) FAIL("%s: another answer where request %ld is refused", name, at);
        } else if (status != SCL_NO_MEMORY || number || handle != nowhere) {
            FAIL("%s: status %d and line %zu where request %ld is refused", name, (int)status, number, at);
        }
        if (live) FAIL("%s leaves %ld blocks where request %ld is refused", name, live, at);
        if (status == SCL_OK && made_by <= at) break;
        failing = at;
    }
    printf("%s: %ld refusals leave nothing\n", name, refused);
    return 0;
}

static int refused_asking(void) {
    static told wanted, other;
    scl_catalogue *handle = made("");
    long held = live, refused = 0;
    for (size_t i = 0; i < REQUESTS; i++) {
        by_handle(handle, requests[i], ROOM, &wanted);
        for (failing = 0;; failing++, refused++) {
            calls = 0;
            by_handle(handle, requests[i], ROOM, &other);
            if (live != held) FAIL("request %zu leaves %ld blocks where request %ld for memory is refused", i, live - held, failing);
            if (is_same(&wanted, &other)) {
                if (calls <= failing) break;
            } else if (other.status != SCL_NO_MEMORY || other.wanted) {
                FAIL("request %zu: status %d where request %ld for memory is refused", i, (int)other.status, failing);
            }
            for (size_t k = 0; other.status == SCL_NO_MEMORY && k < ROOM; k++)
                if (other.room[k] != 0xAA) FAIL("request %zu: byte %zu is written where request %ld for memory is refused", i, k, failing);
        }
        failing = -1;
    }
    scl_catalogue_free(handle);
    if (live) FAIL("asking leaves %ld blocks", live);
    printf("scl_catalogue_describe: %ld refusals leave nothing but the catalogue\n", refused);
    return 0;
}

/* ---- threads */

static told expected[REQUESTS];

static void *many(void *handle) {
    told *answer = malloc(sizeof *answer);
    void *failed = answer ? NULL : handle;
    for (size_t time = 0; !failed && time < TIMES; time++)
        for (size_t i = 0; !failed && i < REQUESTS; i++) {
            by_handle(handle, requests[i], ROOM, answer);
            if (!is_same(answer, &expected[i])) failed = handle;
        }
    free(answer);
    return live ? handle : failed;
}

static int threads(const char *text, const char *name) {
    pthread_t all[THREADS];
    void *out;
    scl_catalogue *handle = made(text);
    for (size_t i = 0; i < REQUESTS; i++) by_text(text, requests[i], ROOM, &expected[i]);
    for (int i = 0; i < THREADS; i++)
        if (pthread_create(&all[i], NULL, many, handle)) FAIL("no thread");
    for (int i = 0; i < THREADS; i++)
        if (pthread_join(all[i], &out) || out) FAIL("%s: a thread was answered differently", name);
    scl_catalogue_free(handle);
    printf("%s: %d threads that share a handle, %d requests of each\n", name, THREADS, TIMES * REQUESTS);
    return 0;
}

int main(void) {
    static const char own[] = "hazard of-ones-own object\n  says It is one's own.\n  gcc, clang: input a.c\n";
    return same("", "the built-in catalogue") || same(own, "one of one's own") || own_entries() || wrong_lines() || structs() || threads("", "the built-in catalogue") ||
           threads(own, "one of one's own") || refused_asking() || refused_making("", "scl_catalogue_new") || refused_making(own, "scl_catalogue_new with a text");
}
