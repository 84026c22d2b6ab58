/* faults: refuses each request for memory of calls in turn, tries each room from 0 to what is wanted, asks requests of zeros
 * and of no memory, passes a wrong catalogue, and calls from eight threads at once. Linked with --wrap=malloc, realloc and free. Prints a line for each; the
 * status is 0 if all is well. */
#include <pthread.h>
#include <stdio.h>
#include <string.h>
#include "scl.h"

void *__real_malloc(size_t);
void *__real_realloc(void *, size_t);
void __real_free(void *);

static _Thread_local long calls, failing = -1, live;

void *__wrap_malloc(size_t n) {
    if (calls++ == failing) return 0;
    void *p = __real_malloc(n);
    live += p != 0;
    return p;
}

void *__wrap_realloc(void *p, size_t n) {
    if (calls++ == failing) return 0;
    void *q = __real_realloc(p, n);
    live += !p && q;
    return q;
}

void __wrap_free(void *p) {
    live -= p != 0;
    __real_free(p);
}

#define FAIL(...) return (printf("faults: " __VA_ARGS__), printf("\n"), 1)

/* A wide request: a response file, inner words, a variable, two architectures. */
static const char text[] = "compiler clang\ncwd /w\nword -c\nword a.c\nword -MD\nword -Xclang\nword -fno-pch-timestamp\nword @r\n"
                           "word -arch\nword arm64\nmultiarch\nenv A\tB\nfile /w/r\t-DQ\\x20-O1\nexists /w/z.pdb\n";

static const char catalogue[] = "hazard of-one-line object\n    clang: input a.c\n";

static int32_t call(scl_respond *by, uint8_t *room, size_t len, size_t *wanted) { return by((const uint8_t *)text, sizeof text - 1, room, len, wanted); }

static int is_filled(const void *at, size_t len) {
    const uint8_t *bytes = at;
    for (size_t i = 0; i < len; i++)
        if (bytes[i] != 0xAA) return 0;
    return 1;
}

static int texts(const char *name, scl_respond *by) {
    static uint8_t whole[8192], room[8192];
    size_t wanted, length;
    int refused = 0;
    if (call(by, whole, sizeof whole, &length) != SCL_OK || live) FAIL("%s does not answer, or leaks %ld blocks", name, live);
    for (failing = 0;; failing++, refused++) {
        calls = 0;
        wanted = 77;
        memset(room, 0xAA, sizeof room);
        int32_t status = call(by, room, sizeof room, &wanted);
        if (live) FAIL("%s leaks where request %ld is refused", name, failing);
        if (status == SCL_OK && calls <= failing) break;
        if (status == SCL_OK && (wanted != length || memcmp(room, whole, length))) FAIL("%s answers differently where request %ld is refused", name, failing);
        if (status == SCL_OK) continue;
        if (status != SCL_NO_MEMORY || wanted || !is_filled(room, sizeof room)) FAIL("%s: status %d where request %ld is refused", name, (int)status, failing);
    }
    failing = -1;
    for (size_t len = 0; len <= length; len++) {
        memset(room, 0xAA, sizeof room);
        int32_t status = call(by, room, len, &wanted);
        size_t put = len < length ? 0 : length;
        if (status != (len < length ? SCL_SHORT : SCL_OK) || wanted != length || memcmp(room, whole, put) || !is_filled(room + put, sizeof room - put))
            FAIL("%s: status %d in a room of %zu bytes", name, (int)status, len);
    }
    printf("%s: %d refusals and %zu rooms\n", name, refused, length + 1);
    return 0;
}

/* By a catalogue of one hazard, which the request has. */
static int32_t by_catalogue(const uint8_t *request, size_t request_len, uint8_t *room, size_t room_len, size_t *wanted) {
    return scl_describe_with((const uint8_t *)catalogue, sizeof catalogue - 1, request, request_len, room, room_len, wanted);
}

/* A wrong line is reported by its number, before the request is read; and NULL with the length 0 is an empty text. */
static int catalogues(void) {
    static const char wrong[] = "# one\n\nhazard\n";
    uint8_t room[4096];
    size_t wanted = 0;
    if (by_catalogue((const uint8_t *)text, sizeof text - 1, room, sizeof room, &wanted) || !strstr((char *)room, "hazard of-one-line\n")) FAIL("the catalogue's hazard is not reported");
    memset(room, 0xAA, sizeof room);
    if (scl_describe_with((const uint8_t *)wrong, sizeof wrong - 1, (const uint8_t *)"?", 1, room, sizeof room, &wanted) != SCL_BAD_CATALOGUE || wanted != 3)
        FAIL("a wrong line has the number %zu", wanted);
    if (!is_filled(room, sizeof room)) FAIL("a wrong catalogue is answered");
    if (scl_describe_with(NULL, 0, NULL, 0, NULL, 0, &wanted) != SCL_BAD || wanted != 1) FAIL("line %zu of no request is bad", wanted);
    if (scl_describe(NULL, 0, NULL, 0, &wanted) != SCL_BAD || wanted != 1 || scl_run(NULL, 0, NULL, 0, &wanted) != SCL_BAD || wanted != 1) FAIL("no request is answered");
    if (scl_describe((const uint8_t *)text, sizeof text - 1, NULL, 0, &wanted) != SCL_SHORT || !wanted) FAIL("no room is not too short");
    if (scl_version() != SCL_PROTOCOL) FAIL("the library is of protocol %u", (unsigned)scl_version());
    printf("a catalogue, a wrong one, and no memory at all\n");
    return live != 0;
}

/* The same with memory of its own. */
static int new_texts(const char *name, scl_respond *by) {
    char *whole, *given;
    size_t length, wanted;
    int refused = 0;
    if (scl_text_new(by, text, sizeof text - 1, &whole, &length) != SCL_OK || whole[length]) FAIL("scl_text_new of %s does not answer", name);
    for (failing = 0;; failing++, refused++) {
        calls = 0;
        int32_t status = scl_text_new(by, text, sizeof text - 1, &given, &wanted);
        if (status == SCL_OK && (wanted != length || memcmp(given, whole, length + 1))) FAIL("scl_text_new of %s answers differently where request %ld is refused", name, failing);
        if (status == SCL_OK) free(given);
        if (live != 1) FAIL("scl_text_new of %s leaks where request %ld is refused", name, failing);
        if (status == SCL_OK && calls <= failing) break;
        if (status != SCL_OK && status != SCL_NO_MEMORY) FAIL("scl_text_new of %s: status %d where request %ld is refused", name, (int)status, failing);
    }
    failing = -1;
    free(whole);
    printf("scl_text_new of %s: %d refusals\n", name, refused);
    return 0;
}

/* What stands in an answer, as one text: enough to tell two of them apart. */
static size_t flat(const scl_answer *answer, char *to) {
    size_t len = 0;
    const scl_words lists[] = {answer->command, answer->record.lists.dependency, answer->record.lists.preprocessor,
                               answer->record.lists.common, answer->record.lists.arch, answer->questions.directories, answer->hazards};
    for (size_t i = 0; i < sizeof lists / sizeof *lists; i++)
        for (size_t k = 0; k < lists[i].len; k++) len += (size_t)sprintf(to + len, "%zu %s\n", i, (const char *)lists[i].at[k].at);
    for (size_t i = 0; i < answer->runs.len; i++)
        for (size_t k = 0; k < answer->runs.at[i].len; k++) len += (size_t)sprintf(to + len, "run %s\n", (const char *)answer->runs.at[i].at[k].at);
    for (size_t i = 0; i < answer->environment.len; i++)
        len += (size_t)sprintf(to + len, "%s %s\n", (const char *)answer->environment.at[i].key.at, (const char *)answer->environment.at[i].value.at);
    for (size_t i = 0; i < answer->record.outputs.len; i++) len += (size_t)sprintf(to + len, "%s\n", (const char *)answer->record.outputs.at[i].path.at);
    return len;
}

static const char *const given_words[] = {"-c", "a.c", "-MD", "-Xclang", "-fno-pch-timestamp", "@r", "-arch", "arm64", "-fprofile-use=p", "-MT", "x", "-MT", "y"};
enum { WORDS = sizeof given_words / sizeof *given_words };

/* (capi/tests/handles.c refuses memory while a catalogue is read) */
static scl_catalogue *handle;

static scl_request asked(scl_bytes *words, scl_pair *pairs) {
    for (size_t i = 0; i < WORDS; i++) words[i] = scl_text(given_words[i]);
    scl_request request = scl_request_of("clang", words, WORDS);
    request.directory = scl_text("/w");
    pairs[0].key = scl_text("/w/r");
    pairs[0].value = scl_text("-DQ -O1");
    pairs[1].key = scl_text("A");
    pairs[1].value = scl_text("B");
    request.files = scl_pairs_of(pairs, 1);
    request.environment = scl_pairs_of(pairs + 1, 1);
    request.handle = handle;
    request.is_multiarch = request.wants_runs = request.wants_questions = request.wants_hazards = true;
    return request;
}

static int structs(void) {
    static char whole[1 << 16], other[1 << 16];
    scl_bytes words[WORDS];
    scl_pair pairs[2];
    scl_request request = asked(words, pairs);
    scl_given given;
    int refused = 0;
    if (scl_ask_new(&request, &given) != SCL_OK || given.answer.outcome != SCL_COMPILED) FAIL("scl_ask_new does not answer");
    if (!given.answer.hazards.len) FAIL("no hazard is reported of two targets");
    size_t length = flat(&given.answer, whole);
    scl_free(&given);
    if (!length || live) FAIL("scl_ask_new leaks %ld blocks", live);
    for (failing = 0;; failing++, refused++) {
        calls = 0;
        int32_t status = scl_ask_new(&request, &given);
        int is_same = status == SCL_OK && flat(&given.answer, other) == length && !memcmp(whole, other, length);
        if (status == SCL_OK) scl_free(&given);
        if (live) FAIL("scl_ask_new leaks where request %ld is refused", failing);
        if (status == SCL_OK && !is_same) FAIL("scl_ask_new answers differently where request %ld is refused", failing);
        if (status == SCL_OK && calls <= failing) break;
        if (status != SCL_OK && status != SCL_NO_MEMORY) FAIL("scl_ask_new: status %d where request %ld is refused", (int)status, failing);
    }
    failing = -1;

    scl_sizes wanted = {0, 0, 0, 0, 0}, all;
    scl_answer answer = scl_no_answer(), before;
    if (scl_ask(&request, scl_room_in(whole, &wanted), &wanted, &answer) != SCL_SHORT) FAIL("scl_ask answers without a room");
    all = wanted;
    size_t *const parts[] = {&all.bytes, &all.slots, &all.pairs, &all.outputs, &all.runs};
    size_t rooms = 0;
    for (size_t part = 0; part < 5; part++) {
        size_t most = *parts[part];
        if (!most) FAIL("part %zu of the room is not wanted", part);
        for (size_t len = 0; len <= most; len++, rooms++) {
            *parts[part] = len;
            size_t size = scl_room_size(&all);
            void *block = malloc(size);
            if (!block) FAIL("no memory");
            memset(block, 0xAA, size);
            scl_room room = scl_room_in(block, &all);
            answer = scl_no_answer();
            memcpy(&before, &answer, sizeof answer);
            int32_t status = scl_ask(&request, room, &wanted, &answer);
            *parts[part] = most;
            if (status != (len < most ? SCL_SHORT : SCL_OK) || memcmp(&wanted, &all, sizeof all)) FAIL("scl_ask: status %d where part %zu has %zu", (int)status, part, len);
            if (len < most && (memcmp(&before, &answer, sizeof answer) || !is_filled(room.bytes, room.bytes_len))) FAIL("scl_ask writes where part %zu has %zu", part, len);
            if (len == most && (flat(&answer, other) != length || memcmp(whole, other, length))) FAIL("scl_ask answers differently in memory of just the length");
            if (len == most && room.bytes[room.bytes_len] != 0xAA) FAIL("scl_ask writes after the room");
            free(block);
        }
    }
    printf("scl_ask: %d refusals and %zu rooms\n", refused, rooms);
    return 0;
}

/* scl_map, with memory refused in turn. */
static int maps(void) {
    const scl_bytes bases[] = {scl_text("/w")}, run = scl_text("# 1 \"/w/a.c\"\nint a;\n");
    static const char mapped[] = "# 1 \"\0<base0>/a.c\"\nint a;\n";
    scl_texts it;
    int refused = 0;
    for (failing = 0;; failing++, refused++) {
        calls = 0;
        int32_t status = scl_map(bases, 1, "gcc", run, &it);
        int is_same = status == SCL_OK && it.text.len == sizeof mapped - 1 && !memcmp(it.text.at, mapped, sizeof mapped - 1);
        if (status == SCL_OK) free(it.block);
        if (live) FAIL("scl_map leaks where request %ld is refused", failing);
        if (status == SCL_OK ? !is_same : status != SCL_NO_MEMORY) FAIL("scl_map: status %d where request %ld is refused", (int)status, failing);
        if (status == SCL_OK && calls <= failing) break;
    }
    failing = -1;
    printf("scl_map: %d refusals\n", refused);
    return 0;
}

/* Where most_bytes is 0 each of 8,192 words may be a path behind a directory of 8,192 bytes. */
static int behind_a_directory(scl_request request, const scl_bytes *words) {
    enum { LONG = 8192 };
    static uint8_t path[LONG];
    memset(path, 'd', LONG);
    request.directory = scl_bytes_of(path, LONG);
    for (size_t more = 0; more < 2; more++) {
        scl_given given;
        request.words = scl_words_of(words, LONG + more);
        int32_t status = scl_ask_new(&request, &given), wanted = more ? SCL_TOO_MANY_WORDS : SCL_OK;
        if (status == SCL_OK) scl_free(&given);
        if (status != wanted) FAIL("status %d for %zu words where most_bytes is 0", (int)status, request.words.len);
    }
    return 0;
}

/* A request that memset made is answered, and has the default limits. */
static int zeros(void) {
    enum { MOST = 1000000 };
    static scl_bytes words[MOST + 1];
    scl_request request;
    scl_given given;
    for (size_t i = 0; i <= MOST; i++) words[i] = scl_text("a");
    memset(&request, 0, sizeof request);
    request.compiler = scl_text("gcc");
    if (scl_ask_new(&request, &given) != SCL_OK || given.answer.outcome != SCL_NOT_COMPILATION) FAIL("a request of zeros is not answered");
    scl_free(&given);
    if (behind_a_directory(request, words)) return 1;
    request.words.at = words;
    for (int more = 0; more < 2; more++) {
        request.words.len = MOST + (size_t)more;
        int32_t status = scl_ask_new(&request, &given), wanted = more ? SCL_TOO_MANY_WORDS : SCL_OK;
        if (status == SCL_OK) scl_free(&given);
        if (status != wanted) FAIL("status %d for %zu words where most_words is 0", (int)status, request.words.len);
    }
    request.most_words = SIZE_MAX;
    if (scl_ask_new(&request, &given) != SCL_OK) FAIL("too many words, where there is no bound");
    scl_free(&given);
    if (live) FAIL("a request of zeros leaks %ld blocks", live);
    printf("a request of zeros, with %d words and one more\n", MOST);
    return 0;
}

static void *many(void *whole) {
    uint8_t room[2048];
    char other[1 << 14], first[1 << 14];
    size_t wanted, length = 0;
    scl_bytes words[WORDS];
    scl_pair pairs[2];
    scl_request request = asked(words, pairs);
    for (int i = 0; i < 1000; i++) {
        scl_given given;
        if (call(scl_run, room, sizeof room, &wanted) || memcmp(room, whole, wanted)) return whole;
        if (scl_ask_new(&request, &given)) return whole;
        size_t now = flat(&given.answer, i ? other : first);
        scl_free(&given);
        if (i && (now != length || memcmp(first, other, now))) return whole;
        length = now;
    }
    return live ? whole : 0;
}

static int threads(void *whole) {
    pthread_t all[8];
    void *out;
    for (int i = 0; i < 8; i++)
        if (pthread_create(&all[i], 0, many, whole)) FAIL("no thread");
    for (int i = 0; i < 8; i++)
        if (pthread_join(all[i], &out) || out) FAIL("a thread was answered differently");
    printf("8 threads, 1,000 calls of each\n");
    return 0;
}

int main(void) {
    static uint8_t whole[2048];
    size_t wanted = 0;
    if (call(scl_run, whole, sizeof whole, &wanted) != SCL_OK) FAIL("scl_run does not answer");
    if (scl_catalogue_new(NULL, 0, &handle, &wanted) != SCL_OK) FAIL("no catalogue is made");
    live = 0; /* (what is behind the handle stays) */
    return texts("scl_run", scl_run) || texts("scl_describe", scl_describe) || texts("scl_describe_with", by_catalogue) || catalogues() || new_texts("scl_run", scl_run) || structs() || maps() || zeros() || threads(whole);
}
