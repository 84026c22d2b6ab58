/* bench ROUNDS: microseconds of processor time a call takes: the least of five times ROUNDS calls, for a command of gcc of
 * twenty words, by text and by struct, with and without what can be left out, and of scl_catalogue_describe by the rows that are wanted.
 * Calls that read a catalogue are a hundredth as many. */
#define _POSIX_C_SOURCE 200809L
#include <stdio.h>
#include <time.h>
#include "scl.h"

static const char *const line[] = {"-c", "-O2", "-g", "-Wall", "-Wextra", "-fPIC", "-std=gnu11", "-DNDEBUG", "-DVERSION=\"1.2.3\"", "-Iinclude",
                                   "-I", "../common/include", "-isystem", "/usr/include/libxml2", "-MD", "-MF", "build/src/foo.d", "-o", "build/src/foo.o", "src/foo.c"};
enum { WORDS = sizeof line / sizeof *line };

static double now(void) {
    struct timespec it;
    clock_gettime(CLOCK_PROCESS_CPUTIME_ID, &it);
    return (double)it.tv_sec * 1e6 + (double)it.tv_nsec / 1e3;
}

static char text[4096];
static size_t text_len, words_len; /* with lines `setting wants`, and without them */
static scl_request request;
static scl_catalogue *handle;

static int32_t by_text(void) {
    uint8_t room[4096];
    size_t wanted;
    return scl_run((const uint8_t *)text, text_len, room, sizeof room, &wanted);
}

static int32_t by_rows(void) {
    uint8_t room[8192];
    size_t wanted;
    return scl_describe((const uint8_t *)text, text_len, room, sizeof room, &wanted);
}

static int32_t by_handle(void) {
    uint8_t room[8192];
    size_t wanted;
    return scl_catalogue_describe(handle, (const uint8_t *)text, text_len, room, sizeof room, &wanted);
}

static int32_t by_name(void) {
    static const scl_bytes words[] = {{(const uint8_t *)"ccache", 6}, {(const uint8_t *)"gcc", 3}};
    size_t program;
    const char *compiler;
    return scl_name(words, 2, &program, &compiler);
}

static int32_t make(void) {
    scl_catalogue *other;
    size_t number;
    int32_t status = scl_catalogue_new(SCL_NOTHING, 0, &other, &number);
    if (status == SCL_OK) scl_catalogue_free(other);
    return status;
}

static int32_t by_struct(void) {
    scl_given given;
    int32_t status = scl_ask_new(&request, &given);
    if (status == SCL_OK) scl_free(&given);
    return status;
}

static void measure(const char *name, int32_t call(void), int rounds) {
    double least = 1e18;
    for (int time = 0; time < 5; time++) {
        double start = now();
        for (int i = 0; i < rounds; i++)
            if (call() != SCL_OK) exit(1);
        double took = (now() - start) / rounds;
        least = took < least ? took : least;
    }
    printf("%-32s %6.2f microseconds\n", name, least);
}

/* scl_catalogue_describe, of which only these rows are wanted. */
static void measure_wanted(const char *row, int rounds) {
    char name[64];
    text_len = words_len + (size_t)sprintf(text + words_len, "setting wants %s\n", row);
    sprintf(name, "by a handle, wants %s", row);
    measure(name, by_handle, rounds);
    text_len = words_len;
}

int main(int argc, char **argv) {
    int rounds = argc > 1 ? atoi(argv[1]) : 20000, few = rounds / 100 + 1;
    size_t number;
    scl_bytes words[WORDS];
    text_len = (size_t)sprintf(text, "compiler gcc\n");
    for (int i = 0; i < WORDS; i++) {
        words[i] = scl_text(line[i]);
        text_len += (size_t)sprintf(text + text_len, "word %s\n", line[i]);
    }
    words_len = text_len;
    request = scl_request_of("gcc", words, WORDS);
    if (scl_catalogue_new(SCL_NOTHING, 0, &handle, &number) != SCL_OK) return 1;
    measure("scl_run", by_text, rounds);
    measure("scl_catalogue_new, and freed", make, few);
    measure("scl_describe", by_rows, few);
    measure("scl_name", by_name, few);
    measure("scl_catalogue_describe", by_handle, rounds);
    measure_wanted("version", rounds);
    measure_wanted("run", rounds);
    measure_wanted("key", rounds);
    measure_wanted("option", rounds);
    measure_wanted("wants", rounds);
    measure("scl_ask_new", by_struct, few);
    request.handle = handle;
    measure("scl_ask_new, by a handle", by_struct, rounds);
    request.wants_runs = request.wants_questions = request.wants_hazards = request.wants_options = true;
    measure("scl_ask_new, by a handle, all", by_struct, rounds);
    scl_catalogue_free(handle);
    return 0;
}
