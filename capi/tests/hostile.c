/* hostile N SEED: N random hostile requests, in this process: words cut and put together of flags, paths, NULs and random
 * bytes, files that name each other, and catalogues of right and wrong lines. All calls answer them; every status but those of the header, a text that is not
 * NUL terminated, or an answer that points elsewhere than into its memory ends it with status 1. */
#include <stdio.h>
#include "scl.h"

static uint64_t state;

static uint64_t next(void) {
    state ^= state << 13;
    state ^= state >> 7;
    state ^= state << 17;
    return state;
}

static size_t below(size_t n) { return (size_t)(next() % n); }

static const char *const pieces[] = {"-c", "-o", "-x", "c++", "a.c", "b.cc", "a.s", "-", "--", "-I", "-D", "@r", "@/w/s", "@", "-Xclang", "-clang:",
                                     "-Wp,", "-MD", "-MF", "-MMD", "/Fo", "/Fd", "/Zi", "/c", "-arch", "x86_64", "--coverage", "-gsplit-dwarf",
                                     "-fprofile-use=", "-E", "-S", "-isystem", "\\", "\"", "'", " ", "=", ",", "\n", "\xff\xfe", "a\\b", "-include",
                                     "-fmodules", "-Xpreprocessor", "-Wa,", "-O2", "-Wall", "-D@", "-fdiagnostics-color=", "never", "-emit-pch"};
static const char *const names[] = {"gcc", "g++", "clang", "clang++", "cl", "clang-cl", "diab", "tasking", "rustc", ""};

static const char *const lines[] = {"# a\n", "group A: raw * | flag -I & value *\n", "hazard h object\n", "hazard i messages\n", "    says So it is.\n",
                                    "    gcc, clang: any A ; not input *\n", "    gcc since 12: any raw *\n", "    clang-cl: language c*\n", "    gcc: unfollowed A > raw *\n"};

static uint8_t heap[1 << 16];
static size_t used;

static scl_bytes random_text(size_t most) {
    uint8_t *at = heap + used;
    size_t len = 0, parts = 1 + below(3);
    while (parts-- && used + len + 64 < sizeof heap) {
        if (below(5)) {
            const char *piece = pieces[below(sizeof pieces / sizeof *pieces)];
            size_t size = strlen(piece);
            memcpy(at + len, piece, size);
            len += size;
        } else {
            size_t size = below(most);
            while (size--) at[len++] = (uint8_t)next();
        }
    }
    used += len;
    return scl_bytes_of(at, len);
}

static size_t request_text(const scl_request *r, uint8_t *to) {
    static const char digits[] = "0123456789abcdef";
    size_t len = (size_t)sprintf((char *)to, "compiler %s\ncwd /w\n", (const char *)r->compiler.at);
    for (size_t i = 0; i < r->words.len; i++) {
        len += (size_t)sprintf((char *)to + len, "word ");
        for (size_t k = 0; k < r->words.at[i].len; k++) {
            uint8_t byte = r->words.at[i].at[k];
            to[len++] = '\\';
            to[len++] = 'x';
            to[len++] = (uint8_t)digits[byte >> 4];
            to[len++] = (uint8_t)digits[byte & 15];
        }
        to[len++] = '\n';
    }
    /* (now and then a byte is turned, so that lines are bad) */
    if (!below(8)) to[below(len)] = (uint8_t)next();
    return len;
}

static size_t catalogue_text(uint8_t *to) {
    size_t len = 0, count = below(8);
    while (count--) {
        const char *line = lines[below(sizeof lines / sizeof *lines)];
        memcpy(to + len, line, strlen(line));
        len += strlen(line);
    }
    /* (now and then a byte is turned) */
    if (len && !below(3)) to[below(len)] = (uint8_t)next();
    return len;
}

static int is_text(scl_bytes text) { return text.at[text.len] == 0; }

static int are_texts(scl_words words) {
    for (size_t i = 0; i < words.len; i++)
        if (!is_text(words.at[i])) return 0;
    return 1;
}

static int is_sound(const scl_answer *a) {
    for (size_t i = 0; i < a->runs.len; i++)
        if (!are_texts(a->runs.at[i])) return 0;
    for (size_t i = 0; i < a->record.outputs.len; i++)
        if (!is_text(a->record.outputs.at[i].name) || !is_text(a->record.outputs.at[i].path)) return 0;
    return are_texts(a->command) && are_texts(a->record.lists.common) && are_texts(a->record.lists.preprocessor) && are_texts(a->questions.files) && are_texts(a->hazards) &&
           a->outcome <= SCL_NOT_COMPILATION && a->record.language <= SCL_HIP && a->record.color <= SCL_COLOR_AUTO && is_text(a->reason) && is_text(a->text);
}

int main(int argc, char **argv) {
    unsigned long count = argc > 1 ? strtoul(argv[1], 0, 10) : 100000, statuses[2][8] = {{0}};
    state = (argc > 2 ? strtoull(argv[2], 0, 10) : 1) * 0x9E3779B97F4A7C15u + 1;
    static uint8_t text[1 << 19], room[1 << 16], catalogue[1 << 10];
    scl_catalogue *handle;
    size_t line;
    if (scl_catalogue_new(NULL, 0, &handle, &line) != SCL_OK) return 1;
    for (unsigned long i = 0; i < count; i++) {
        scl_bytes words[16];
        scl_pair files[3], variables[2];
        used = 0;
        size_t len = below(12);
        for (size_t k = 0; k < len; k++) words[k] = random_text(24);
        for (size_t k = 0; k < 3; k++) {
            files[k].key = k ? scl_text(k == 1 ? "/w/r" : "/w/s") : random_text(8);
            files[k].value = random_text(64);
        }
        variables[0].key = scl_text("CL");
        variables[1].key = scl_text("_CL_");
        variables[0].value = random_text(16);
        variables[1].value = random_text(16);
        scl_request request = scl_request_of(names[below(sizeof names / sizeof *names)], words, len);
        request.directory = scl_text("/w");
        request.files = scl_pairs_of(files, below(4));
        request.environment = scl_pairs_of(variables, below(3));
        request.most_words = below(50) ? 10000 : below(6);
        request.most_bytes = below(50) ? 0 : below(200);
        request.is_multiarch = below(2);
        request.wants_runs = below(2);
        request.rewrite_includes_only = below(2);
        request.wants_questions = below(2);
        request.wants_hazards = below(2);
        /* (most by the handle, since without one a catalogue is read in each call) */
        request.handle = below(16) ? handle : NULL;
        scl_given given;
        int32_t status = scl_ask_new(&request, &given);
        if (status < 0 || (status > SCL_TOO_MANY_WORDS && status != SCL_NEWER) || status == SCL_SHORT || status == SCL_NO_MEMORY || (status == SCL_OK && !is_sound(&given.answer))) {
            printf("hostile: request %lu is answered with status %d\n", i, (int)status);
            return 1;
        }
        if (status == SCL_OK) scl_free(&given);
        statuses[0][status]++;
        size_t wanted, size = request_text(&request, text), len_of_catalogue = catalogue_text(catalogue), room_len = below(4) ? sizeof room : below(256), which = below(32);
        if (which > 1) status = which % 2 ? scl_run(text, size, room, room_len, &wanted) : scl_catalogue_describe(handle, text, size, room, room_len, &wanted);
        else status = which ? scl_describe(text, size, room, room_len, &wanted) : scl_describe_with(catalogue, len_of_catalogue, text, size, room, room_len, &wanted);
        if (status < 0 || (status > SCL_BAD && (status != SCL_BAD_CATALOGUE || which))) {
            printf("hostile: the text of request %lu is answered with status %d\n", i, (int)status);
            return 1;
        }
        statuses[1][status]++;
    }
    scl_catalogue_free(handle);
    printf("%lu hostile requests: scl_ask answered %lu, knew no compiler for %lu, met too many words in %lu; texts were given %lu times, too long for the room %lu times, had a bad line %lu times, and a wrong catalogue %lu times\n", count,
           statuses[0][SCL_OK], statuses[0][SCL_BAD], statuses[0][SCL_TOO_MANY_WORDS], statuses[1][SCL_OK], statuses[1][SCL_SHORT], statuses[1][SCL_BAD], statuses[1][SCL_BAD_CATALOGUE]);
    return 0;
}
