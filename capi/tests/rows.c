/* rows N SEED: N random answers, read by scl.h over a library that is none: it answers with the text that stands here. An answer
 * whose rows are right, in any order and with unknown ones among them, must be read as it was made, in memory of just its size and
 * in none that is less. One that lacks a row, has it twice, or lacks its last byte must be read as unknown; one that was broken
 * differently must be read, or be read as unknown. Each request is compared with its text. */
#include <stdio.h>
#include "scl.h"

static uint64_t state;

static uint64_t next(void) {
    state ^= state << 13;
    state ^= state >> 7;
    state ^= state << 17;
    return state;
}

static size_t below(size_t n) { return (size_t)((next() >> 11) % n); }

#define FAIL(...) (printf("rows: answer %lu: ", number), printf(__VA_ARGS__), printf("\n"), exit(1))
static unsigned long number;

/* ---- the library that is none */

typedef struct text {
    uint8_t at[1 << 16];
    size_t len;
} text;

static text said, asked;
static int32_t said_status;
static size_t said_line;
static bool is_by_catalogue, is_by_handle;
static int behind_handle;

uint32_t scl_version(void) { return SCL_PROTOCOL; }

int32_t scl_describe(const uint8_t *request, size_t request_len, uint8_t *room, size_t room_len, size_t *wanted) {
    if (request_len > sizeof asked.at) FAIL("the request has %zu bytes", request_len);
    memcpy(asked.at, request, request_len);
    asked.len = request_len;
    *wanted = said_status ? said_line : said.len;
    if (said_status) return said_status;
    if (room_len < said.len) return SCL_SHORT;
    if (said.len) memcpy(room, said.at, said.len);
    return SCL_OK;
}

int32_t scl_describe_with(const uint8_t *catalogue, size_t catalogue_len, const uint8_t *request, size_t request_len, uint8_t *room, size_t room_len,
                          size_t *wanted) {
    if (catalogue_len != 3 || memcmp(catalogue, "# c", 3)) FAIL("the catalogue is another");
    is_by_catalogue = true;
    return scl_describe(request, request_len, room, room_len, wanted);
}

int32_t scl_catalogue_describe(const scl_catalogue *handle, const uint8_t *request, size_t request_len, uint8_t *room, size_t room_len, size_t *wanted) {
    if ((const void *)handle != &behind_handle) FAIL("the handle is another");
    is_by_handle = true;
    return scl_describe(request, request_len, room, room_len, wanted);
}

int32_t scl_run(const uint8_t *request, size_t request_len, uint8_t *room, size_t room_len, size_t *wanted) {
    return scl_describe(request, request_len, room, room_len, wanted);
}

/* ---- texts */

static void add_byte(text *to, uint8_t it) {
    if (to->len == sizeof to->at) FAIL("a text is too long");
    to->at[to->len++] = it;
}

static void add(text *to, const char *it) {
    while (*it) add_byte(to, (uint8_t)*it++);
}

static void add_field(text *to, scl_bytes field) {
    char escape[8];
    for (size_t i = 0; i < field.len; i++) {
        uint8_t it = field.at[i];
        sprintf(escape, it > 32 && it < 127 && it != 92 ? "%c" : "\\x%02x", it);
        add(to, escape);
    }
}

static uint8_t heap[1 << 16];
static size_t used;

static scl_bytes random_bytes(void) {
    size_t len = below(8) ? below(6) : below(40);
    uint8_t *at = heap + used;
    for (size_t i = 0; i < len; i++) at[i] = (uint8_t)(below(3) ? 'a' + below(26) : next() >> 20);
    used += len;
    return scl_bytes_of(at, len);
}

/* ---- answers as they are made */

enum { MOST = 5 };
typedef struct list {
    const char *row;
    scl_bytes words[MOST];
    size_t len, put;
} list;

static list lists[] = {{.row = "arg"}, {.row = "dependency"}, {.row = "preprocessor"}, {.row = "common"}, {.row = "arch"}, {.row = "unhashed"}, {.row = "dist"},
                       {.row = "hash"}, {.row = "hazard"}, {.row = "wants file"}, {.row = "wants dir"}, {.row = "wants exists"}, {.row = "run"}, {.row = "option"},
                       {.row = "environment"}, {.row = "output"}, {.row = "key"}, {.row = "keep"}};
enum { LISTS = sizeof lists / sizeof *lists, RUN = 12, OPTION, ENVIRONMENT, OUTPUT, KEY, KEEP };
static uint32_t key_kinds[MOST];
static size_t unknown_keys, unknown_keeps;
static const char *const singles[] = {"input", "compilation-flag", "depfile", "too-hard", "reason", "because", "sentence", "directory-in-object"};
enum { SINGLES = sizeof singles / sizeof *singles };
static scl_bytes texts[SINGLES];
static const char *const yeses[] = {"double-dash-input", "external-assembler", "show-includes", "explicit-language", "profile-generate", "no-rewrite-includes-only"};
enum { YESES = sizeof yeses / sizeof *yeses };
static const char *const languages[] = {"Assembler", "AssemblerToPreprocess", "C", "CHeader", "GenericHeader", "Cxx", "CxxHeader", "CxxModule",
                                        "ObjectiveC", "ObjectiveCHeader", "ObjectiveCxx", "ObjectiveCxxHeader", "Cuda", "Rust", "Hip"};
static const char *const colors[] = {"off", "on", "auto"};
static unsigned has_text, has_yes;
static size_t outcome, language, color, at;
static bool is_kept, is_optional[MOST];
static size_t wrong, wrong_times; /* a row that does not stand once, and how often it does */

static void add_row(const char *name, scl_bytes field) {
    add(&said, name);
    add(&said, " ");
    add_field(&said, field);
    add(&said, "\n");
}

/* A run and an option of a word w: w, and after it w once more for each of its first bits. */
static size_t times_of(scl_bytes word) { return 1 + word.len % 3; }

/* How many fields the name of a row of a key has after it. */
static size_t key_fields(size_t which) {
    const scl_known_key *it = &scl_known_keys[key_kinds[which]];
    return it->least + (it->most > it->least ? lists[KEY].words[which].len % 2 : 0);
}

static void add_listed(size_t which) {
    list *of = &lists[which];
    scl_bytes word = of->words[of->put];
    size_t fields = which == KEY ? key_fields(of->put) : which == RUN || which == OPTION ? times_of(word) : which >= ENVIRONMENT ? 2 : 1;
    add(&said, of->row);
    if (which == KEY) add(&said, " "), add(&said, scl_known_keys[key_kinds[of->put]].name);
    if (which == KEEP) add(&said, " no");
    for (size_t i = 0; i < fields; i++) {
        add(&said, " ");
        add_field(&said, word);
    }
    if (which == OUTPUT && is_optional[of->put]) add(&said, " optional");
    add(&said, "\n");
    of->put++;
}

static void add_unknown(void) {
    static const char *const names[] = {"keys", "notes", "", "wants device", "hazards", "version-of", "arg2", "key", "keep"};
    size_t which = below(8 * sizeof names / sizeof *names);
    if (which >= sizeof names / sizeof *names) return;
    if (which > 6 && outcome) return;
    unknown_keys += which == 7;
    unknown_keeps += which == 8;
    add_row(names[which], which < 7 && below(2) ? random_bytes() : scl_text("\xff b\\"));
}

/* A row of an outcome that stands by itself. */
static void add_once(size_t which) {
    char digits[24];
    if (which < SINGLES) {
        if (has_text & 1u << which) add_row(singles[which], texts[which]);
    } else if (which < SINGLES + YESES) {
        if (has_yes & 1u << (which - SINGLES)) add(&said, yeses[which - SINGLES]), add(&said, "\n");
    } else if (which == SINGLES + YESES) {
        add(&said, "version 1\n");
    } else if (which == SINGLES + YESES + 1) {
        if (at) sprintf(digits, "%zu", at - 1), add_row("at", scl_text(digits));
    } else if (outcome == 0) {
        static const char *const names[] = {"language", "color", "cacheable"};
        const char *values[] = {languages[language], colors[color], is_kept ? "yes" : "no"};
        add_row(names[which - SINGLES - YESES - 2], scl_text(values[which - SINGLES - YESES - 2]));
    }
}
enum { ALONE = SINGLES + YESES + 5, VERSION = SINGLES + YESES };

static void add_alone(size_t which) {
    for (size_t times = which == wrong ? wrong_times : 1; times--;) add_once(which);
}

/* Leaves out a row that must stand once, or puts it twice. */
static void choose_wrong(void) {
    static const size_t compiled[] = {0, 1, VERSION, VERSION + 2, VERSION + 3, VERSION + 4}, refused[] = {4, VERSION};
    wrong = outcome == 0 ? compiled[below(6)] : outcome == 1 ? refused[below(2)] : VERSION;
    wrong_times = 2 * below(2);
}

static void make_answer(void) {
    outcome = below(3);
    language = below(15);
    color = below(3);
    is_kept = below(2);
    at = below(2) ? 0 : 1 + below(100000);
    unknown_keys = unknown_keeps = 0;
    has_yes = outcome ? 0 : (unsigned)below(1u << YESES);
    has_text = outcome == 0 ? 3 + 4 * (unsigned)below(4) + 128 * (unsigned)below(2) : outcome == 1 ? 16 + 32 * (unsigned)below(4) : 0;
    for (size_t i = 0; i < SINGLES; i++) texts[i] = random_bytes();
    for (size_t i = 0; i < LISTS; i++) {
        lists[i].len = outcome == 0 || (i >= 9 && i < 12) || i == OPTION ? below(MOST + 1) : 0;
        lists[i].put = 0;
        for (size_t k = 0; k < lists[i].len; k++) lists[i].words[k] = random_bytes();
    }
    for (size_t i = 0; i < MOST; i++) is_optional[i] = below(2), key_kinds[i] = (uint32_t)below(SCL_KEYS);
    if (below(4)) lists[KEEP].len = 0;
}

static void write_answer(void) {
    static const char *const firsts[] = {"ok\n", "cannot-cache because of \xff\n", "not-compilation\n"};
    bool is_put[ALONE] = {false};
    said.len = 0;
    add(&said, firsts[outcome]);
    for (size_t left = 300; left--;) {
        size_t which = below(LISTS + ALONE);
        if (which < LISTS && lists[which].put < lists[which].len) add_listed(which);
        if (which >= LISTS && !is_put[which - LISTS]) add_alone(which - LISTS), is_put[which - LISTS] = true;
        if (!below(40)) add_unknown();
    }
    for (size_t i = 0; i < LISTS; i++)
        while (lists[i].put < lists[i].len) add_listed(i);
    for (size_t i = 0; i < ALONE; i++)
        if (!is_put[i]) add_alone(i);
}

/* ---- what is read of them */

static bool is_same(scl_bytes a, scl_bytes b) { return a.len == b.len && !memcmp(a.at, b.at, a.len) && !a.at[a.len]; }

static void check_words(const char *what, scl_words told, const list *of, bool is_wanted) {
    if (told.len != (is_wanted ? of->len : 0)) FAIL("%s: %zu words, and not %zu", what, told.len, of->len);
    for (size_t i = 0; i < told.len; i++)
        if (!is_same(told.at[i], of->words[i])) FAIL("%s: word %zu is another", what, i);
}

static void check_runs(const char *what, scl_runs told, const list *of, bool is_wanted) {
    if (told.len != (is_wanted ? of->len : 0)) FAIL("%s: %zu, and not %zu", what, told.len, of->len);
    for (size_t i = 0; i < told.len; i++) {
        if (told.at[i].len != times_of(of->words[i])) FAIL("%s: %zu words", what, told.at[i].len);
        for (size_t k = 0; k < told.at[i].len; k++)
            if (!is_same(told.at[i].at[k], of->words[i])) FAIL("%s: another word", what);
    }
}

/* The rows of a key in order, with unknown ones among them; and the rows `keep`. */
static void check_key(const scl_answer *a, const scl_request *r) {
    size_t put = 0, unknown = 0;
    for (size_t i = 0; i < a->key.len; i++) {
        scl_key_row it = scl_key_at(a, i);
        bool is_macro = it.kind == SCL_KEY_SHOWN, is_asked = it.kind > SCL_KEY_OUTPUT && it.kind != SCL_KEY_BASES && !is_macro;
        if (it.kind == SCL_KEYS && ++unknown) continue;
        if (put == lists[KEY].len || it.kind != key_kinds[put] || it.fields.len != key_fields(put)) FAIL("row %zu of the key is another", i);
        if (it.is_asked != is_asked || it.may_be_left_out != is_macro) FAIL("row %zu of the key is read differently", i);
        for (size_t k = 0; k < it.fields.len; k++)
            if (!is_same(it.fields.at[k], lists[KEY].words[put])) FAIL("row %zu of the key has another field", i);
        put++;
    }
    if (r->wants_key ? put != lists[KEY].len || unknown != unknown_keys : a->key.len) FAIL("the key has %zu rows", a->key.len);
    if (a->keep.len != lists[KEEP].len + unknown_keeps) FAIL("%zu rows `keep`", a->keep.len);
    put = 0;
    for (size_t i = 0; i < a->keep.len; i++) {
        scl_words it = a->keep.at[i];
        if (it.len == 3 && (put == lists[KEEP].len || !is_same(it.at[2], lists[KEEP].words[put++]))) FAIL("a row `keep` is another");
    }
}

static void check_lists(const scl_answer *a, const scl_request *r) {
    const scl_words words[] = {a->command, a->record.lists.dependency, a->record.lists.preprocessor, a->record.lists.common, a->record.lists.arch,
                               a->record.lists.unhashed, a->record.lists.dist_files, a->record.lists.hash_files, a->hazards, a->questions.files,
                               a->questions.directories, a->questions.existing};
    for (size_t i = 0; i < RUN; i++) check_words(lists[i].row, words[i], &lists[i], i < 8 || (i == 8 ? r->wants_hazards : r->wants_questions));
    check_runs("run", a->runs, &lists[RUN], r->wants_runs);
    check_runs("option", a->options, &lists[OPTION], r->wants_options);
    check_key(a, r);
    if (a->environment.len != lists[ENVIRONMENT].len || a->record.outputs.len != lists[OUTPUT].len) FAIL("pairs or outputs are missing");
    for (size_t i = 0; i < a->environment.len; i++)
        if (!is_same(a->environment.at[i].key, lists[ENVIRONMENT].words[i]) || !is_same(a->environment.at[i].value, lists[ENVIRONMENT].words[i])) FAIL("a pair is another");
    for (size_t i = 0; i < a->record.outputs.len; i++) {
        const scl_output *it = &a->record.outputs.at[i];
        if (!is_same(it->name, lists[OUTPUT].words[i]) || !is_same(it->path, lists[OUTPUT].words[i]) || it->is_optional != is_optional[i]) FAIL("an output is another");
    }
}

static void check_told(const scl_answer *a, const scl_request *r) {
    const scl_bytes told[] = {a->record.input, a->record.compilation_flag, a->record.depfile, a->record.too_hard, a->reason, a->text, a->sentence, a->directory_in_object};
    const bool yes[] = {a->record.double_dash_input, a->record.uses_external_assembler, a->record.show_includes,
                        a->record.explicit_language, a->record.profile_generate, a->record.suppress_rewrite_includes_only};
    for (size_t i = 0; i < SINGLES; i++)
        if (!is_same(told[i], has_text & 1u << i && (i < 7 || r->wants_key) ? texts[i] : scl_text(""))) FAIL("%s is another", singles[i]);
    for (size_t i = 0; i < YESES; i++)
        if (yes[i] != (has_yes >> i & 1)) FAIL("%s is %d", yeses[i], yes[i]);
    if (a->record.has_depfile != (has_text >> 2 & 1) || a->record.has_too_hard != (has_text >> 3 & 1) || a->has_text != (has_text >> 5 & 1)) FAIL("what there is is read differently");
    if (a->outcome != outcome || (outcome == 0 && (a->record.language != language || a->record.color != color))) FAIL("outcome, language or colour is another");
    bool has_unknown = unknown_keeps || (unknown_keys && r->wants_key);
    if (a->is_cacheable != (outcome == 0 && r->wants_key && is_kept && !has_unknown && !lists[KEEP].len) || a->has_unknown != has_unknown) FAIL("what may be kept is read differently");
    if (a->has_at != (at > 0) || a->at != (at ? at - 1 : 0)) FAIL("the index is another");
    check_lists(a, r);
}

/* ---- memory of just the size, each part a block of its own */

static void *block_of(size_t size) {
    void *it = malloc(size ? size : 1);
    if (!it) FAIL("no memory");
    return it;
}

static int32_t ask_in(const scl_request *request, const scl_sizes *sizes, scl_sizes *wanted, scl_answer *answer, bool is_valid) {
    scl_room room = {block_of(sizes->bytes),         sizes->bytes,   block_of(sizes->slots * sizeof(scl_bytes)), sizes->slots,
                     block_of(sizes->pairs * sizeof(scl_pair)), sizes->pairs, block_of(sizes->outputs * sizeof(scl_output)), sizes->outputs,
                     block_of(sizes->runs * sizeof(scl_words)), sizes->runs};
    int32_t status = scl_ask(request, room, wanted, answer);
    if (status == SCL_OK && is_valid) check_told(answer, request);
    free(room.bytes), free(room.slots), free(room.pairs), free(room.outputs), free(room.runs);
    return status;
}

static void check_rooms(const scl_request *request, bool is_valid) {
    scl_sizes none = {0, 0, 0, 0, 0}, wanted, again;
    scl_answer answer = scl_no_answer(), before = answer;
    int32_t status = ask_in(request, &none, &wanted, &answer, is_valid);
    if (status != SCL_SHORT && (status != SCL_OK || wanted.bytes || wanted.slots)) FAIL("status %d in no room", (int)status);
    if (status == SCL_SHORT && memcmp(&before, &answer, sizeof answer)) FAIL("an answer is read in no room");
    if (ask_in(request, &wanted, &again, &answer, is_valid) != SCL_OK || memcmp(&wanted, &again, sizeof wanted)) FAIL("it is not read in a room of just the size");
    size_t *const parts[] = {&wanted.bytes, &wanted.slots, &wanted.pairs, &wanted.outputs, &wanted.runs};
    size_t *part = parts[below(5)];
    if (*part && (--*part, ask_in(request, &wanted, &again, &answer, is_valid) != SCL_SHORT)) FAIL("it is read in a room that is too short");
}

/* ---- requests */

static const scl_request *random_request(void) {
    static scl_bytes words[MOST], directories[MOST], bases[MOST];
    static scl_pair variables[MOST], files[MOST];
    static scl_request request;
    scl_request *r = &request;
    memset(r, 0, sizeof *r);
    for (size_t i = 0; i < MOST; i++) {
        words[i] = random_bytes();
        directories[i] = random_bytes();
        bases[i] = random_bytes();
        variables[i].key = random_bytes(), variables[i].value = random_bytes();
        files[i].key = random_bytes(), files[i].value = random_bytes();
    }
    r->compiler = random_bytes();
    if (below(2)) r->directory = random_bytes();
    r->words.at = words, r->words.len = below(MOST + 1);
    r->environment.at = variables, r->environment.len = below(MOST + 1);
    if (below(2)) r->files.at = files, r->files.len = below(MOST + 1);
    if (below(2)) r->directories.at = directories, r->directories.len = below(MOST + 1);
    if (below(2)) r->existing.at = words, r->existing.len = below(MOST + 1);
    r->most_words = below(3) ? 0 : (size_t)next();
    r->most_bytes = below(3) ? 0 : (size_t)next();
    r->is_multiarch = below(2), r->wants_runs = below(2), r->may_dist = below(2), r->rewrite_includes_only = below(2), r->cache_mode = below(2);
    r->wants_questions = below(2), r->wants_hazards = below(4), r->wants_options = below(2), r->wants_key = below(2);
    if (below(2)) r->version = random_bytes();
    if (below(2)) r->bases.at = bases, r->bases.len = below(MOST + 1);
    r->keep_shown = below(2);
    if (!below(4)) r->catalogue = scl_text("# c");
    if (!below(4)) r->handle = (const scl_catalogue *)(const void *)&behind_handle;
    return r;
}

/* The request's text, written once more. */
static void check_request(const scl_request *r) {
    static text want;
    char digits[40];
    want.len = 0;
    add(&want, "compiler "), add_field(&want, r->compiler), add(&want, "\ncwd "), add_field(&want, r->directory), add(&want, "\n");
    for (size_t i = 0; i < r->words.len; i++) add(&want, "word "), add_field(&want, r->words.at[i]), add(&want, "\n");
    for (size_t i = 0; i < r->environment.len; i++)
        add(&want, "env "), add_field(&want, r->environment.at[i].key), add(&want, "\t"), add_field(&want, r->environment.at[i].value), add(&want, "\n");
    for (size_t i = 0; i < r->files.len; i++)
        add(&want, "file "), add_field(&want, r->files.at[i].key), add(&want, "\t"), add_field(&want, r->files.at[i].value), add(&want, "\n");
    for (size_t i = 0; i < r->directories.len; i++) add(&want, "dir "), add_field(&want, r->directories.at[i]), add(&want, "\n");
    for (size_t i = 0; i < r->existing.len; i++) add(&want, "exists "), add_field(&want, r->existing.at[i]), add(&want, "\n");
    if (r->is_multiarch) add(&want, "multiarch\n");
    add(&want, "setting wants version\n");
    if (r->wants_runs) add(&want, "setting wants run\n");
    if (r->wants_questions) add(&want, "setting wants wants\n");
    if (r->wants_hazards) add(&want, "setting wants hazard\n");
    if (r->wants_options) add(&want, "setting wants option\n");
    if (r->wants_key) add(&want, "setting wants key\n");
    if (r->may_dist) add(&want, "setting may-dist\n");
    if (r->rewrite_includes_only) add(&want, "setting rewrite-includes-only\n");
    if (r->cache_mode) add(&want, "setting cache-mode\n");
    if (r->most_words) sprintf(digits, "setting bound %zu\n", r->most_words), add(&want, digits);
    if (r->most_bytes) sprintf(digits, "setting bytes %zu\n", r->most_bytes), add(&want, digits);
    if (r->version.len) add(&want, "setting version "), add_field(&want, r->version), add(&want, "\n");
    for (size_t i = 0; i < r->bases.len; i++) add(&want, "setting base "), add_field(&want, r->bases.at[i]), add(&want, "\n");
    if (r->keep_shown) add(&want, "setting keep-shown\n");
    if (want.len != asked.len || memcmp(want.at, asked.at, want.len)) FAIL("the request is %.*s", (int)asked.len, (const char *)asked.at);
    if (is_by_handle != (r->handle != NULL)) FAIL("the handle is passed over");
    if (is_by_catalogue != (r->catalogue.len > 0 && !r->handle)) FAIL("the catalogue is passed over, or read beside a handle");
}

/* ---- broken answers */

static void break_answer(void) {
    for (size_t times = 1 + below(3); times-- && said.len;) {
        size_t from = below(said.len), len = 1 + below(below(4) ? 4 : said.len - from);
        switch (below(5)) {
        case 0: said.at[from] = below(2) ? (uint8_t)next() : (uint8_t) " \n\\x1af"[below(7)]; break;
        case 1: said.len = from; break;
        case 2:
            if (len > said.len - from) len = said.len - from;
            memmove(said.at + from, said.at + from + len, said.len - from - len);
            said.len -= len;
            break;
        case 3:
            if (len > said.len - from) len = said.len - from;
            if (said.len + len > sizeof said.at) break;
            memmove(said.at + from + len, said.at + from, said.len - from);
            said.len += len;
            break;
        default: said.at[from] = '\n';
        }
    }
}

static bool is_inside(const scl_given *given, const void *place, size_t len) {
    return !len || (given->block && place && (const char *)place >= (const char *)given->block);
}

static bool are_sound(const scl_given *given, scl_words words) {
    if (!is_inside(given, words.at, words.len)) return false;
    for (size_t i = 0; i < words.len; i++)
        if (words.at[i].at[words.at[i].len] || !is_inside(given, words.at[i].at, words.at[i].len)) return false;
    return true;
}

static void check_sound(const scl_given *given) {
    const scl_answer *a = &given->answer;
    const scl_words words[] = {a->command, a->record.lists.dependency, a->record.lists.common, a->record.lists.hash_files, a->hazards, a->questions.files};
    bool is_sound = a->outcome <= SCL_NOT_COMPILATION && a->record.language <= SCL_HIP && a->record.color <= SCL_COLOR_AUTO && !a->reason.at[a->reason.len];
    for (size_t i = 0; i < sizeof words / sizeof *words; i++) is_sound = is_sound && are_sound(given, words[i]);
    for (size_t i = 0; i < a->runs.len; i++) is_sound = is_sound && are_sound(given, a->runs.at[i]);
    for (size_t i = 0; i < a->options.len; i++) is_sound = is_sound && are_sound(given, a->options.at[i]);
    for (size_t i = 0; i < a->key.len; i++) is_sound = is_sound && are_sound(given, a->key.at[i]);
    for (size_t i = 0; i < a->keep.len; i++) is_sound = is_sound && are_sound(given, a->keep.at[i]);
    for (size_t i = 0; i < a->record.outputs.len; i++) is_sound = is_sound && !a->record.outputs.at[i].path.at[a->record.outputs.at[i].path.len];
    for (size_t i = 0; i < a->environment.len; i++) is_sound = is_sound && !a->environment.at[i].value.at[a->environment.at[i].value.len];
    if (!is_sound || (a->is_cacheable && a->has_unknown)) FAIL("a broken answer is read unsoundly");
}

/* Other statuses of the library, as a client sees them. */
static void check_statuses(const scl_request *request) {
    static const int32_t statuses[][3] = {{SCL_BAD, 1, SCL_BAD}, {SCL_BAD, 7, SCL_NEWER}, {SCL_NEWER, 7, SCL_NEWER}, {SCL_NO_MEMORY, 0, SCL_NO_MEMORY}, {SCL_BAD_CATALOGUE, 3, SCL_BAD_CATALOGUE}};
    size_t which = below(5);
    scl_given given;
    said_status = statuses[which][0], said_line = (size_t)statuses[which][1];
    int32_t status = scl_ask_new(request, &given);
    if (status != statuses[which][2] || given.block) FAIL("status %d for %d", (int)status, (int)said_status);
    said_status = 0;
}

/* What scl_name reads of an answer, and what it asked. */
#define ASKED "name\nword a\\x20b\nword gcc\n"
static void check_name(const char *answer, int32_t status, size_t wanted_program, const char *wanted_compiler) {
    static const scl_bytes words[] = {{(const uint8_t *)"a b", 3}, {(const uint8_t *)"gcc", 3}};
    size_t program;
    const char *compiler;
    said.len = 0;
    add(&said, answer);
    said_status = status, said_line = 1;
    int32_t told = scl_name(words, 2, &program, &compiler);
    said_status = 0;
    if (told != (status == SCL_BAD ? SCL_NEWER : status) || program != wanted_program) FAIL("a name: status %d, program %zu", (int)told, program);
    if (wanted_compiler ? !compiler || strcmp(compiler, wanted_compiler) : compiler != NULL) FAIL("a name: another compiler");
    if (asked.len != sizeof ASKED - 1 || memcmp(asked.at, ASKED, sizeof ASKED - 1)) FAIL("a name: another request, of %zu bytes", asked.len);
}

static void check_names(void) {
    check_name("program 1\ncompiler clang++\nversion 1\n", SCL_OK, 1, "clang++");
    check_name("program 0\nversion 1\nunknown row\n", SCL_OK, 0, NULL);
    check_name("version 1\n", SCL_OK, 2, NULL);
    check_name("program 2\ncompiler clang+\nversion 1\n", SCL_OK, 2, NULL);
    check_name("program x\ncompiler clang++x\nversion 1\n", SCL_OK, 2, NULL);
    check_name("program 1\ncompiler gcc", SCL_BAD, 2, NULL);
    check_name("", SCL_NO_MEMORY, 2, NULL);
}

/* What is said to a request, with this status, of which this line is bad. */
static void say(const char *answer, int32_t status, size_t line) {
    said.len = 0;
    add(&said, answer);
    said_status = status, said_line = line;
}

static bool is_text(scl_bytes it, const char *wanted) { return it.len == strlen(wanted) && !memcmp(it.at, wanted, it.len); }

/* What scl_made_by reads of an answer, and what it asked. */
static void check_made_by(const char *answer, int32_t status, int32_t told) {
    scl_maker made;
    say(answer, status, 1);
    if (scl_made_by(&made) != told) FAIL("a maker: another status");
    said_status = 0;
    if (!is_text(scl_bytes_of(asked.at, asked.len), "made-by\n")) FAIL("a maker: another request, of %zu bytes", asked.len);
    if (told != SCL_OK) return;
    if (!is_text(made.release, "2.0 b") || !is_text(made.rules, "0.19.0") || made.protocol != 1) FAIL("a maker: another one");
    free(made.block);
}

static void check_makers(void) {
    check_made_by("made-by 2.0\\x20b\nrules 0.19.0\nversion 1\n", SCL_OK, SCL_OK);
    check_made_by("version 1\nunknown row\nrules 0.19.0\nmade-by 2.0\\x20b more\n", SCL_OK, SCL_OK);
    check_made_by("made-by 2.0\nrules 0.19.0\n", SCL_OK, SCL_NEWER);
    check_made_by("made-by 2.0\nrules 0.19.0\nversion one\n", SCL_OK, SCL_NEWER);
    check_made_by("made-by 2.0\nrules 0.19.0\nversion 2147483648\n", SCL_OK, SCL_NEWER);
    check_made_by("made-by 2.0\nversion 1\n", SCL_OK, SCL_NEWER);
    check_made_by("rules 0.19.0\nversion 1\n", SCL_OK, SCL_NEWER);
    check_made_by("made-by \\x2\nrules 0.19.0\nversion 1\n", SCL_OK, SCL_NEWER);
    check_made_by("made-by\nrules 0.19.0\nversion 1\n", SCL_OK, SCL_NEWER);
    check_made_by("", SCL_BAD, SCL_NEWER);
    check_made_by("", SCL_NO_MEMORY, SCL_NO_MEMORY);
}

/* What scl_join reads of an answer, and what it asked. */
#define JOINED "join\nran a\t0\tx\\x0a\t\nran b\\x20c\t2147483647\t\tm\n"
static void check_join(const char *answer, int32_t status, int32_t told, int32_t wanted_status) {
    static const scl_ran runs[] = {{{(const uint8_t *)"a", 1}, 0, {(const uint8_t *)"x\n", 2}, {(const uint8_t *)"", 0}},
                                   {{(const uint8_t *)"b c", 3}, INT32_MAX, {(const uint8_t *)"", 0}, {(const uint8_t *)"m", 1}}};
    scl_texts joined;
    int32_t ended = -1;
    say(answer, status, 1);
    if (scl_join(runs, 2, &ended, &joined) != told) FAIL("joined runs: another status");
    said_status = 0;
    if (asked.len != sizeof JOINED - 1 || memcmp(asked.at, JOINED, sizeof JOINED - 1)) FAIL("joined runs: another request, of %zu bytes", asked.len);
    if (told != SCL_OK) return;
    if (ended != wanted_status || !is_text(joined.text, "t\n ") || !is_text(joined.messages, "")) FAIL("joined runs: other texts");
    free(joined.block);
}

/* What scl_map reads of an answer, and what it asked. */
#define MAPPED "map\nbase /w\nbase /x\\x20y\nquoting clang\ntext #\\x201\\x20\"/w/a.c\"\\x0a\n"
static void check_map(const char *answer, int32_t status, size_t line, int32_t told) {
    static const scl_bytes bases[] = {{(const uint8_t *)"/w", 2}, {(const uint8_t *)"/x y", 4}};
    scl_texts mapped;
    say(answer, status, line);
    if (scl_map(bases, 2, "clang", scl_text("# 1 \"/w/a.c\"\n"), &mapped) != told) FAIL("a mapped text: another status");
    said_status = 0;
    if (asked.len != sizeof MAPPED - 1 || memcmp(asked.at, MAPPED, sizeof MAPPED - 1)) FAIL("a mapped text: another request, of %zu bytes", asked.len);
    if (told != SCL_OK) return;
    if (mapped.text.len != 4 || memcmp(mapped.text.at, "\0<b\n", 4) || mapped.messages.len) FAIL("a mapped text: other texts");
    free(mapped.block);
}

/* What scl_depfile reads of an answer, and what it asked. */
#define SHOWN "depfile\nshown N:\\x20\tN:\\x20a\\x0a\ncompiler clang-cl\ncwd \nword x.c\n"
static void check_depfile(const char *answer, int32_t status, size_t line, int32_t told, bool is_wanted) {
    scl_bytes words[1] = {scl_text("x.c")};
    scl_request request = scl_request_of("clang-cl", words, 1);
    scl_texts made;
    bool is_made = !is_wanted;
    request.most_words = 7, request.most_bytes = 7, request.may_dist = true, request.version = scl_text("v"); /* (settings are not asked) */
    say(answer, status, line);
    if (scl_depfile(&request, scl_text("N: "), scl_text("N: a\n"), &is_made, &made) != told) FAIL("a dependency file: another status");
    said_status = 0;
    if (asked.len != sizeof SHOWN - 1 || memcmp(asked.at, SHOWN, sizeof SHOWN - 1)) FAIL("a dependency file: another request, of %zu bytes", asked.len);
    if (told != SCL_OK) return;
    if (is_made != is_wanted || !is_text(made.text, is_made ? "a: b\n" : "") || !is_text(made.messages, is_made ? "k" : "")) FAIL("a dependency file: other texts");
    free(made.block);
}

static void check_others(void) {
    static const scl_ran bad[] = {{{(const uint8_t *)"a", 1}, -1, {(const uint8_t *)"", 0}, {(const uint8_t *)"", 0}}};
    scl_texts joined;
    int32_t ended;
    check_join("status 7\ntext t\\x0a\\x20\nmessages \nversion 1\n", SCL_OK, SCL_OK, 7);
    check_join("status x\ntext t\nmessages \nversion 1\n", SCL_OK, SCL_NEWER, 0);
    check_join("status 2147483648\ntext t\nmessages \nversion 1\n", SCL_OK, SCL_NEWER, 0);
    check_join("status 0\ntext t\nversion 1\n", SCL_OK, SCL_NEWER, 0);
    check_join("status 0\ntext \\x0\nmessages \nversion 1\n", SCL_OK, SCL_NEWER, 0);
    check_join("", SCL_BAD, SCL_NEWER, 0);
    check_join("", SCL_NO_MEMORY, SCL_NO_MEMORY, 0);
    if (scl_join(bad, 1, &ended, &joined) != SCL_BAD) FAIL("a status below 0 is taken");
    check_map("text \\x00<b\\x0a\nversion 1\n", SCL_OK, 0, SCL_OK);
    check_map("text \\x0\nversion 1\n", SCL_OK, 0, SCL_NEWER);
    check_map("version 1\n", SCL_OK, 0, SCL_NEWER);
    check_map("", SCL_BAD, 1, SCL_NEWER);
    check_map("", SCL_BAD, 2, SCL_BAD);
    check_map("", SCL_BAD, 4, SCL_BAD);
    check_map("", SCL_BAD, 5, SCL_NEWER);
    check_map("", SCL_NO_MEMORY, 0, SCL_NO_MEMORY);
    check_depfile("text a:\\x20b\\x0a\nkept k\nversion 1\n", SCL_OK, 0, SCL_OK, true);
    check_depfile("version 1\n", SCL_OK, 0, SCL_OK, false);
    check_depfile("not-utf-8\nversion 1\n", SCL_OK, 0, SCL_BAD, false);
    check_depfile("too-many-words\nversion 1\n", SCL_OK, 0, SCL_TOO_MANY_WORDS, false);
    check_depfile("", SCL_OK, 0, SCL_NEWER, false);
    check_depfile("text a\nversion 1\n", SCL_OK, 0, SCL_NEWER, false);
    check_depfile("text \\x0\nkept k\nversion 1\n", SCL_OK, 0, SCL_NEWER, false);
    check_depfile("", SCL_BAD, 1, SCL_NEWER, false);
    check_depfile("", SCL_BAD, 2, SCL_BAD, false);
    check_depfile("", SCL_BAD, 3, SCL_BAD, false);
    check_depfile("", SCL_NO_MEMORY, 0, SCL_NO_MEMORY, false);
}

int main(int argc, char **argv) {
    unsigned long count = argc > 1 ? strtoul(argv[1], 0, 10) : 20000, counts[8] = {0};
    state = (argc > 2 ? strtoull(argv[2], 0, 10) : 1) * 0x9E3779B97F4A7C15u + 1;
    check_names();
    check_makers();
    check_others();
    for (number = 0; number < count; number++) {
        used = 0;
        const scl_request *request = random_request();
        make_answer();
        size_t kind = below(20);
        wrong = ALONE;
        if (kind == 0) choose_wrong();
        write_answer();
        if (kind == 1) said.len--;
        if (kind > 11) break_answer();
        bool is_valid = kind > 1 && kind < 12;
        is_by_catalogue = is_by_handle = false;
        scl_given given;
        int32_t status = scl_ask_new(request, &given);
        check_request(request);
        if (is_valid && status != SCL_OK) FAIL("status %d: %.*s", (int)status, (int)said.len, (const char *)said.at);
        if (kind < 2 && status != SCL_NEWER) FAIL("it is not read as unknown: %.*s", (int)said.len, (const char *)said.at);
        if (status != SCL_OK && status != SCL_NEWER) FAIL("status %d", (int)status);
        if (status == SCL_OK && is_valid) check_told(&given.answer, request);
        if (status == SCL_OK) check_sound(&given), scl_free(&given), check_rooms(request, is_valid);
        counts[is_valid ? 0 : status == SCL_OK ? 1 : 2]++;
        if (!below(20)) check_statuses(request);
    }
    printf("%lu random answers: %lu right ones are read; of broken ones %lu are read, and %lu read as unknown\n", count, counts[0], counts[1], counts[2]);
    return 0;
}
