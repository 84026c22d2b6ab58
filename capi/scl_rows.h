/* scl_rows.h: a part of scl.h, which includes it: a request's text is written of a struct, and structs are filled from an
 * answer's rows (docs/PROTOCOL.md). What a row fills is a line in one of the tables. Nothing is proved of it. */
#ifndef SCL_ROWS_H
#define SCL_ROWS_H
#ifndef SCL_H
#error "include scl.h"
#endif
#ifdef __cplusplus
extern "C" {
#endif

/* ---- a request's text */

/* A text that is written: free gives `at` back. */
typedef struct scl_writer {
    char *at;
    size_t len, size;
    bool has_failed; /* out of memory: the text is not whole */
} scl_writer;

/* Whether there is room for this many more bytes. */
static inline bool scl_grow(scl_writer *to, size_t more) {
    char *at;
    size_t size;
    if (to->has_failed || more <= to->size - to->len) return !to->has_failed;
    if (more < SIZE_MAX / 4 - to->len) {
        size = 2 * (to->len + more) + 256;
        at = SCL_TO(char *, realloc(to->at, size));
        if (at) {
            to->at = at;
            to->size = size;
            return true;
        }
    }
    to->has_failed = true;
    return false;
}

static inline void scl_put(scl_writer *to, const char *text) {
    size_t len = strlen(text);
    if (!scl_grow(to, len)) return;
    memcpy(to->at + to->len, text, len);
    to->len += len;
}

/* Whether the byte stands for itself in a field. */
static inline bool scl_is_plain(uint8_t it) { return it > 0x20 && it < 0x7f && it != '\\'; }

/* A field; or the rest of a line, in which blanks and backslashes stand as they are. */
static inline void scl_put_field(scl_writer *to, scl_bytes field, bool is_rest) {
    static const char digits[] = "0123456789abcdef";
    size_t i;
    if (!scl_grow(to, field.len < SIZE_MAX / 16 ? 4 * field.len : SIZE_MAX)) return;
    for (i = 0; i < field.len; i++) {
        uint8_t it = field.at[i];
        if (scl_is_plain(it) || (is_rest && (it == ' ' || it == '\\'))) {
            to->at[to->len++] = SCL_TO(char, it);
        } else {
            to->at[to->len++] = '\\';
            to->at[to->len++] = 'x';
            to->at[to->len++] = digits[it >> 4];
            to->at[to->len++] = digits[it & 15];
        }
    }
}

/* A line: its keyword, with the blank after it, and its field. */
static inline void scl_put_line(scl_writer *to, const char *keyword, scl_bytes field) {
    scl_put(to, keyword);
    scl_put_field(to, field, false);
    scl_put(to, "\n");
}

static inline void scl_put_words(scl_writer *to, const char *keyword, scl_words words) {
    size_t i;
    for (i = 0; i < words.len; i++) scl_put_line(to, keyword, words.at[i]);
}

static inline void scl_put_pairs(scl_writer *to, const char *keyword, scl_pairs pairs) {
    size_t i;
    for (i = 0; i < pairs.len; i++) {
        scl_put(to, keyword);
        scl_put_field(to, pairs.at[i].key, false);
        scl_put(to, "\t");
        scl_put_field(to, pairs.at[i].value, false);
        scl_put(to, "\n");
    }
}

static inline void scl_put_number(scl_writer *to, size_t number) {
    char digits[24];
    size_t at = sizeof digits - 1;
    digits[at] = 0;
    do digits[--at] = SCL_TO(char, '0' + number % 10);
    while (number /= 10);
    scl_put(to, digits + at);
}

static inline void scl_put_limit(scl_writer *to, const char *setting, size_t number) {
    if (!number) return;
    scl_put(to, setting);
    scl_put_number(to, number);
    scl_put(to, "\n");
}

/* What is not wished for is not computed; `version` is one of the rows that always come. */
static inline void scl_put_wants(scl_writer *to, const scl_request *request) {
    scl_put(to, "setting wants version\n");
    if (request->wants_runs) scl_put(to, "setting wants run\n");
    if (request->wants_questions) scl_put(to, "setting wants wants\n");
    if (request->wants_hazards) scl_put(to, "setting wants hazard\n");
    if (request->wants_options) scl_put(to, "setting wants option\n");
    if (request->wants_key) scl_put(to, "setting wants key\n");
}

static inline void scl_put_settings(scl_writer *to, const scl_request *request) {
    size_t i;
    scl_put_wants(to, request);
    if (request->may_dist) scl_put(to, "setting may-dist\n");
    if (request->rewrite_includes_only) scl_put(to, "setting rewrite-includes-only\n");
    if (request->cache_mode) scl_put(to, "setting cache-mode\n");
    scl_put_limit(to, "setting bound ", request->most_words);
    scl_put_limit(to, "setting bytes ", request->most_bytes);
    if (request->version.len) scl_put_line(to, "setting version ", request->version);
    scl_put_words(to, "setting base ", request->bases);
    if (request->keep_shown) scl_put(to, "setting keep-shown\n");
    for (i = 0; i < request->settings.len; i++) {
        scl_put(to, "setting ");
        scl_put_field(to, request->settings.at[i], true);
        scl_put(to, "\n");
    }
}

/* The lines of a request that say no setting. */
static inline void scl_put_command(scl_writer *to, const scl_request *request) {
    scl_put_line(to, "compiler ", request->compiler);
    scl_put_line(to, "cwd ", request->directory);
    scl_put_words(to, "word ", request->words);
    scl_put_pairs(to, "env ", request->environment);
    scl_put_pairs(to, "file ", request->files);
    scl_put_words(to, "dir ", request->directories);
    scl_put_words(to, "exists ", request->existing);
    if (request->is_multiarch) scl_put(to, "multiarch\n");
}

/* The lines of a request. */
static inline void scl_put_request(scl_writer *to, const scl_request *request) {
    scl_put_command(to, request);
    scl_put_settings(to, request);
}

/* ---- an answer's rows */

/* Takes the next row off the text; false where there is none. A row without its LF is none. */
static inline bool scl_next_row(scl_bytes *text, scl_bytes *row) {
    const uint8_t *end = text->len ? SCL_TO(const uint8_t *, memchr(text->at, '\n', text->len)) : SCL_NULL;
    if (!end) return false;
    row->at = text->at;
    row->len = SCL_TO(size_t, end - text->at);
    text->at += row->len + 1;
    text->len -= row->len + 1;
    return true;
}

/* Takes the next field off the row; false where there is none. */
static inline bool scl_next_field(scl_bytes *row, scl_bytes *field) {
    const uint8_t *end;
    if (!row->at) return false;
    end = row->len ? SCL_TO(const uint8_t *, memchr(row->at, ' ', row->len)) : SCL_NULL;
    field->at = row->at;
    field->len = end ? SCL_TO(size_t, end - row->at) : row->len;
    row->len -= end ? field->len + 1 : row->len;
    row->at = end ? end + 1 : SCL_NULL;
    return true;
}

/* (most differ in the first byte, which is faster than to ask for a length) */
static inline bool scl_is(scl_bytes field, const char *text) {
    size_t i;
    for (i = 0; i < field.len; i++)
        if (!text[i] || field.at[i] != SCL_TO(uint8_t, text[i])) return false;
    return !text[i];
}

/* The value of a hexadecimal digit, or 16. */
static inline unsigned scl_digit(uint8_t it) {
    if (it >= '0' && it <= '9') return it - 48u;
    return it >= 'a' && it <= 'f' ? it - 87u : 16u;
}

/* Writes the bytes that the field stands for, where there is something to write to, and gives their number; SIZE_MAX for what is
 * no field. */
static inline size_t scl_read_field(scl_bytes field, uint8_t *to) {
    size_t i = 0, len = 0;
    while (i < field.len) {
        uint8_t it = field.at[i];
        if (scl_is_plain(it)) {
            i++;
        } else if (field.len - i > 3 && it == '\\' && field.at[i + 1] == 'x' && scl_digit(field.at[i + 2]) < 16 && scl_digit(field.at[i + 3]) < 16) {
            it = SCL_TO(uint8_t, scl_digit(field.at[i + 2]) << 4 | scl_digit(field.at[i + 3]));
            i += 4;
        } else {
            return SIZE_MAX;
        }
        if (to) to[len] = it;
        len++;
    }
    return len;
}

/* Writes the bytes of a field of the text in the field's place; false for what is no field. */
static inline bool scl_read_in_place(char *text, scl_bytes *field) {
    size_t from = SCL_TO(size_t, field->at - SCL_CAST(const uint8_t *, text));
    field->len = scl_read_field(*field, SCL_CAST(uint8_t *, text) + from);
    return field->len != SIZE_MAX;
}

/* The first field after a row's name, of the first row of this name; false where there is none. */
static inline bool scl_field_of(scl_bytes rows, const char *row_name, scl_bytes *value) {
    scl_bytes row, name;
    while (scl_next_row(&rows, &row))
        if (scl_next_field(&row, &name) && scl_is(name, row_name)) return scl_next_field(&row, value);
    return false;
}

/* Finds the first fields of the rows with these two names, and writes their bytes in their places; false where one is not there. */
static inline bool scl_two_texts(char *text, size_t len, const char *first_name, scl_bytes *first, const char *second_name, scl_bytes *second) {
    scl_bytes rows = scl_bytes_of(text, len);
    return scl_field_of(rows, first_name, first) && scl_field_of(rows, second_name, second) && scl_read_in_place(text, first) &&
           scl_read_in_place(text, second);
}

/* The number that the digits write; SIZE_MAX for what is none. */
static inline size_t scl_number_of(scl_bytes field) {
    size_t i, number = 0;
    for (i = 0; i < field.len && field.at[i] >= '0' && field.at[i] <= '9' && number < SIZE_MAX / 16; i++) number = 10 * number + field.at[i] - 48u;
    return field.len && i == field.len ? number : SIZE_MAX;
}

/* ---- an answer's structs */

/* How a row is read. */
enum scl_row_kind {
    SCL_ROW_WORD,   /* one word more of a list */
    SCL_ROW_FIELDS, /* one list more of lists */
    SCL_ROW_KEY,    /* the same, of a name that is known */
    SCL_ROW_KEEP,   /* the same; nothing is kept */
    SCL_ROW_TEXT,
    SCL_ROW_YES, /* it has no field */
    SCL_ROW_PAIR,
    SCL_ROW_OUTPUT,
    SCL_ROW_INDEX,
    SCL_ROW_LANGUAGE,
    SCL_ROW_COLOR,
    SCL_ROW_CACHEABLE,
    SCL_ROW_VERSION
};

/* A row that is known. */
typedef struct scl_known_row {
    const char *name;  /* of `wants` with the first field */
    unsigned kind;     /* scl_row_kind */
    unsigned once;     /* the outcomes that have it, and just once, as bits */
    size_t at, has;    /* what of an answer it fills, and what then is true, if anything */
    size_t wish;       /* what of a request wants it, if anything */
} scl_known_row;

/* The outcomes, as a description's first row says them, and their bits. */
static const char *const scl_outcome_rows[] = {"ok", "cannot-cache", "not-compilation", "too-many-words"};
enum { SCL_OUTCOMES = 4, SCL_IN_COMPILED = 1, SCL_IN_CANNOT_CACHE = 2, SCL_IN_ALL = 15 };

#define SCL_AT(member) offsetof(scl_answer, member)
#define SCL_WISH(member) offsetof(scl_request, member)

/* (those that an answer has most often stand first) */
static const scl_known_row scl_known_rows[] = {
    {"arg", SCL_ROW_WORD, 0, SCL_AT(command), 0, 0},
    {"option", SCL_ROW_FIELDS, 0, SCL_AT(options), 0, SCL_WISH(wants_options)},
    {"key", SCL_ROW_KEY, 0, SCL_AT(key), 0, SCL_WISH(wants_key)},
    {"common", SCL_ROW_WORD, 0, SCL_AT(record.lists.common), 0, 0},
    {"preprocessor", SCL_ROW_WORD, 0, SCL_AT(record.lists.preprocessor), 0, 0},
    {"environment", SCL_ROW_PAIR, 0, 0, 0, 0},
    {"dependency", SCL_ROW_WORD, 0, SCL_AT(record.lists.dependency), 0, 0},
    {"output", SCL_ROW_OUTPUT, 0, 0, 0, 0},
    {"run", SCL_ROW_FIELDS, 0, SCL_AT(runs), 0, SCL_WISH(wants_runs)},
    {"hazard", SCL_ROW_WORD, 0, SCL_AT(hazards), 0, SCL_WISH(wants_hazards)},
    {"wants file", SCL_ROW_WORD, 0, SCL_AT(questions.files), 0, SCL_WISH(wants_questions)},
    {"wants dir", SCL_ROW_WORD, 0, SCL_AT(questions.directories), 0, SCL_WISH(wants_questions)},
    {"wants exists", SCL_ROW_WORD, 0, SCL_AT(questions.existing), 0, SCL_WISH(wants_questions)},
    {"arch", SCL_ROW_WORD, 0, SCL_AT(record.lists.arch), 0, 0},
    {"unhashed", SCL_ROW_WORD, 0, SCL_AT(record.lists.unhashed), 0, 0},
    {"dist", SCL_ROW_WORD, 0, SCL_AT(record.lists.dist_files), 0, 0},
    {"hash", SCL_ROW_WORD, 0, SCL_AT(record.lists.hash_files), 0, 0},
    {"keep", SCL_ROW_KEEP, 0, SCL_AT(keep), 0, 0},
    {"direct", SCL_ROW_FIELDS, 0, SCL_AT(direct), 0, SCL_WISH(wants_key)},
    {"reads", SCL_ROW_WORD, 0, SCL_AT(reads), 0, 0},
    {"writes", SCL_ROW_WORD, 0, SCL_AT(writes), 0, 0},
    {"loads", SCL_ROW_WORD, 0, SCL_AT(loads), 0, 0},
    {"reads-like", SCL_ROW_WORD, 0, SCL_AT(reads_like), 0, 0},
    {"writes-like", SCL_ROW_WORD, 0, SCL_AT(writes_like), 0, 0},
    {"loads-like", SCL_ROW_WORD, 0, SCL_AT(loads_like), 0, 0},
    {"asks", SCL_ROW_WORD, 0, SCL_AT(asks), 0, 0},
    {"version", SCL_ROW_VERSION, SCL_IN_ALL, 0, 0, 0},
    {"cacheable", SCL_ROW_CACHEABLE, SCL_IN_COMPILED, SCL_AT(is_cacheable), 0, 0},
    {"input", SCL_ROW_TEXT, SCL_IN_COMPILED, SCL_AT(record.input), 0, 0},
    {"language", SCL_ROW_LANGUAGE, SCL_IN_COMPILED, SCL_AT(record.language), 0, 0},
    {"compilation-flag", SCL_ROW_TEXT, SCL_IN_COMPILED, SCL_AT(record.compilation_flag), 0, 0},
    {"color", SCL_ROW_COLOR, SCL_IN_COMPILED, SCL_AT(record.color), 0, 0},
    {"depfile", SCL_ROW_TEXT, 0, SCL_AT(record.depfile), SCL_AT(record.has_depfile), 0},
    {"too-hard", SCL_ROW_TEXT, 0, SCL_AT(record.too_hard), SCL_AT(record.has_too_hard), 0},
    {"double-dash-input", SCL_ROW_YES, 0, 0, SCL_AT(record.double_dash_input), 0},
    {"external-assembler", SCL_ROW_YES, 0, 0, SCL_AT(record.uses_external_assembler), 0},
    {"show-includes", SCL_ROW_YES, 0, 0, SCL_AT(record.show_includes), 0},
    {"explicit-language", SCL_ROW_YES, 0, 0, SCL_AT(record.explicit_language), 0},
    {"profile-generate", SCL_ROW_YES, 0, 0, SCL_AT(record.profile_generate), 0},
    {"no-rewrite-includes-only", SCL_ROW_YES, 0, 0, SCL_AT(record.suppress_rewrite_includes_only), 0},
    {"reason", SCL_ROW_TEXT, SCL_IN_CANNOT_CACHE, SCL_AT(reason), 0, 0},
    {"because", SCL_ROW_TEXT, 0, SCL_AT(text), SCL_AT(has_text), 0},
    {"sentence", SCL_ROW_TEXT, 0, SCL_AT(sentence), 0, 0},
    {"at", SCL_ROW_INDEX, 0, SCL_AT(at), SCL_AT(has_at), 0},
    {"directory-in-object", SCL_ROW_TEXT, 0, SCL_AT(directory_in_object), 0, SCL_WISH(wants_key)},
};
enum { SCL_KNOWN_ROWS = sizeof scl_known_rows / sizeof *scl_known_rows };

#undef SCL_AT
#undef SCL_WISH
#define SCL_STRING(macro) SCL_STRING_OF(macro)
#define SCL_STRING_OF(text) #text

/* Languages and colours, in the order of their numbers. */
static const char *const scl_language_names[] = {"Assembler", "AssemblerToPreprocess", "C", "CHeader", "GenericHeader", "Cxx", "CxxHeader", "CxxModule",
                                                 "ObjectiveC", "ObjectiveCHeader", "ObjectiveCxx", "ObjectiveCxxHeader", "Cuda", "Rust", "Hip"};
static const char *const scl_color_names[] = {"off", "on", "auto"};
enum { SCL_LANGUAGES = 15, SCL_COLORS = 3 };
static const char *const scl_compiler_names[] = {"gcc", "g++", "clang", "clang++", "cl", "clang-cl", "diab", "tasking"};
enum { SCL_COMPILERS = 8 };

/* The rows of a key, in the order of their kinds, with how many fields may follow the name. */
typedef struct scl_known_key {
    const char *name;
    size_t least, most;
} scl_known_key;
static const scl_known_key scl_known_keys[] = {
    {"is", 1, SIZE_MAX}, {"output", 2, 3}, {"directory", 0, 0},       {"compiler", 0, 0},        {"plan", 0, SIZE_MAX},       {"env", 1, 1},
    {"unset", 1, 1},     {"file", 1, 1},   {"maybe", 1, 1},           {"regular", 1, 1},         {"run", 0, SIZE_MAX},        {"run-else", 0, SIZE_MAX},
    {"pch", 0, SIZE_MAX}, {"sources", 0, 0}, {"sources-if-shown", 1, 1}, {"times", 0, 0},       {"refuse-if-shown", 1, 1},
    {"bases", 0, 0},     {"bases-if-beside", 0, 0}, {"bases-if-shown", 1, 1}, {"bases-if-planned", 1, 1}, {"shown", 1, 1},
};
enum { SCL_KEYS = sizeof scl_known_keys / sizeof *scl_known_keys }; /* (a kind that is not known) */

/* The kind of a row of a key; SCL_KEYS if the name is not known. */
static inline uint32_t scl_key_kind_of(scl_bytes name) {
    uint32_t kind;
    for (kind = 0; kind < SCL_KEYS && !scl_is(name, scl_known_keys[kind].name); kind++) {}
    return kind;
}

/* Whether a row with these fields is known: a row `key`, or a row `keep`. */
static inline bool scl_knows_fields(unsigned kind, scl_bytes fields) {
    scl_bytes name = scl_no_bytes[0], field;
    size_t more = 0;
    uint32_t key;
    if (!scl_next_field(&fields, &name)) return false;
    while (scl_next_field(&fields, &field)) more++;
    if (kind == SCL_ROW_KEEP) return (scl_is(name, "no") && more == 2) || (scl_is(name, "unknown") && more == 1);
    key = scl_key_kind_of(name);
    return key < SCL_KEYS && more >= scl_known_keys[key].least && more <= scl_known_keys[key].most;
}

/* Whether a row is a list of its fields. */
static inline bool scl_has_fields(unsigned kind) { return kind >= SCL_ROW_FIELDS && kind <= SCL_ROW_KEEP; }

/* What of an answer stands there. */
static inline void *scl_member(scl_answer *answer, size_t at) { return SCL_CAST(char *, answer) + at; }

/* An answer before the structs are filled. */
static inline scl_answer scl_no_answer(void) {
    scl_answer it;
    size_t i;
    memset(&it, 0, sizeof it);
    for (i = 0; i < SCL_KNOWN_ROWS; i++) {
        void *at = scl_member(&it, scl_known_rows[i].at);
        if (scl_known_rows[i].kind == SCL_ROW_WORD) *SCL_TO(scl_words *, at) = scl_words_of(scl_no_bytes, 0);
        if (scl_has_fields(scl_known_rows[i].kind)) *SCL_TO(scl_runs *, at) = scl_runs_of(scl_no_runs, 0);
        if (scl_known_rows[i].kind == SCL_ROW_TEXT) *SCL_TO(scl_bytes *, at) = scl_no_bytes[0];
    }
    it.environment = scl_pairs_of(scl_no_pairs, 0);
    it.record.outputs.at = scl_no_outputs;
    return it;
}

/* What is taken of an answer's rows: first they are counted, and then written to memory that is long enough. */
typedef struct scl_taking {
    const scl_request *request;
    scl_bytes rows; /* after the first one */
    scl_answer answer;
    scl_room room;
    bool is_told;                  /* in the room */
    bool is_broken;                /* a row is none of this protocol */
    bool is_kept_never;            /* there is a row `keep`, and not `keep yes` */
    scl_sizes sizes;               /* taken so far */
    size_t counts[SCL_KNOWN_ROWS]; /* of each row */
    size_t starts[SCL_KNOWN_ROWS]; /* where the first of a list stands, in the slots or the runs */
    size_t listed;                 /* slots of all lists; those of runs and options stand after them */
} scl_taking;

static inline scl_bytes scl_take_text(scl_taking *t, scl_bytes field) {
    uint8_t *at = t->is_told ? t->room.bytes + t->sizes.bytes : SCL_NULL;
    size_t len = scl_read_field(field, at);
    if (len == SIZE_MAX) {
        t->is_broken = true;
        return scl_no_bytes[0];
    }
    t->sizes.bytes += len + 1;
    if (!at) return scl_no_bytes[0];
    at[len] = 0;
    return scl_bytes_of(at, len);
}

/* The row's next field as it stands there, which must be. */
static inline scl_bytes scl_take_raw(scl_taking *t, scl_bytes *row) {
    scl_bytes field;
    if (scl_next_field(row, &field)) return field;
    t->is_broken = true;
    return scl_no_bytes[0];
}

static inline scl_bytes scl_take_field(scl_taking *t, scl_bytes *row) { return scl_take_text(t, scl_take_raw(t, row)); }

/* The place of the name; their number where it has none. */
static inline uint32_t scl_place_of(scl_bytes name, const char *const *names, uint32_t count) {
    uint32_t i;
    for (i = 0; i < count && !scl_is(name, names[i]); i++) {}
    return i;
}

/* The row's next field, which is one of the names. */
static inline uint32_t scl_take_name(scl_taking *t, scl_bytes *row, const char *const *names, uint32_t count) {
    uint32_t at = scl_place_of(scl_take_raw(t, row), names, count);
    if (at == count) t->is_broken = true;
    return at;
}

static inline void scl_take_slot(scl_taking *t, size_t at, scl_bytes word) {
    if (t->is_told) t->room.slots[at] = word;
    t->sizes.slots++;
}

/* A run, or an option: its fields. */
static inline void scl_take_fields(scl_taking *t, size_t at, scl_bytes *row) {
    scl_bytes field;
    size_t from = t->listed, len = 0;
    while (scl_next_field(row, &field)) scl_take_slot(t, from + len++, scl_take_text(t, field));
    if (t->is_told) t->room.runs[at] = scl_words_of(len ? t->room.slots + from : SCL_NULL, len);
    t->listed += t->is_told ? len : 0;
    t->sizes.runs++;
}

static inline void scl_take_pair(scl_taking *t, scl_bytes *row) {
    scl_pair it;
    it.key = scl_take_field(t, row);
    it.value = scl_take_field(t, row);
    if (t->is_told) t->room.pairs[t->sizes.pairs] = it;
    t->sizes.pairs++;
}

static inline void scl_take_output(scl_taking *t, scl_bytes *row) {
    static const char *const optional[] = {"optional"};
    scl_output it;
    it.name = scl_take_field(t, row);
    it.path = scl_take_field(t, row);
    it.is_optional = row->at && !scl_take_name(t, row, optional, 1);
    if (t->is_told) t->room.outputs[t->sizes.outputs] = it;
    t->sizes.outputs++;
}

static inline size_t scl_take_index(scl_taking *t, scl_bytes *row) {
    size_t number = scl_number_of(scl_take_raw(t, row));
    if (number == SIZE_MAX) t->is_broken = true;
    return number;
}

static inline void scl_take_known(scl_taking *t, size_t i, scl_bytes *row) {
    static const char *const versions[] = {SCL_STRING(SCL_PROTOCOL)}, *const answers[] = {"no", "yes"};
    const scl_known_row *it = &scl_known_rows[i];
    void *at = scl_member(&t->answer, it->at);
    switch (it->kind) {
    case SCL_ROW_WORD: scl_take_slot(t, t->starts[i] + t->counts[i], scl_take_field(t, row)); break;
    case SCL_ROW_KEY:
    case SCL_ROW_KEEP:
        if (!scl_knows_fields(it->kind, *row)) t->answer.has_unknown = true;
        if (it->kind == SCL_ROW_KEEP) t->is_kept_never = true;
        scl_take_fields(t, t->starts[i] + t->counts[i], row);
        break;
    case SCL_ROW_FIELDS: scl_take_fields(t, t->starts[i] + t->counts[i], row); break;
    case SCL_ROW_TEXT: *SCL_TO(scl_bytes *, at) = scl_take_field(t, row); break;
    case SCL_ROW_YES: break;
    case SCL_ROW_PAIR: scl_take_pair(t, row); break;
    case SCL_ROW_OUTPUT: scl_take_output(t, row); break;
    case SCL_ROW_INDEX: *SCL_TO(size_t *, at) = scl_take_index(t, row); break;
    case SCL_ROW_LANGUAGE: *SCL_TO(uint32_t *, at) = scl_take_name(t, row, scl_language_names, SCL_LANGUAGES); break;
    case SCL_ROW_COLOR: *SCL_TO(uint32_t *, at) = scl_take_name(t, row, scl_color_names, SCL_COLORS); break;
    case SCL_ROW_CACHEABLE: *SCL_TO(bool *, at) = scl_take_name(t, row, answers, 2) == 1; break;
    case SCL_ROW_VERSION: scl_take_name(t, row, versions, 1); break;
    default: t->is_broken = true;
    }
    if (it->has) *SCL_TO(bool *, scl_member(&t->answer, it->has)) = true;
    if (row->at) t->answer.has_unknown = true;
    t->counts[i]++;
}

static inline void scl_take_row(scl_taking *t, scl_bytes row) {
    scl_bytes name = scl_take_raw(t, &row), kind;
    size_t i = 0, wish;
    if (scl_is(name, "wants") && scl_next_field(&row, &kind)) name.len += kind.len + 1;
    while (i < SCL_KNOWN_ROWS && !scl_is(name, scl_known_rows[i].name)) i++;
    if (i == SCL_KNOWN_ROWS || (scl_known_rows[i].kind == SCL_ROW_KEEP && scl_is(row, "yes"))) return;
    wish = scl_known_rows[i].wish;
    if (!wish || *SCL_TO(const bool *, SCL_TO(const void *, SCL_CAST(const char *, t->request) + wish))) scl_take_known(t, i, &row);
}

static inline void scl_take_rows(scl_taking *t) {
    scl_bytes rows = t->rows, row;
    uint32_t outcome = t->answer.outcome;
    t->answer = scl_no_answer();
    t->answer.outcome = outcome;
    memset(&t->sizes, 0, sizeof t->sizes);
    t->is_kept_never = false;
    memset(t->counts, 0, sizeof t->counts);
    while (scl_next_row(&rows, &row)) scl_take_row(t, row);
    if (rows.len) t->is_broken = true;
    if (t->answer.has_unknown || t->is_kept_never || !t->request->wants_key) t->answer.is_cacheable = false;
}

/* Counts the rows of a description: SCL_OK, SCL_TOO_MANY_WORDS or SCL_NEWER. */
static inline int32_t scl_count(scl_taking *t, const scl_request *request, scl_bytes text) {
    scl_bytes row, name;
    size_t i, runs = 0;
    memset(t, 0, sizeof *t);
    t->request = request;
    if (!scl_next_row(&text, &row) || !scl_next_field(&row, &name)) return SCL_NEWER;
    t->rows = text;
    t->answer.outcome = scl_place_of(name, scl_outcome_rows, SCL_OUTCOMES);
    if (t->answer.outcome == SCL_OUTCOMES) return SCL_NEWER;
    scl_take_rows(t);
    for (i = 0; i < SCL_KNOWN_ROWS; i++) {
        size_t *of = scl_known_rows[i].kind == SCL_ROW_WORD ? &t->listed : &runs;
        if (scl_known_rows[i].once && t->counts[i] != (scl_known_rows[i].once >> t->answer.outcome & 1)) t->is_broken = true;
        t->starts[i] = *of;
        if (scl_known_rows[i].kind <= SCL_ROW_KEEP) *of += t->counts[i];
    }
    if (t->is_broken) return SCL_NEWER;
    return t->answer.outcome == SCL_OUTCOMES - 1 ? SCL_TOO_MANY_WORDS : SCL_OK;
}

/* Writes what was counted into a room that is long enough. */
static inline void scl_tell(scl_taking *t, scl_room room, scl_answer *answer) {
    size_t i;
    t->room = room;
    t->is_told = true;
    scl_take_rows(t);
    for (i = 0; i < SCL_KNOWN_ROWS; i++) {
        void *at = scl_member(&t->answer, scl_known_rows[i].at);
        if (!t->counts[i]) continue;
        if (scl_known_rows[i].kind == SCL_ROW_WORD) *SCL_TO(scl_words *, at) = scl_words_of(room.slots + t->starts[i], t->counts[i]);
        if (scl_has_fields(scl_known_rows[i].kind)) *SCL_TO(scl_runs *, at) = scl_runs_of(room.runs + t->starts[i], t->counts[i]);
    }
    t->answer.environment = scl_pairs_of(room.pairs, t->sizes.pairs);
    t->answer.record.outputs.at = t->sizes.outputs ? room.outputs : scl_no_outputs;
    t->answer.record.outputs.len = t->sizes.outputs;
    *answer = t->answer;
}

#ifdef __cplusplus
}
#endif
#endif
