/* scl.h: what a compiler's command line means, and the command to run in its place. Link libscl.a (or -lscl).
 *
 * The library has seven calls, all over texts. What is new in a later one is a row of an answer, or a setting of a request: no
 * call changes. All else in this header is C that is compiled into the client: it writes a request's text, and fills structs
 * from an answer's rows. So the structs are the client's own, and a client runs with each library of its protocol that has these calls.
 *
 * - Rows that this header does not know are passed over. But if a row `key` or `keep` is not known, or a row has more fields than
 *   are known, nothing may be kept: has_unknown is true, and is_cacheable false.
 * - SCL_NEWER: one side does not know what the other says, the library a line `setting`, or this header the answer,
 *   as of another protocol. Then run the given words, and keep nothing.
 *
 * What is known of compilers is a text, the catalogue. scl_describe reads it for each description, and
 * scl_describe_with in each call, in about 1.5 ms.
 * Who asks more often has it read once, by scl_catalogue_new, and asks by the handle, which any number of threads may share.
 *
 * A call reads and writes only the memory that is passed to it, or that is behind its handle. It keeps nothing between calls, opens no
 * file, starts no process, and takes memory from malloc while it runs and gives it back; that behind a handle stays until it is freed.
 *
 * What is proved of the seven calls (crates/scl_c) is proved of callers that keep these premises, which nothing checks:
 *
 * - Each pointer with a length points at that many bytes. With the length 0 it may be anything but NULL; NULL, of which nothing is
 *   proved, does no harm either, and is as good as an empty text.
 * - `wanted` points at a size_t. What a call writes overlaps nothing that it reads, and nothing else that it writes; no other
 *   thread touches it meanwhile.
 * - A handle is one that scl_catalogue_new gave. No call that has it runs while scl_catalogue_drop frees it, or after that.
 * - malloc, realloc and free are of one allocator, and a block is aligned to each power of two up to 16 that divides its size.
 * - No call is made from a signal handler, or in a forked child of a process with threads.
 *
 * Calls may be made from any thread, and from several at once. The tables of flags are the written ones (docs/FLAGS.md);
 * tables of one's own are for callers in Rattle. */
#ifndef SCL_H
#define SCL_H
#include <stdbool.h>
#include <stddef.h>
#include <stdint.h>
#include <stdlib.h>
#include <string.h>
#ifdef __cplusplus
extern "C" {
#endif

/* The protocol of this header (docs/PROTOCOL.md); the libraries of a protocol have the name libscl.so.PROTOCOL. */
#define SCL_PROTOCOL 1

enum scl_status {
    SCL_OK = 0,             /* answered */
    SCL_SHORT = 1,          /* the memory passed in is too short; *wanted says how much is wanted */
    SCL_BAD = 2,            /* a line of the text is bad; scl_ask: no served compiler has the name */
    SCL_NO_MEMORY = 3,      /* out of memory */
    SCL_TOO_MANY_WORDS = 4, /* scl_ask: a command line has more words or bytes, or opens files more often, than was allowed */
    SCL_NEWER = 5,          /* a line `setting` is bad: it is not known here; scl_ask: or the answer is not known here */
    SCL_BAD_CATALOGUE = 6   /* a line of the catalogue is wrong */
};

/* ---- the calls */

/* The protocol of the library. */
uint32_t scl_version(void);

/* The request's text (docs/PROTOCOL.md, A request) is answered by the answer's text (An answer), as ccline does. *wanted is
 * the length of the text (SCL_OK, SCL_SHORT), or the number of the bad line (SCL_BAD), or 0. The text has no NUL after it;
 * the rest of the room, and all of it where the status is not SCL_OK, is as it was. There is no limit on words and bytes: where others
 * write the request, its files may name each other and give millions, so call scl_describe or scl_ask. */
int32_t scl_run(const uint8_t *request, size_t request_len, uint8_t *room, size_t room_len, size_t *wanted);

/* The same with a description of the answer (docs/PROTOCOL.md, A description), as describe writes it; the request may have
 * lines `setting`, among them those of its limits, which docs/PROTOCOL.md says. SCL_NEWER: the bad line is one of a setting, and
 * *wanted its number. */
int32_t scl_describe(const uint8_t *request, size_t request_len, uint8_t *room, size_t room_len, size_t *wanted);

/* The same by a catalogue whose text is passed in (catalogue/README.md): an entry of it adds, or by its name replaces, a built-in one.
 * SCL_BAD_CATALOGUE: *wanted is the number of its first wrong line, and the request was not read. */
int32_t scl_describe_with(const uint8_t *catalogue, size_t catalogue_len, const uint8_t *request, size_t request_len, uint8_t *room,
                          size_t room_len, size_t *wanted);

/* A catalogue that was read. */
typedef struct scl_catalogue scl_catalogue;

/* Reads the catalogue that is built in, and that of this text over it, as scl_describe_with does; an empty text is none. SCL_OK:
 * *handle is made, which scl_catalogue_drop frees. SCL_BAD_CATALOGUE: *wanted is the number of the first wrong line of the text, else
 * it is 0. SCL_NO_MEMORY: out of memory. Where the status is not SCL_OK, *handle is as it was. */
int32_t scl_catalogue_new(const uint8_t *text, size_t text_len, scl_catalogue **handle, size_t *wanted);

/* scl_describe by the catalogue of a handle, which is not NULL. It reads what is behind the handle, and does not change it: one handle
 * may be asked by any number of threads at once. */
int32_t scl_catalogue_describe(const scl_catalogue *handle, const uint8_t *request, size_t request_len, uint8_t *room, size_t room_len,
                               size_t *wanted);

/* Frees the catalogue of a handle, which is not NULL. */
void scl_catalogue_drop(scl_catalogue *handle);

/* ---- structs: in C, and nothing is proved of what follows */

typedef struct scl_bytes {
    const uint8_t *at;
    size_t len;
} scl_bytes;

/* A key and its value; or the path of a file and its bytes. */
typedef struct scl_pair {
    scl_bytes key, value;
} scl_pair;

typedef struct scl_words {
    const scl_bytes *at;
    size_t len;
} scl_words;

typedef struct scl_pairs {
    const scl_pair *at;
    size_t len;
} scl_pairs;

/* A request. All but the compiler may be zeros, as memset makes them: NULL with the length 0 is empty. */
typedef struct scl_request {
    scl_bytes compiler;         /* gcc, g++, clang, clang++, cl, clang-cl, diab, tasking */
    scl_bytes directory;        /* the path of the directory in which the words are read */
    scl_words words;            /* after the program */
    scl_pairs environment;      /* in order */
    scl_pairs files;            /* response files; of two at one path the later one counts */
    scl_words directories;      /* paths that are directories */
    scl_words existing;         /* paths at which there is something */
    size_t most_words;          /* that a command line may have, response files put in place, and how often it may open files: */
                                /*   0 is 1,000,000, SIZE_MAX is no limit */
    size_t most_bytes;          /* that a command line may have (docs/RULES.md, Expansion): 0 is 67,108,864, SIZE_MAX is no limit */
    bool is_multiarch;          /* several architectures are allowed */
    bool wants_runs;            /* the answer has the runs of the preprocessor (what is not wanted is not computed): */
    bool may_dist;              /*   for a distant compiler */
    bool rewrite_includes_only; /*   with macros left in place */
    bool cache_mode;            /*   for a cache of preprocessor runs */
    bool wants_questions;       /* the answer has the paths, not passed in, that could change it */
    bool wants_hazards;         /* the answer has the hazards of the command line, and what it reads, writes, loads and asks */
    bool wants_options;         /* the answer has what became of each option, and the index of the word that is refused */
    bool wants_key;             /* the answer has the rows of the key, whether the result may be kept, and what it reads, writes .. */
    scl_bytes version;          /* the text of the compiler's version, in UTF-8 (docs/PROTOCOL.md, `setting version`) */
    scl_bytes catalogue;        /* the text of a catalogue over the built-in one; empty: the built-in one alone */
    scl_words settings;         /* more lines `setting`: what follows that word, as `bound 10` */
    scl_words bases;            /* directories that differ from checkout to checkout, absolute and without a NUL: paths of the key are
                                   written by them (docs/PROTOCOL.md, A key in every checkout) */
    bool keep_shown;            /* each word `-D..` counts in the key: there is no row `key shown` */
    const scl_catalogue *handle; /* whose catalogue is asked, and then `catalogue` is not read; NULL: a catalogue is read in each call */
} scl_request;

enum scl_outcome { SCL_COMPILED = 0, SCL_CANNOT_CACHE = 1, SCL_NOT_COMPILATION = 2 };

enum scl_language {
    SCL_ASSEMBLER,
    SCL_ASSEMBLER_TO_PREPROCESS,
    SCL_C,
    SCL_C_HEADER,
    SCL_GENERIC_HEADER,
    SCL_CXX,
    SCL_CXX_HEADER,
    SCL_CXX_MODULE,
    SCL_OBJECTIVE_C,
    SCL_OBJECTIVE_C_HEADER,
    SCL_OBJECTIVE_CXX,
    SCL_OBJECTIVE_CXX_HEADER,
    SCL_CUDA,
    SCL_RUST,
    SCL_HIP
};

enum scl_color { SCL_COLOR_OFF, SCL_COLOR_ON, SCL_COLOR_AUTO };

typedef struct scl_output {
    scl_bytes name, path;
    bool is_optional;
} scl_output;

typedef struct scl_outputs {
    const scl_output *at;
    size_t len;
} scl_outputs;

typedef struct scl_runs {
    const scl_words *at;
    size_t len;
} scl_runs;

/* The rows of a key (docs/PROTOCOL.md, A key). */
enum scl_key_kind {
    SCL_KEY_IS,
    SCL_KEY_OUTPUT,
    SCL_KEY_DIRECTORY,
    SCL_KEY_COMPILER,
    SCL_KEY_PLAN,
    SCL_KEY_ENV,
    SCL_KEY_UNSET,
    SCL_KEY_FILE,
    SCL_KEY_MAYBE,
    SCL_KEY_REGULAR,
    SCL_KEY_RUN,
    SCL_KEY_RUN_ELSE,
    SCL_KEY_PCH,
    SCL_KEY_SOURCES,
    SCL_KEY_SOURCES_IF_SHOWN,
    SCL_KEY_TIMES,
    SCL_KEY_REFUSE_IF_SHOWN,
    SCL_KEY_BASES,
    SCL_KEY_BASES_IF_BESIDE,
    SCL_KEY_BASES_IF_SHOWN,
    SCL_KEY_BASES_IF_PLANNED,
    SCL_KEY_SHOWN
};

/* A row of a key: scl_key_at gives it. */
typedef struct scl_key_row {
    uint32_t kind;    /* scl_key_kind */
    scl_words fields; /* after the row's name */
    bool is_asked;    /* its answer goes into the key */
    bool is_named;    /* of the row itself only the name goes into the key, and not the fields */
    bool may_be_left_out; /* the row goes into the key only if its macro counts (docs/PROTOCOL.md, A key) */
} scl_key_row;

/* What was read (docs/RULES.md, Records). */
typedef struct scl_record {
    uint32_t language, color;
    bool double_dash_input, uses_external_assembler, show_includes, explicit_language, profile_generate,
        suppress_rewrite_includes_only, has_depfile, has_too_hard;
    scl_bytes input, compilation_flag, depfile, too_hard;
    scl_outputs outputs;
    struct {
        scl_words dependency, preprocessor, common, arch, unhashed, dist_files, hash_files;
    } lists;
} scl_record;

/* The paths, not passed in, that could change the answer (docs/RULES.md, Questions). */
typedef struct scl_questions {
    scl_words files, directories, existing;
} scl_questions;

/* What an outcome does not have is empty, or false. Each text has a NUL after it, which its length does not count. */
typedef struct scl_answer {
    uint32_t outcome;
    bool is_cacheable; /* whether the result of the command may be kept: true only with wants_key, and if each row `keep` is `keep yes` */
    bool has_text;
    scl_bytes reason;      /* SCL_CANNOT_CACHE */
    scl_bytes text;        /* beside the reason, where has_text */
    scl_words command;     /* SCL_COMPILED: the words after the program */
    scl_pairs environment; /* that the command and the runs get */
    scl_record record;
    scl_runs runs;
    scl_questions questions;
    scl_words hazards; /* SCL_COMPILED: names of what the compiler is known to do differently with the command than with the
                          given words (docs/LIMITS.md); where there is one, run the given words */
    bool has_unknown;   /* the answer says more than this header knows of what decides whether a result is kept */
    bool has_at;
    size_t at;          /* where has_at: the index of the word that is refused, or by which nothing is compiled */
    scl_bytes sentence; /* SCL_CANNOT_CACHE: what the reason means */
    scl_runs options;   /* the fields of each row `option` */
    scl_runs key;       /* the fields of each row `key`, in order: scl_key_at */
    scl_runs keep;      /* the fields of each row `keep` but `keep yes`: `no`, a reason, a word; or `unknown`, a word */
    scl_runs direct;    /* the fields of each row `direct`, in order */
    scl_words reads, writes, loads;    /* SCL_COMPILED: files that options read, write and load beside compiling (docs/EFFECTS.md) */
    scl_words reads_like, writes_like; /* the beginnings of names of such files, where more is not known */
    scl_words asks;                    /* what options ask of the machine: processor, directory */
    scl_words loads_like;              /* as reads_like, of files that are loaded */
    scl_bytes directory_in_object;     /* with a key and bases: whether the object names one, `yes`, `no` or `mapped` */
} scl_answer;

/* The memory for an answer: its texts, its words, its pairs, its outputs, and its runs, options and rows of a key. */
typedef struct scl_room {
    uint8_t *bytes;
    size_t bytes_len;
    scl_bytes *slots;
    size_t slots_len;
    scl_pair *pairs;
    size_t pairs_len;
    scl_output *outputs;
    size_t outputs_len;
    scl_words *runs;
    size_t runs_len;
} scl_room;

/* How long each part of the memory must be. */
typedef struct scl_sizes {
    size_t bytes, slots, pairs, outputs, runs;
} scl_sizes;

/* (C++ has warnings for casts and for a null pointer written as in C) */
#ifdef __cplusplus
#define SCL_CAST(type, value) reinterpret_cast<type>(value)
#define SCL_TO(type, value) static_cast<type>(value)
#define SCL_NULL nullptr
#else
#define SCL_CAST(type, value) ((type)(value))
#define SCL_TO(type, value) ((type)(value))
#define SCL_NULL NULL
#endif

#define SCL_NOTHING SCL_CAST(const uint8_t *, "")
#define SCL_EMPTY {SCL_NOTHING, 0}

/* What empty lists point to. */
static const scl_bytes scl_no_bytes[1] = {SCL_EMPTY};
static const scl_pair scl_no_pairs[1] = {{SCL_EMPTY, SCL_EMPTY}};
static const scl_output scl_no_outputs[1] = {{SCL_EMPTY, SCL_EMPTY, false}};
static const scl_words scl_no_runs[1] = {{scl_no_bytes, 0}};

static inline scl_bytes scl_bytes_of(const void *at, size_t len) {
    scl_bytes it;
    it.at = len ? SCL_TO(const uint8_t *, at) : SCL_NOTHING;
    it.len = len;
    return it;
}

static inline scl_bytes scl_text(const char *text) { return scl_bytes_of(text, strlen(text)); }

static inline scl_words scl_words_of(const scl_bytes *at, size_t len) {
    scl_words it;
    it.at = len ? at : scl_no_bytes;
    it.len = len;
    return it;
}

static inline scl_pairs scl_pairs_of(const scl_pair *at, size_t len) {
    scl_pairs it;
    it.at = len ? at : scl_no_pairs;
    it.len = len;
    return it;
}

static inline scl_runs scl_runs_of(const scl_words *at, size_t len) {
    scl_runs it;
    it.at = len ? at : scl_no_runs;
    it.len = len;
    return it;
}

#ifdef __cplusplus
} /* extern "C" */
#endif
#include "scl_rows.h"
#ifdef __cplusplus
extern "C" {
#endif

/* ---- what a client calls */

/* Frees the catalogue of a handle, if there is one. */
static inline void scl_catalogue_free(scl_catalogue *handle) {
    if (handle) scl_catalogue_drop(handle);
}

/* A request of a compiler and words, with no directory, environment and files, the default limits, and no wishes. */
static inline scl_request scl_request_of(const char *compiler, const scl_bytes *words, size_t len) {
    scl_request it;
    memset(&it, 0, sizeof it);
    it.compiler = scl_text(compiler);
    it.directory = it.version = it.catalogue = scl_no_bytes[0];
    it.words = scl_words_of(words, len);
    it.environment = it.files = scl_pairs_of(scl_no_pairs, 0);
    it.directories = it.existing = it.settings = it.bases = scl_words_of(scl_no_bytes, 0);
    return it;
}

/* The request with something to point at where a length is 0. */
static inline scl_request scl_valid_request(const scl_request *request) {
    scl_request it = *request;
    it.compiler = scl_bytes_of(it.compiler.at, it.compiler.len);
    it.directory = scl_bytes_of(it.directory.at, it.directory.len);
    it.words = scl_words_of(it.words.at, it.words.len);
    it.environment = scl_pairs_of(it.environment.at, it.environment.len);
    it.files = scl_pairs_of(it.files.at, it.files.len);
    it.directories = scl_words_of(it.directories.at, it.directories.len);
    it.existing = scl_words_of(it.existing.at, it.existing.len);
    return it;
}

/* scl_run or scl_describe. */
typedef int32_t scl_respond(const uint8_t *request, size_t request_len, uint8_t *room, size_t room_len, size_t *wanted);

/* Room that most answers fit in: words stand in up to a dozen rows, and files in fewer. */
static inline size_t scl_first_room(size_t request_len) {
    size_t of_words = request_len < 1u << 20 ? request_len : 1u << 20;
    return 16384 + 14 * of_words + (request_len < SIZE_MAX / 4 ? 2 * request_len : 0);
}

/* Answers a request's text with memory of its own: by the handle, if there is one; else by scl_describe_with, if there is a catalogue. */
static inline int32_t scl_respond_new(scl_respond *respond, const scl_catalogue *handle, scl_bytes catalogue, scl_bytes request, char **text,
                                      size_t *wanted) {
    size_t size = scl_first_room(request.len);
    for (;;) {
        char *block = SCL_TO(char *, malloc(size + 1));
        int32_t status;
        *wanted = 0;
        if (!block) return SCL_NO_MEMORY;
        if (handle)
            status = scl_catalogue_describe(handle, request.at, request.len, SCL_CAST(uint8_t *, block), size, wanted);
        else if (catalogue.len)
            status = scl_describe_with(catalogue.at, catalogue.len, request.at, request.len, SCL_CAST(uint8_t *, block), size, wanted);
        else
            status = respond(request.at, request.len, SCL_CAST(uint8_t *, block), size, wanted);
        if (status == SCL_OK) {
            block[*wanted] = 0;
            *text = block;
            return status;
        }
        free(block);
        if (status != SCL_SHORT) return status;
        size = *wanted;
    }
}

/* Answers a request's text with memory of its own, as: scl_text_new(scl_describe, request, strlen(request), &text, &wanted).
 * Only where the status is SCL_OK is there a text, with a NUL after it, which free gives back. SCL_SHORT is never answered. */
static inline int32_t scl_text_new(scl_respond *respond, const void *request, size_t request_len, char **text, size_t *wanted) {
    return scl_respond_new(respond, SCL_NULL, scl_no_bytes[0], scl_bytes_of(request, request_len), text, wanted);
}

/* The same by scl_catalogue_describe, or by scl_describe where the handle is NULL. */
static inline int32_t scl_catalogue_text_new(const scl_catalogue *handle, const void *request, size_t request_len, char **text, size_t *wanted) {
    return scl_respond_new(scl_describe, handle, scl_no_bytes[0], scl_bytes_of(request, request_len), text, wanted);
}

/* The description of the answer to a request, with memory of its own, as scl_text_new gives it. */
static inline int32_t scl_description_new(const scl_request *request, char **text, size_t *wanted) {
    scl_writer to = {SCL_NULL, 0, 0, false};
    int32_t status = SCL_NO_MEMORY;
    *wanted = 0;
    scl_put_request(&to, request);
    if (!to.has_failed) status = scl_respond_new(scl_describe, request->handle, request->catalogue, scl_bytes_of(to.at, to.len), text, wanted);
    free(to.at);
    /* (the first line names the compiler; each other one is right, or not known) */
    return status == SCL_BAD && *wanted != 1 ? SCL_NEWER : status;
}

/* Answers the request. SCL_OK: *answer has it, and its pointers point into the room, which must live, unchanged, as long as it
 * is read, or at what is empty. SCL_SHORT: a part of the room is shorter than *wanted says, and is as it was. *wanted is exact
 * with both, and zeros with every other status. Where the status is not SCL_OK, *answer is as it was. */
static inline int32_t scl_ask(const scl_request *request, scl_room room, scl_sizes *wanted, scl_answer *answer) {
    scl_taking taking;
    char *text = SCL_NULL;
    size_t len;
    int32_t status = scl_description_new(request, &text, &len);
    memset(wanted, 0, sizeof *wanted);
    if (status != SCL_OK) return status;
    status = scl_count(&taking, request, scl_bytes_of(text, len));
    if (status == SCL_OK) {
        *wanted = taking.sizes;
        if (wanted->bytes > room.bytes_len || wanted->slots > room.slots_len || wanted->pairs > room.pairs_len || wanted->outputs > room.outputs_len ||
            wanted->runs > room.runs_len)
            status = SCL_SHORT;
        else
            scl_tell(&taking, room, answer);
    }
    free(text);
    return status;
}

/* The bytes of one block for a room of these sizes; 0 where no size_t holds them. */
static inline size_t scl_room_size(const scl_sizes *sizes) {
    size_t one = sizeof(scl_bytes) + sizeof(scl_pair) + sizeof(scl_output) + sizeof(scl_words) + 1, most = SIZE_MAX / one;
    if (sizes->bytes >= most || sizes->slots >= most || sizes->pairs >= most || sizes->outputs >= most || sizes->runs >= most)
        return 0;
    return sizes->slots * sizeof(scl_bytes) + sizes->pairs * sizeof(scl_pair) + sizes->outputs * sizeof(scl_output) +
           sizes->runs * sizeof(scl_words) + sizes->bytes + 1;
}

/* A room of these sizes in such a block, which is aligned as malloc aligns. */
static inline scl_room scl_room_in(void *block, const scl_sizes *sizes) {
    scl_room it;
    it.slots = SCL_TO(scl_bytes *, block);
    it.pairs = SCL_CAST(scl_pair *, it.slots + sizes->slots);
    it.outputs = SCL_CAST(scl_output *, it.pairs + sizes->pairs);
    it.runs = SCL_CAST(scl_words *, it.outputs + sizes->outputs);
    it.bytes = SCL_CAST(uint8_t *, it.runs + sizes->runs);
    it.bytes_len = sizes->bytes;
    it.slots_len = sizes->slots;
    it.pairs_len = sizes->pairs;
    it.outputs_len = sizes->outputs;
    it.runs_len = sizes->runs;
    return it;
}

/* What most answers to the request take. */
static inline scl_sizes scl_usual_sizes(const scl_request *request) {
    scl_sizes it;
    size_t i, len = request->words.len, times = 4; /* how often a word stands in the answer */
    it.bytes = 1024;
    it.slots = 64;
    it.pairs = request->environment.len;
    it.outputs = 4;
    it.runs = 0;
    if (request->wants_runs) {
        times += 2;
        it.runs += 2;
    }
    if (request->wants_options) {
        times += 10;
        it.runs += len + 8;
        it.bytes += 64 * (len + 8);
        it.slots += 80;
    }
    if (request->wants_key) {
        times += 14;
        it.runs += 2 * len + 48;
        it.bytes += 16 * len + 4096;
        it.slots += 160;
    }
    it.slots += times * len;
    for (i = 0; i < len; i++) it.bytes += times * (request->words.at[i].len + 1);
    for (i = 0; i < it.pairs; i++) it.bytes += request->environment.at[i].key.len + request->environment.at[i].value.len + 2;
    return it;
}

/* The row of the key at this place, which must be below answer->key.len. */
static inline scl_key_row scl_key_at(const scl_answer *answer, size_t place) {
    scl_words row = answer->key.at[place];
    size_t named = row.len ? 1 : 0;
    scl_key_row it;
    it.kind = scl_key_kind_of(named ? row.at[0] : scl_no_bytes[0]); /* (the empty name is not known) */
    it.fields = scl_words_of(row.at + named, row.len - named);
    it.may_be_left_out = it.kind == SCL_KEY_SHOWN;
    it.is_asked = it.kind != SCL_KEY_IS && it.kind != SCL_KEY_OUTPUT && it.kind != SCL_KEY_BASES && !it.may_be_left_out;
    it.is_named = it.kind == SCL_KEY_PLAN || it.kind == SCL_KEY_RUN || it.kind == SCL_KEY_RUN_ELSE || it.kind == SCL_KEY_PCH;
    return it;
}

/* Which compiler a program is by its name. The words are a whole command line, with launchers, which are passed over. SCL_OK:
 * *program is the index of the word that is the program, or `len` if there is none; *compiler is the name that a request takes,
 * or NULL if the program's name is not known. SCL_NEWER: the library does not answer such requests. */
static inline int32_t scl_name(const scl_bytes *words, size_t len, size_t *program, const char **compiler) {
    scl_writer to = {SCL_NULL, 0, 0, false};
    scl_bytes rows, row, name, value;
    char *text = SCL_NULL;
    size_t size = 0;
    int32_t status = SCL_NO_MEMORY;
    *program = len;
    *compiler = SCL_NULL;
    scl_put(&to, "name\n");
    scl_put_words(&to, "word ", scl_words_of(words, len));
    if (!to.has_failed) status = scl_text_new(scl_describe, to.at, to.len, &text, &size);
    free(to.at);
    if (status != SCL_OK) return status == SCL_BAD ? SCL_NEWER : status;
    rows = scl_bytes_of(text, size);
    while (scl_next_row(&rows, &row)) {
        if (!scl_next_field(&row, &name) || !scl_next_field(&row, &value)) continue;
        if (scl_is(name, "program") && scl_number_of(value) < len) *program = scl_number_of(value);
        if (scl_is(name, "compiler")) {
            uint32_t place = scl_place_of(value, scl_compiler_names, SCL_COMPILERS);
            *compiler = place < SCL_COMPILERS ? scl_compiler_names[place] : SCL_NULL;
        }
    }
    free(text);
    return SCL_OK;
}

/* Which release of the library answers, as `1.0.0`, by the rules of which sccache, as `0.19.0`, and the protocol of its answers. */
typedef struct scl_maker {
    scl_bytes release, rules;
    uint32_t protocol;
    char *block;
} scl_maker;

/* What made the answers of this library (docs/PROTOCOL.md, A request). Only where the answer is SCL_OK is there anything to free, the
 * block. SCL_NEWER: the library does not answer such requests, or this header does not know the answer. */
static inline int32_t scl_made_by(scl_maker *made) {
    static const char request[] = "made-by\n";
    scl_bytes protocol;
    size_t number, size = 0;
    int32_t told = scl_text_new(scl_describe, request, sizeof request - 1, &made->block, &size);
    if (told != SCL_OK) return told == SCL_BAD ? SCL_NEWER : told;
    number = scl_field_of(scl_bytes_of(made->block, size), "version", &protocol) ? scl_number_of(protocol) : SIZE_MAX;
    if (number > INT32_MAX || !scl_two_texts(made->block, size, "made-by", &made->release, "rules", &made->rules)) {
        free(made->block);
        return SCL_NEWER;
    }
    made->protocol = SCL_TO(uint32_t, number);
    return SCL_OK;
}

/* What a run of the preprocessor for one architecture ended with, which is 0 or more, what it wrote, and its error output. */
typedef struct scl_ran {
    scl_bytes arch;
    int32_t status;
    scl_bytes text, messages;
} scl_ran;

/* Two texts in a block of memory, which free gives back. */
typedef struct scl_texts {
    scl_bytes text, messages;
    char *block;
} scl_texts;

/* The joined text of the runs, and the messages of all (docs/PROTOCOL.md, A request). Only where the answer is SCL_OK is there
 * anything to free: *status is then 0, or that of the first run that failed, whose text it is. SCL_BAD: a status is below 0.
 * SCL_NEWER: the library does not answer such requests. */
static inline int32_t scl_join(const scl_ran *runs, size_t len, int32_t *status, scl_texts *joined) {
    scl_writer to = {SCL_NULL, 0, 0, false};
    scl_bytes ended;
    size_t i, number, size = 0;
    int32_t told = SCL_NO_MEMORY;
    scl_put(&to, "join\n");
    for (i = 0; i < len; i++) {
        if (runs[i].status < 0) {
            free(to.at);
            return SCL_BAD;
        }
        scl_put(&to, "ran ");
        scl_put_field(&to, runs[i].arch, false);
        scl_put(&to, "\t");
        scl_put_number(&to, SCL_TO(size_t, runs[i].status));
        scl_put(&to, "\t");
        scl_put_field(&to, runs[i].text, false);
        scl_put(&to, "\t");
        scl_put_field(&to, runs[i].messages, false);
        scl_put(&to, "\n");
    }
    if (!to.has_failed) told = scl_text_new(scl_describe, to.at, to.len, &joined->block, &size);
    free(to.at);
    if (told != SCL_OK) return told == SCL_BAD ? SCL_NEWER : told;
    number = scl_field_of(scl_bytes_of(joined->block, size), "status", &ended) ? scl_number_of(ended) : SIZE_MAX;
    if (number > INT32_MAX || !scl_two_texts(joined->block, size, "text", &joined->text, "messages", &joined->messages)) {
        free(joined->block);
        return SCL_NEWER;
    }
    *status = SCL_TO(int32_t, number);
    return SCL_OK;
}

/* What a run of the preprocessor wrote, with the names in its line markers written by their bases (docs/PROTOCOL.md, A request).
 * `quoting` is how the compiler quotes names: "gcc" or "clang". Only where the answer is SCL_OK is there anything to free; there are no
 * messages. SCL_BAD: a base is not absolute or has a NUL, or `quoting` is another. SCL_NEWER: the library does not answer such requests,
 * or this header does not know the answer. */
static inline int32_t scl_map(const scl_bytes *bases, size_t len, const char *quoting, scl_bytes text, scl_texts *mapped) {
    scl_writer to = {SCL_NULL, 0, 0, false};
    size_t size = 0;
    int32_t told = SCL_NO_MEMORY;
    scl_put(&to, "map\n");
    scl_put_words(&to, "base ", scl_words_of(bases, len));
    scl_put_line(&to, "quoting ", scl_text(quoting));
    scl_put_line(&to, "text ", text);
    if (!to.has_failed) told = scl_text_new(scl_describe, to.at, to.len, &mapped->block, &size);
    free(to.at);
    if (told != SCL_OK) return told == SCL_BAD && (size < 2 || size > len + 2) ? SCL_NEWER : told;
    mapped->messages = scl_no_bytes[0];
    if (scl_field_of(scl_bytes_of(mapped->block, size), "text", &mapped->text) && scl_read_in_place(mapped->block, &mapped->text)) return SCL_OK;
    free(mapped->block);
    return SCL_NEWER;
}

/* The dependency file of a command of clang-cl, and the lines of its error output that are shown (docs/PROTOCOL.md, A request). The
 * lines that name files begin with the prefix. The request's settings are not asked. Only where the answer is SCL_OK is there
 * anything to free: *is_made says whether the command has such a file, else the texts are empty. SCL_BAD: the prefix is not UTF-8,
 * or the messages are not, and the command has such a file; or no served compiler has the name. SCL_NEWER: the library does not
 * answer such requests, or this header does not know the answer. */
static inline int32_t scl_depfile(const scl_request *request, scl_bytes prefix, scl_bytes messages, bool *is_made, scl_texts *made) {
    scl_writer to = {SCL_NULL, 0, 0, false};
    scl_bytes rows, row, name;
    size_t size = 0;
    int32_t told = SCL_NO_MEMORY;
    *is_made = false;
    scl_put(&to, "depfile\nshown ");
    scl_put_field(&to, prefix, false);
    scl_put(&to, "\t");
    scl_put_line(&to, "", messages);
    scl_put_command(&to, request);
    if (!to.has_failed) told = scl_catalogue_text_new(request->handle, to.at, to.len, &made->block, &size);
    free(to.at);
    if (told != SCL_OK) return told == SCL_BAD && size != 2 && size != 3 ? SCL_NEWER : told;
    rows = scl_bytes_of(made->block, size);
    if (!scl_next_row(&rows, &row) || !scl_next_field(&row, &name)) told = SCL_NEWER;
    else if (scl_is(name, "too-many-words")) told = SCL_TOO_MANY_WORDS;
    else if (scl_is(name, "not-utf-8")) told = SCL_BAD;
    made->text = made->messages = scl_no_bytes[0];
    *is_made = told == SCL_OK && scl_field_of(scl_bytes_of(made->block, size), "text", &name);
    if (*is_made && !scl_two_texts(made->block, size, "text", &made->text, "kept", &made->messages)) told = SCL_NEWER;
    if (told == SCL_OK) return SCL_OK;
    *is_made = false;
    free(made->block);
    return told;
}

/* An answer with its memory in one block, which scl_free gives back. */
typedef struct scl_given {
    scl_answer answer;
    void *block;
} scl_given;

static inline void scl_free(scl_given *given) {
    free(given->block);
    given->block = SCL_NULL;
}

/* Asks with memory of its own. Only where the status is SCL_OK is there anything to free. SCL_SHORT is never answered. */
static inline int32_t scl_ask_new(const scl_request *request, scl_given *given) {
    scl_taking taking;
    char *text = SCL_NULL;
    size_t len;
    int32_t status = scl_description_new(request, &text, &len);
    given->block = SCL_NULL;
    given->answer = scl_no_answer();
    if (status != SCL_OK) return status;
    status = scl_count(&taking, request, scl_bytes_of(text, len));
    if (status == SCL_OK) {
        size_t size = scl_room_size(&taking.sizes);
        given->block = size ? malloc(size) : SCL_NULL;
        if (given->block) scl_tell(&taking, scl_room_in(given->block, &taking.sizes), &given->answer);
        else status = SCL_NO_MEMORY;
    }
    free(text);
    return status;
}

#ifdef __cplusplus
}
#endif
#endif
