/* dcc_scan_args of distcc 3.4 (src/arg.c), over scl: which lines may go to another machine (docs/LAUNCHER.md, Distribute), and which
 * of their words are the input and the output. trials/distcc puts it into distcc's source.
 *
 * What distcc does later stays as it was. It sends the given words, and changes the first one that dcc_is_source takes for a source,
 * and the first one that begins with `-o`, or the word behind that. It does not search the text, as rows `key refuse-if-shown` and
 * `key sources-if-shown` ask. */
#include "scl.h"

static const uint32_t sent_languages[] = {SCL_C, SCL_CXX, SCL_OBJECTIVE_C, SCL_OBJECTIVE_CXX};

static int is_text(scl_bytes text, const char *other) { return text.len == strlen(other) && !memcmp(text.at, other, text.len); }

static char *copy_of(scl_bytes text) { return strndup((const char *)text.at, text.len); }

/* The file that a shell runs by this name; NULL if there is none. (dcc_which fails for a name that PATH lacks.) */
static char *file_of(const char *name) {
    char *folders = strdup(getenv("PATH") ? getenv("PATH") : ""), *rest = folders, *folder, *path = NULL;
    if (strchr(name, '/')) path = strdup(name);
    while (!path && (folder = strsep(&rest, ":"))) {
        if (asprintf(&path, "%s/%s", folder, name) == -1) path = NULL;
        if (path && access(path, X_OK)) free(path), path = NULL;
    }
    free(folders);
    return path;
}

/* The name of the compiler that these words call, as a request takes it; NULL if there is none. Its program is the word *program. The
 * links of a name that says no compiler, as `cc`, are followed. */
static const char *compiler_of(char **argv, const scl_bytes *words, size_t len, size_t *program) {
    const char *compiler = NULL;
    char *file, *real;
    size_t first;
    scl_bytes path;
    if (scl_name(words, len, program, &compiler) != SCL_OK || *program == len || compiler) return compiler;
    file = file_of(argv[*program]);
    real = file ? realpath(file, NULL) : NULL;
    path = scl_text(real ? real : "");
    if (scl_name(&path, 1, &first, &compiler) != SCL_OK) compiler = NULL;
    free(file);
    free(real);
    return compiler;
}

/* The index of the given word of the only option that goes to `to`; SIZE_MAX if there is none, or another one. */
static size_t place_of(const scl_answer *answer, const char *to) {
    size_t i, place = SIZE_MAX;
    for (i = 0; i < answer->options.len; i++) {
        scl_words row = answer->options.at[i];
        if (row.len < 3 || !is_text(row.at[1], to)) continue;
        if (place != SIZE_MAX) return SIZE_MAX;
        place = scl_number_of(row.at[2]);
    }
    return place;
}

/* A copy of the object's path; NULL if there is none. */
static char *object_of(const scl_record *record) {
    size_t i;
    for (i = 0; i < record->outputs.len; i++)
        if (is_text(record->outputs.at[i].name, "obj")) return copy_of(record->outputs.at[i].path);
    return NULL;
}

/* Whether none of the paths is there. */
static int are_missing(const scl_words *paths) {
    size_t i;
    for (i = 0; i < paths->len; i++)
        if (!access((const char *)paths->at[i].at, F_OK)) return 0;
    return 1;
}

/* Whether the rows of the key let the line go: the text shows all that counts, no variable that is set forbids it, and of what is
 * written only the object comes back, since the run here writes the dependency file. */
static int key_lets_go(const scl_answer *answer) {
    size_t i;
    int is_shown = 0;
    for (i = 0; i < answer->key.len; i++) {
        scl_key_row row = scl_key_at(answer, i);
        const scl_bytes *field = row.fields.at;
        if (row.kind == SCL_KEY_IS && row.fields.len == 2 && is_text(field[0], "shown")) is_shown = is_text(field[1], "yes");
        if (row.kind == SCL_KEY_UNSET && getenv((const char *)field[0].at)) return 0;
        if (row.kind == SCL_KEY_OUTPUT && !is_text(field[0], "obj") && !is_text(field[0], "d")) return 0;
    }
    return is_shown;
}

/* Whether nothing is asked of the machine that the distant one lacks: its processor, and its directory, which gcc's text names for debug
 * information, and clang's does not. */
static int asks_nothing(const scl_answer *answer, const char *compiler) {
    size_t i;
    for (i = 0; i < answer->asks.len; i++)
        if (!is_text(answer->asks.at[i], "directory") || !strncmp(compiler, "clang", 5)) return 0;
    return 1;
}

/* Whether the answer lets the line go. distcc sends the text alone, so no other file may be read. */
static int may_go(const scl_answer *answer, const char *compiler) {
    const scl_record *record = &answer->record;
    const scl_questions *asked = &answer->questions;
    size_t i, sent = 0;
    for (i = 0; i < sizeof sent_languages / sizeof *sent_languages; i++) sent += record->language == sent_languages[i];
    return answer->is_cacheable && !answer->hazards.len && sent && key_lets_go(answer) &&
           asks_nothing(answer, compiler) && !answer->reads.len && !answer->loads.len && !record->lists.hash_files.len &&
           are_missing(&asked->files) && are_missing(&asked->directories) && are_missing(&asked->existing);
}

/* Whether the words that distcc will change are those that the compiler takes for the input and the output. (Words as `-DA=b.c` are
 * gone by then.) And whether the object may have another path there, by which gcc names profiles: no row says so. */
static int are_found(char **words, const scl_answer *answer) {
    size_t i, input = SIZE_MAX, output = SIZE_MAX;
    for (i = 0; words[i]; i++) {
        if (str_startswith("-fprofile", words[i])) return 0;
        if (input == SIZE_MAX && words[i][0] != '-' && dcc_is_source(words[i])) input = i;
        if (output == SIZE_MAX && str_startswith("-o", words[i])) output = i;
    }
    return input != SIZE_MAX && input == place_of(answer, "input") && output == place_of(answer, "output");
}

/* Takes the input and the output from the answer, and says whether the line may go. If it may, a word for the output is added where
 * there is none. */
static int scan_answer(const scl_answer *answer, const char *compiler, char **words, char **input_file, char **output_file) {
    if (answer->outcome == SCL_CANNOT_CACHE && is_text(answer->reason, "-E")) return EXIT_LOCAL_CPP;
    if (answer->outcome != SCL_COMPILED) return EXIT_DISTCC_FAILED;
    *input_file = copy_of(answer->record.input);
    *output_file = object_of(&answer->record);
    if (!*input_file || !*output_file || dcc_source_needs_local(*input_file)) return EXIT_DISTCC_FAILED;
    if (!may_go(answer, compiler) || !are_found(words, answer)) return EXIT_DISTCC_FAILED;
    if (place_of(answer, "output") == SIZE_MAX) {
        dcc_argv_append(words, strdup("-o"));
        dcc_argv_append(words, strdup(*output_file));
    }
    dcc_note_compiled(*input_file, *output_file);
    return 0;
}

int dcc_scan_args(char *argv[], char **input_file, char **output_file, char ***ret_newargv) {
    size_t i, len = (size_t)dcc_argv_len(argv), program = len;
    scl_bytes *words = calloc(len + 1, sizeof *words);
    char directory[MAXPATHLEN];
    const char *compiler = NULL;
    scl_given given;
    int ret = dcc_copy_argv(argv, ret_newargv, 4); /* `-o FILE`, and `-target NAME` of distcc */
    *input_file = *output_file = NULL;
    if (ret) return ret;
    for (i = 0; words && i < len; i++) words[i] = scl_text(argv[i]);
    if (words && getcwd(directory, sizeof directory)) compiler = compiler_of(argv, words, len, &program);
    ret = EXIT_DISTCC_FAILED;
    if (compiler) {
        scl_request request = scl_request_of(compiler, words + program + 1, len - program - 1);
        request.directory = scl_text(directory);
        request.wants_key = request.wants_options = request.wants_questions = true;
        if (scl_ask_new(&request, &given) == SCL_OK) {
            ret = scan_answer(&given.answer, compiler, *ret_newargv + program + 1, input_file, output_file);
            scl_free(&given);
        }
    }
    free(words);
    return ret;
}
