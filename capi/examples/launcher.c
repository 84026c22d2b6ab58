/* launcher PROGRAM WORD..: runs the built command in the place of `PROGRAM WORD..`, where there is one without a hazard, and
 * else the given one. What the answer asks of the disk (response files, directories of profiles, a file of debug information) is looked up,
 * round by round, until nothing that it asks is there. A cache would look up a key of the command and its input before it runs it.
 * A program whose name is no served compiler's (cc, x86_64-linux-gnu-gcc) is run with the given words.
 * cc launcher.c $(pkg-config --cflags --libs scl); CC="./a.out gcc" make
 * cmake -DCMAKE_C_COMPILER=gcc -DCMAKE_C_COMPILER_LAUNCHER=$PWD/a.out .. */
#define _POSIX_C_SOURCE 200809L
#include <stdio.h>
#include <sys/stat.h>
#include <unistd.h>
#include "scl.h"

extern char **environ;

enum { FOUND = 256 };
static scl_pair files[FOUND];
static scl_bytes directories[FOUND], existing[FOUND];

/* A copy, since an answer's texts go with its memory. */
static scl_bytes kept(scl_bytes text) {
    char *at = malloc(text.len + 1);
    if (!at) exit(3);
    memcpy(at, text.at, text.len);
    at[text.len] = 0;
    return scl_bytes_of(at, text.len);
}

/* The path as the C library takes it: at one that holds a NUL there is nothing. */
static const char *path_of(scl_bytes path) { return memchr(path.at, 0, path.len) ? "" : (const char *)path.at; }

/* Reads a regular file: what a pipe holds is left to the compiler, which may be run with the given words. */
static int read_file(scl_bytes path, scl_pair *file) {
    struct stat it;
    if (stat(path_of(path), &it) || !S_ISREG(it.st_mode)) return 0;
    FILE *in = fopen(path_of(path), "rb");
    if (!in) return 0;
    size_t len = 0, room = 1 << 16, got;
    char *bytes = malloc(room);
    while (bytes && (got = fread(bytes + len, 1, room - len, in)) > 0)
        if ((len += got) == room) bytes = realloc(bytes, room *= 2);
    if (!bytes) exit(3);
    int is_read = !ferror(in);
    fclose(in);
    file->key = kept(path);
    file->value = scl_bytes_of(bytes, len);
    return is_read;
}

/* Adds what is there of what is asked; returns how much that is. */
static size_t look(const scl_questions *asked, scl_request *request) {
    size_t before = request->files.len + request->directories.len + request->existing.len;
    struct stat it;
    for (size_t i = 0; i < asked->files.len && request->files.len < FOUND; i++)
        request->files.len += (size_t)read_file(asked->files.at[i], &files[request->files.len]);
    for (size_t i = 0; i < asked->directories.len && request->directories.len < FOUND; i++)
        if (!stat(path_of(asked->directories.at[i]), &it) && S_ISDIR(it.st_mode)) directories[request->directories.len++] = kept(asked->directories.at[i]);
    for (size_t i = 0; i < asked->existing.len && request->existing.len < FOUND; i++)
        if (!stat(path_of(asked->existing.at[i]), &it)) existing[request->existing.len++] = kept(asked->existing.at[i]);
    return request->files.len + request->directories.len + request->existing.len - before;
}

static scl_pair *variables(size_t *len) {
    for (*len = 0; environ[*len]; ++*len) {}
    scl_pair *pairs = calloc(*len + 1, sizeof *pairs);
    for (size_t i = 0; pairs && i < *len; i++) {
        size_t key = strcspn(environ[i], "=");
        pairs[i].key = scl_bytes_of(environ[i], key);
        pairs[i].value = scl_text(environ[i] + key + (environ[i][key] == '='));
    }
    return pairs;
}

/* The environment of a command, as exec takes it. */
static char **given_variables(scl_pairs pairs) {
    char **all = calloc(pairs.len + 1, sizeof *all);
    for (size_t i = 0; all && i < pairs.len; i++) {
        scl_bytes key = pairs.at[i].key, value = pairs.at[i].value;
        if (!(all[i] = malloc(key.len + value.len + 2))) exit(3);
        sprintf(all[i], "%s=%s", (const char *)key.at, (const char *)value.at);
    }
    return all;
}

/* The words after a program, as exec takes them; or none, where a word holds a NUL and no process can be given it. */
static char **given_words(char *program, scl_words words) {
    char **all = calloc(words.len + 2, sizeof *all);
    if (!all) exit(3);
    all[0] = program;
    for (size_t i = 0; i < words.len; i++) {
        if (memchr(words.at[i].at, 0, words.at[i].len)) return 0;
        all[i + 1] = (char *)(uintptr_t)words.at[i].at;
    }
    return all;
}

int main(int argc, char **argv) {
    char directory[4096];
    size_t count, len = argc > 1 ? (size_t)argc - 2 : 0;
    scl_bytes *words = calloc(len + 1, sizeof *words);
    scl_pair *pairs = variables(&count);
    if (argc < 2 || !words || !pairs || !getcwd(directory, sizeof directory)) return fprintf(stderr, "usage: launcher PROGRAM WORD.., as: launcher gcc -c a.c\n"), 2;
    for (size_t i = 0; i < len; i++) words[i] = scl_text(argv[i + 2]);
    const char *slash = strrchr(argv[1], '/');
    scl_request request = scl_request_of(slash ? slash + 1 : argv[1], words, len);
    request.directory = scl_text(directory);
    request.environment = scl_pairs_of(pairs, count);
    request.files.at = files;
    request.directories.at = directories;
    request.existing.at = existing;
    request.wants_questions = request.wants_hazards = true;
    /* (the rounds share a catalogue that is read once; where memory lacks for it, each reads its own) */
    scl_catalogue *handle = 0;
    size_t line;
    scl_catalogue_new(SCL_NOTHING, 0, &handle, &line);
    request.handle = handle;
    scl_given given;
    int32_t status;
    while ((status = scl_ask_new(&request, &given)) == SCL_OK && look(&given.answer.questions, &request)) scl_free(&given);
    char **command = argv + 1, **built = 0;
    if (status == SCL_OK && given.answer.outcome == SCL_COMPILED && !given.answer.hazards.len) built = given_words(argv[1], given.answer.command);
    if (built) {
        /* (of cl it is without CL and _CL_, whose words stand in the command) */
        environ = given_variables(given.answer.environment);
        command = built;
    }
    execvp(argv[1], command);
    perror(argv[1]);
    return 127;
}
