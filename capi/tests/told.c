/* told: answers the requests on standard input, each ended by a line `end`, by scl_ask_new, and writes what its structs say as
 * the rows of a description (docs/PROTOCOL.md), and a line `end`. A request that is not answered gives a row `status N`. What a
 * request's line says is passed by the member of scl_request that is for it; a line `wants-less` leaves out what can be left. */
#include <stdio.h>
#include "scl.h"

enum { MOST = 256 };
static scl_bytes words[MOST], directories[MOST], existing[MOST], settings[MOST], bases[MOST];
static scl_pair variables[MOST], files[MOST];

static void fail(const char *why) {
    fprintf(stderr, "told: %s\n", why);
    exit(1);
}

/* The bytes that a field stands for, kept. */
static scl_bytes kept(scl_bytes field) {
    size_t len = scl_read_field(field, NULL);
    uint8_t *at = malloc(len == SIZE_MAX ? 1 : len + 1);
    if (!at || len == SIZE_MAX) fail("no memory, or no field");
    scl_read_field(field, at);
    return scl_bytes_of(at, len);
}

static scl_bytes behind(scl_bytes text, size_t len) { return scl_bytes_of(text.at + len, text.len - len); }

static int begins(scl_bytes text, const char *with) { return text.len >= strlen(with) && !memcmp(text.at, with, strlen(with)); }

static scl_pair pair_of(scl_bytes text) {
    const uint8_t *tab = memchr(text.at, '\t', text.len);
    scl_pair it;
    if (!tab) fail("no tab");
    it.key = kept(scl_bytes_of(text.at, (size_t)(tab - text.at)));
    it.value = kept(behind(text, (size_t)(tab + 1 - text.at)));
    return it;
}

static void take_setting(scl_request *r, scl_bytes text) {
    if (scl_is(text, "may-dist")) r->may_dist = true;
    else if (scl_is(text, "rewrite-includes-only")) r->rewrite_includes_only = true;
    else if (scl_is(text, "cache-mode")) r->cache_mode = true;
    else if (scl_is(text, "keep-shown")) r->keep_shown = true;
    else if (begins(text, "base ")) bases[r->bases.len++] = kept(behind(text, 5));
    else if (begins(text, "version ")) r->version = kept(behind(text, 8));
    else if (begins(text, "bound 0") || begins(text, "bytes 0")) settings[r->settings.len++] = text;
    else if (begins(text, "bound ")) r->most_words = strtoull((const char *)text.at + 6, NULL, 10);
    else if (begins(text, "bytes ")) r->most_bytes = strtoull((const char *)text.at + 6, NULL, 10);
    else settings[r->settings.len++] = text;
}

static void take_line(scl_request *r, scl_bytes line) {
    if (r->words.len + 1 == MOST || r->files.len + 1 == MOST || r->settings.len + 1 == MOST || r->bases.len + 1 == MOST) fail("too much is asked");
    if (begins(line, "compiler ")) r->compiler = behind(line, 9);
    else if (begins(line, "cwd ")) r->directory = kept(behind(line, 4));
    else if (begins(line, "word ")) words[r->words.len++] = kept(behind(line, 5));
    else if (begins(line, "env ")) variables[r->environment.len++] = pair_of(behind(line, 4));
    else if (begins(line, "file ")) files[r->files.len++] = pair_of(behind(line, 5));
    else if (begins(line, "dir ")) directories[r->directories.len++] = kept(behind(line, 4));
    else if (begins(line, "exists ")) existing[r->existing.len++] = kept(behind(line, 7));
    else if (begins(line, "setting ")) take_setting(r, behind(line, 8));
    else if (scl_is(line, "multiarch")) r->is_multiarch = true;
    else if (scl_is(line, "wants-less")) r->wants_runs = r->wants_questions = r->wants_hazards = r->wants_options = r->wants_key = false;
    else fail("no such line");
}

static scl_request blank(void) {
    scl_request r;
    memset(&r, 0, sizeof r);
    r.words.at = words, r.directories.at = directories, r.existing.at = existing, r.settings.at = settings, r.bases.at = bases;
    r.environment.at = variables, r.files.at = files;
    r.wants_runs = r.wants_questions = r.wants_hazards = r.wants_options = r.wants_key = true;
    return r;
}

/* ---- what is read, as rows */

static void put_fields(scl_writer *to, const char *name, scl_words fields) {
    scl_put(to, name);
    for (size_t i = 0; i < fields.len; i++) {
        scl_put(to, " ");
        scl_put_field(to, fields.at[i], false);
    }
    scl_put(to, "\n");
}

static void put_two(scl_writer *to, const char *name, scl_bytes one, scl_bytes two, bool is_optional) {
    const scl_bytes fields[] = {one, two, scl_text("optional")};
    put_fields(to, name, scl_words_of(fields, is_optional ? 3 : 2));
}

static void put_yes(scl_writer *to, const char *row, bool is) {
    if (is) scl_put(to, row);
}

static void put_record(scl_writer *to, const scl_record *r) {
    scl_put_line(to, "input ", r->input);
    put_yes(to, "double-dash-input\n", r->double_dash_input);
    scl_put_line(to, "language ", scl_text(scl_language_names[r->language]));
    scl_put_line(to, "compilation-flag ", r->compilation_flag);
    if (r->has_depfile) scl_put_line(to, "depfile ", r->depfile);
    for (size_t i = 0; i < r->outputs.len; i++) put_two(to, "output", r->outputs.at[i].name, r->outputs.at[i].path, r->outputs.at[i].is_optional);
    scl_put_words(to, "dependency ", r->lists.dependency);
    scl_put_words(to, "preprocessor ", r->lists.preprocessor);
    scl_put_words(to, "common ", r->lists.common);
    scl_put_words(to, "arch ", r->lists.arch);
    scl_put_words(to, "unhashed ", r->lists.unhashed);
    scl_put_words(to, "dist ", r->lists.dist_files);
    scl_put_words(to, "hash ", r->lists.hash_files);
    put_yes(to, "external-assembler\n", r->uses_external_assembler);
    put_yes(to, "show-includes\n", r->show_includes);
    put_yes(to, "explicit-language\n", r->explicit_language);
    put_yes(to, "profile-generate\n", r->profile_generate);
    scl_put_line(to, "color ", scl_text(scl_color_names[r->color]));
    put_yes(to, "no-rewrite-includes-only\n", r->suppress_rewrite_includes_only);
    if (r->has_too_hard) scl_put_line(to, "too-hard ", r->too_hard);
}

static void put_outcome(scl_writer *to, const scl_answer *a) {
    if (a->outcome == SCL_COMPILED) {
        scl_put(to, "ok\n");
        scl_put_words(to, "arg ", a->command);
        scl_put(to, a->is_cacheable ? "cacheable yes\n" : "cacheable no\n");
        put_record(to, &a->record);
    } else if (a->outcome == SCL_CANNOT_CACHE) {
        scl_put_line(to, "reason ", a->reason);
        if (a->has_text) scl_put_line(to, "because ", a->text);
        scl_put_line(to, "sentence ", a->sentence);
    } else {
        scl_put(to, "not-compilation\n");
    }
}

static void put_answer(scl_writer *to, const scl_answer *a) {
    char row[40];
    put_outcome(to, a);
    put_yes(to, "has-unknown\n", a->has_unknown);
    if (a->has_at) sprintf(row, "at %zu\n", a->at), scl_put(to, row);
    for (size_t i = 0; i < a->runs.len; i++) put_fields(to, "run", a->runs.at[i]);
    for (size_t i = 0; i < a->environment.len; i++) put_two(to, "environment", a->environment.at[i].key, a->environment.at[i].value, false);
    for (size_t i = 0; i < a->options.len; i++) put_fields(to, "option", a->options.at[i]);
    for (size_t i = 0; i < a->key.len; i++) put_fields(to, "key", a->key.at[i]);
    for (size_t i = 0; i < a->keep.len; i++) put_fields(to, "keep", a->keep.at[i]);
    for (size_t i = 0; i < a->direct.len; i++) put_fields(to, "direct", a->direct.at[i]);
    scl_put_words(to, "reads ", a->reads);
    scl_put_words(to, "writes ", a->writes);
    scl_put_words(to, "loads ", a->loads);
    scl_put_words(to, "reads-like ", a->reads_like);
    scl_put_words(to, "writes-like ", a->writes_like);
    scl_put_words(to, "loads-like ", a->loads_like);
    scl_put_words(to, "asks ", a->asks);
    if (a->directory_in_object.len) scl_put_line(to, "directory-in-object ", a->directory_in_object);
    scl_put_words(to, "hazard ", a->hazards);
    scl_put_words(to, "wants file ", a->questions.files);
    scl_put_words(to, "wants dir ", a->questions.directories);
    scl_put_words(to, "wants exists ", a->questions.existing);
}

static void answer(const scl_request *request) {
    scl_writer to = {NULL, 0, 0, false};
    char row[40];
    scl_given given;
    int32_t status = scl_ask_new(request, &given);
    if (status == SCL_OK) put_answer(&to, &given.answer), scl_free(&given);
    else sprintf(row, "status %d\n", (int)status), scl_put(&to, row);
    scl_put(&to, "end\n");
    if (to.has_failed || fwrite(to.at, 1, to.len, stdout) != to.len || fflush(stdout)) fail("no answer is written");
    free(to.at);
}

int main(void) {
    scl_writer all = {NULL, 0, 0, false};
    while (scl_grow(&all, 1 << 16)) {
        size_t got = fread(all.at + all.len, 1, 1 << 16, stdin);
        if (!got) break;
        all.len += got;
    }
    scl_bytes left = scl_bytes_of(all.at, all.len), line;
    scl_request request = blank();
    while (scl_next_row(&left, &line)) {
        if (!scl_is(line, "end")) {
            take_line(&request, line);
        } else {
            answer(&request);
            request = blank();
        }
    }
    return 0;
}
