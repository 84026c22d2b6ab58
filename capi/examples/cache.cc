// cache COMPILER WORD ..: a compiler cache on libscl. It knows no flag of any compiler: rows `key` of an answer say
// what to hash and what to look up (docs/PROTOCOL.md, A key). docs/CACHE.md goes through the same steps in Python.
//
//   c++ -std=c++17 -O2 -static cache.cc $(pkg-config --cflags --libs scl) -o cache
//   cache gcc -c a.c     cmake -DCMAKE_C_COMPILER_LAUNCHER=$PWD/cache ..
//   cache --stats        what it did, and how often
//   cache --why          the rows of the last miss that the miss before it of the same output did not have
//
// CACHE names its folder (~/.cache/scl; docs/CACHE.md, Trust), CACHE_SIZE its bytes at most (5e9), CACHE_LOG a file for a line a call. CACHE_BASES
// may have base directories, with `:` between them, so that keys are one in every checkout (docs/CACHE.md, Two checkouts).
// Status: the compiler's; 64: called wrongly; 126, 127: the compiler can't be started, or is not there.
#include <algorithm>
#include <fcntl.h>
#include <filesystem>
#include <fstream>
#include <list>
#include <map>
#include <regex.h>
#include <set>
#include <sys/mman.h>
#include <sys/stat.h>
#include <sys/wait.h>
#include <unistd.h>
#include "scl.hpp"

namespace fs = std::filesystem;
using Bytes = std::string;
using Words = std::vector<Bytes>;

// Thrown: the given words are run, and nothing is kept.
struct KeepNothing : std::runtime_error { using runtime_error::runtime_error; };
static void need(bool it, const Bytes &why) { if (!it) throw KeepNothing(why); }

// ---- texts

static Words operator+(Words all, const Words &more) { return all.insert(all.end(), more.begin(), more.end()), all; }
static bool has(const Words &all, const Bytes &it) { return std::find(all.begin(), all.end(), it) != all.end(); }
static Words words_of(const scl::Words &list) { return Words(list.begin(), list.end()); }
template <class List, class Is> static bool any(const List &all, Is is) { return std::any_of(all.begin(), all.end(), is); }
template <class Make> static Words each(Words all, Make make) { return std::transform(all.begin(), all.end(), all.begin(), make), all; }

// FNV-1a of 128 bits: good against chance. It is none against malice, but who can write sources can write objects.
static Bytes sum_of(const Bytes &text) {
    __extension__ typedef unsigned __int128 Wide;
    Wide sum = Wide(0x6c62272e07bb0142) << 64 | 0x62b821756295c58d;
    for (uint8_t byte : text) sum = (sum ^ byte) * (Wide(1) << 88 | 0x13b);
    return std::to_string(uint64_t(sum >> 64)) + "." + std::to_string(uint64_t(sum));
}

// A list as one text, each part after its length; and back.
static Bytes packed(const Words &parts) {
    Bytes all;
    for (const Bytes &it : parts) all += std::to_string(it.size()) + ":" + it;
    return all;
}
static Words unpacked(const Bytes &text) {
    Words all;
    for (size_t at = 0, colon; (colon = text.find(':', at)) != Bytes::npos; at = colon + 1 + all.back().size())
        all.push_back(text.substr(colon + 1, std::strtoul(&text[at], nullptr, 10)));
    return all;
}

// What an extended regular expression matches in a text, and what stands between; `^` and `$` match at each line.
struct Cut { Words found, between; };
static Cut cut(const Bytes &text, const Bytes &pattern, size_t most = SIZE_MAX) {
    static std::map<Bytes, regex_t> known;
    const auto [it, is_new] = known.try_emplace(pattern);
    need(!is_new || !regcomp(&it->second, pattern.c_str(), REG_EXTENDED | REG_NEWLINE), "a pattern that is none");
    Cut all;
    size_t from = 0;
    while (all.found.size() < most) {
        regmatch_t at = {regoff_t(from), regoff_t(text.size())};
        const int flags = REG_STARTEND | (from && text[from - 1] != '\n' ? REG_NOTBOL : 0);
        if (regexec(&it->second, text.c_str(), 1, &at, flags)) break;
        all.between.push_back(text.substr(from, size_t(at.rm_so) - from));
        all.found.push_back(text.substr(size_t(at.rm_so), size_t(at.rm_eo - at.rm_so)));
        from = size_t(at.rm_eo);
    }
    all.between.push_back(text.substr(from));
    return all;
}
static bool matches(const Bytes &text, const Bytes &pattern) { return !cut(text, pattern, 1).found.empty(); }
static bool is_in(const Words &all, const Bytes &pattern) { return any(all, [&](const Bytes &it) { return matches(it, pattern); }); }
static Bytes without(const Bytes &text, const Bytes &pattern) {
    Bytes all;
    for (const Bytes &it : cut(text, pattern).between) all += it;
    return all;
}

// A text with bytes that are written as numbers, as \101, \x41, \x{41} or \u0041, read. In a string, so is \" or \\.
static Bytes unescaped(const Bytes &text, bool is_string) {
    Bytes all;
    for (size_t at = 0; at < text.size(); at++) {
        unsigned byte = 0;
        int len = 0;
        for (const char *form : {"\\x{%x}%n", "\\x%x%n", "\\u00%2x%n", "\\%3o%n"})
            if (text[at] == '\\' && !len) sscanf(text.substr(at, 12).c_str(), form, &byte, &len);
        if (is_string && text[at] == '\\' && !len) at++;
        all += len ? char(byte) : text[at];
        at += len ? size_t(len) - 1 : 0;
    }
    return all;
}
static bool is_one_of(char it, const char *marks) { return isalnum(uint8_t(it)) || (it && strchr(marks, it)); }

// What stands between the first quote and the last one, as compilers write it.
static const Bytes string_pattern = "\"([^\"\\\n]|\\\\.)*\"";
static Bytes unquoted(const Bytes &text) {
    const size_t begin = text.find('"') + 1;
    return unescaped(text.substr(begin, text.rfind('"') - begin), true);
}
// A text as an assembler gets it: strings side by side are joined.
static Bytes as_assembled(const Bytes &text) { return unescaped(without(text, "\"[ \t\n\v\f\r]*\""), false); }

// The macro that a word defines, as -DA=1.
static Bytes macro_of(const Bytes &word) { return word.substr(2, word.find_first_of("=(") - 2); }
static bool is_of_name(char it) { return is_one_of(it, "_"); }
static const Bytes brought = "L LL U UL ULL char double float int long short signed unsigned\n";  // by compilers' own macros
// Whether a text can name the macro. It may make a name of pieces, so a beginning counts.
static bool is_named(const Bytes &macro, const Bytes &text) {
    for (size_t at = text.find(macro[0]); at != Bytes::npos; at = text.find(macro[0], at + 1)) {
        const auto begin = text.begin() + ptrdiff_t(at);
        const size_t len = size_t(std::find_if_not(begin, text.end(), is_of_name) - begin);
        if ((!at || !is_of_name(text[at - 1])) && !macro.compare(0, len, text, at, len)) return true;
    }
    return false;
}

// ---- files

static std::error_code ignored;
static mode_t kind_of(const Bytes &path) {
    struct stat it;
    return stat(path.c_str(), &it) ? 0 : it.st_mode & S_IFMT;
}
static bool is_file(const Bytes &path) { return kind_of(path) == S_IFREG; }
static bool is_folder(const Bytes &path) { return kind_of(path) == S_IFDIR; }
static const fs::path here = fs::current_path(ignored);
static Bytes whole(const Bytes &path) { return (here / path).lexically_normal().string(); }
static Bytes folder_of(const Bytes &path) { return fs::path(path).parent_path().string(); }
static Bytes inside(const Bytes &folder, const Bytes &name) { return (fs::path(folder) / name).string(); }
static Words files_in(const Bytes &folder) {
    std::set<Bytes> all;
    for (fs::directory_iterator it(folder, ignored), end; it != end; it.increment(ignored)) all.insert(it->path().string());
    return Words(all.begin(), all.end());
}
static Bytes content(const Bytes &path) {
    std::ifstream file(path, std::ios::binary);
    Bytes text(is_file(path) ? fs::file_size(path) : 0, 0);
    need(is_file(path) && file.read(&text[0], std::streamsize(text.size())), "can't be read: " + path);
    return text;
}

static int64_t nanoseconds(const timespec &it) { return int64_t(it.tv_sec) * 1000000000 + it.tv_nsec; }
static int64_t now() { timespec it; return clock_gettime(CLOCK_REALTIME, &it), nanoseconds(it); }
static const int64_t started = now() - 10000000;  // (clocks of file systems are coarse)

// What ends the names of this process's own files. Two containers with one store have the same process numbers.
static const Bytes mine = "." + std::to_string(getpid()) + "." + std::to_string(now());

// Writes another file first, and renames it: nobody sees a part of it, and a link is replaced, not followed.
static bool write_file(const Bytes &path, const Bytes &text) {
    const Bytes part = path + mine;
    const int file = open(part.c_str(), O_WRONLY | O_CREAT | O_EXCL | O_CLOEXEC, 0666);
    if (file < 0) return false;
    const bool is_whole = write(file, text.data(), text.size()) == ssize_t(text.size());
    if (!close(file) && is_whole && !rename(part.c_str(), path.c_str())) return true;
    return unlink(part.c_str()), false;
}

// What changes with a file, and when it last changed. If there is none, `text` is empty.
struct Stamp {
    Bytes size_and_time, text;
    mode_t kind = 0;
    int64_t size = 0, changed = 0;
    explicit Stamp(const Bytes &path) {
        struct stat it;
        if (stat(path.c_str(), &it)) return;
        const int64_t written = nanoseconds(it.st_mtim), set = nanoseconds(it.st_ctim);
        kind = it.st_mode & S_IFMT, size = it.st_size, changed = std::max(written, set);
        size_and_time = packed({std::to_string(size), std::to_string(written)});
        text = size_and_time + packed({std::to_string(it.st_ino), std::to_string(set)});
    }
    // A file that has only just changed may change again within the same time.
    bool is_settled() const { return changed < started - 2000000000; }
};

static std::map<Bytes, Bytes> seen;  // the files that were read, and their stamps then
static std::set<Bytes> made;         // the whole paths of the outputs

// A pipe or a device can be read once only, and /dev/stdin may be a file.
static void note(const Bytes &path) {
    const Bytes it = whole(path);
    const Stamp is(path);
    const bool is_usual = is.kind == 0 || is.kind == S_IFREG || is.kind == S_IFDIR;
    need(is_usual && it.rfind("/dev/", 0) && it.rfind("/proc/", 0), "no regular file: " + path);
    if (is.kind != S_IFDIR && !made.count(it)) seen.emplace(path, is.text);
}
static bool is_as_it_was() {
    return std::all_of(seen.begin(), seen.end(), [](const auto &it) {
        const Stamp is(it.first);
        return is.text == it.second && is.changed < started;
    });
}

// ---- the store: lists by name. Before each stands its sum: one that is broken is as good as none

static Bytes store;
static bool is_own(const struct stat &it, mode_t kind) { return (it.st_mode & S_IFMT) == kind && it.st_uid == geteuid(); }
// A folder that only its owner may write, and no link. It is made, if there is none.
static bool has_folder(const Bytes &path) {
    struct stat it;
    mkdir(path.c_str(), 0700);
    return !lstat(path.c_str(), &it) && is_own(it, S_IFDIR) && !(it.st_mode & 022);
}
// Opens a file of one's own: a link is not followed, and a pipe is not waited for. Below 0: there is none.
static int open_own(const Bytes &path, int flags) {
    const int file = open(path.c_str(), flags | O_NOFOLLOW | O_NONBLOCK | O_CLOEXEC, 0600);
    struct stat it;
    if (file < 0 && errno == ENOENT) return file;
    if (file >= 0 && !fstat(file, &it) && is_own(it, S_IFREG)) return file;
    if (file >= 0) close(file);
    throw KeepNothing("no own file: " + path);
}
static Bytes stored(const Bytes &path) {
    const int file = open_own(path, O_RDONLY);
    Bytes text;
    char part[1 << 16];
    for (ssize_t got; file >= 0 && (got = read(file, part, sizeof part)) > 0;) text.append(part, size_t(got));
    if (file >= 0) close(file);
    return text;
}
static Bytes place_of(const Bytes &name) {
    const Bytes folder = store + "/" + name.substr(0, 2);
    need(has_folder(folder), "no own folder: " + folder);
    return folder + "/" + name;
}
static bool get(const Bytes &name, Words &parts) {
    const Bytes path = place_of(name), text = stored(path);
    const size_t end = std::min(text.find(' '), text.size());
    if (text.empty() || sum_of(text.substr(end + 1)) != text.substr(0, end)) return false;
    fs::last_write_time(path, fs::file_time_type::clock::now(), ignored);  // (what was not used for longest goes first)
    return parts = unpacked(text.substr(end + 1)), true;
}
static void put(const Bytes &name, const Words &parts) {
    write_file(place_of(name), sum_of(packed(parts)) + " " + packed(parts));
}

// If the store is too large, what was not used for longest goes, until four fifths are left. It is named as an entry, and
// stands where one does: the folder may have other files too, and nobody wants these removed.
static void remove_oldest() {
    std::vector<std::tuple<int64_t, double, Bytes>> all;
    double size = 0, limit = getenv("CACHE_SIZE") ? atof(getenv("CACHE_SIZE")) : 5e9;
    for (const Bytes &folder : files_in(store))
        for (const Bytes &path : has_folder(folder) ? files_in(folder) : Words()) {
            const Stamp is(path);
            const Bytes name = fs::path(path).filename().string();
            const bool is_entry = fs::path(folder).filename() == name.substr(0, 2) && matches(name, "^[0-9]+[.][0-9]+");
            if (is.kind != S_IFREG || !is_entry) continue;
            all.emplace_back(is.changed, is.size, path);
            size += double(is.size);
        }
    std::sort(all.begin(), all.end());
    for (size_t i = 0; i < all.size() && size > limit * (i ? 0.8 : 1); size -= std::get<1>(all[i++]))
        unlink(std::get<2>(all[i]).c_str());
}

// ---- memory: what was found is kept with all that was looked at for it, and holds while all that is as it was

// What is looked at while something is found. What the inner of two looks at, the outer stands on too.
struct Finding {
    static inline Finding *current = nullptr;
    Finding *outer = current;
    struct Known { Bytes answer, sum; };
    std::map<Bytes, Known> questions;
    bool may_be_kept = true;
    Finding() { current = this; }
    ~Finding() {
        current = outer;
        if (outer) outer->questions.insert(questions.begin(), questions.end());
    }
};
static void keep_no_finding() { if (Finding::current) Finding::current->may_be_kept = false; }

// A question is a letter and a path: `=` what a file or a folder holds, `?` what stands there, `@` where links lead. Of
// what is not there it is asked whether it comes; and if its folder is not there, whether that does.
static void ask(char letter, const Bytes &path) {
    if (letter == '=') note(path);
    if (!Finding::current) return;
    const bool is_there = letter == '@' || kind_of(path);
    const Bytes folder = is_there ? "" : folder_of(path);
    Finding::current->questions[is_there ? letter + path : "?" + (folder.empty() || kind_of(folder) ? path : folder)];
}
// How it is. A file or a folder as it was has the same stamp; one that has another stamp may still hold the same.
static Bytes answer_to(const Bytes &question) {
    const Bytes path = question.substr(1);
    if (question[0] == '@') return fs::canonical(path, ignored).string();
    return question[0] == '=' ? Stamp(path).text : std::to_string(kind_of(path));
}
static Bytes sum_of_file(const Bytes &path);
static Bytes sum_for(const Bytes &question) {
    const Bytes path = question.substr(1);
    const mode_t kind = question[0] == '=' ? kind_of(path) : 0;
    return kind == S_IFREG ? sum_of_file(path) : kind == S_IFDIR ? sum_of(packed(files_in(path))) : "none";
}

static Words recalled;  // questions of what was remembered: their files were not read, and count as read in a miss

// What `find` gives, or gave when all that it looked at was as it is now.
template <class Find> static Bytes remembered(const Bytes &what, Find find) {
    const Bytes name = sum_of(what);
    Finding finding;
    Words list;    // what was found; then each question, its answer, and the sum of what is held
    char slot = '0';
    for (; slot < '8' && get(name + slot, list); slot++) {
        size_t at = 1;
        const auto is_same = [&] { return list[at + 2] != "none" && list[at + 2] == sum_for(list[at]); };
        while (at < list.size() && (list[at + 1] == answer_to(list[at]) || is_same())) at += 3;
        if (at < list.size()) continue;
        for (at = 1; at < list.size(); at += 3) {
            recalled.push_back(list[at]);
            if (finding.outer) finding.questions[list[at]] = {list[at + 1], list[at + 2]};
        }
        return list[0];
    }
    list = {find()};
    for (auto &[it, known] : finding.questions) {
        const Stamp is(it.substr(1));
        if (it[0] != '@' && !is.is_settled() && (it[0] == '=' || is.kind != S_IFDIR)) keep_no_finding();
        const Bytes answer = answer_to(it);
        if (known.answer != answer) known = {answer, sum_for(it)};
        list.insert(list.end(), {it, answer, known.sum});
    }
    if (finding.may_be_kept && is_as_it_was()) put(name + (slot < '8' ? slot : char('0' + getpid() % 8)), list);
    return list[0];
}

static Bytes sum_of_file(const Bytes &path) {
    const Stamp is(path);
    if (is.size < 1000000) return sum_of(content(path));
    return remembered("bytes" + path + is.text, [&] {
        if (!is.is_settled()) keep_no_finding();
        return sum_of(content(path));
    });
}

// ---- programs

struct Ran { int status; Bytes out, err; };

// Runs the words, and takes what they write. A quiet program gets an empty standard input; one may get a variable.
static Ran run(const Words &words, bool is_quiet, Bytes variable = "") {
    std::vector<char *> all;
    for (const Bytes &it : words) need(it.find('\0') == Bytes::npos, "a word holds a NUL");
    for (const Bytes &it : words) all.push_back(const_cast<char *>(it.c_str()));
    all.push_back(nullptr);
    const int out = memfd_create("out", MFD_CLOEXEC), err = memfd_create("err", MFD_CLOEXEC);
    const pid_t child = out < 0 || err < 0 ? -1 : fork();
    if (!child) {
        if (!variable.empty()) putenv(&variable[0]);
        if (is_quiet) dup2(open("/dev/null", O_RDONLY), 0);
        dup2(out, 1), dup2(err, 2);
        execvp(all[0], all.data());
        _exit(errno == ENOENT ? 127 : 126);
    }
    int status = 0;
    need(child > 0 && waitpid(child, &status, 0) == child, "a program can't be started");
    const auto taken = [](int file) { return content("/proc/self/fd/" + std::to_string(file)); };
    return {WIFEXITED(status) ? WEXITSTATUS(status) : 128 + WTERMSIG(status), taken(out), taken(err)};
}

static Bytes value_of(const Bytes &name) { return getenv(name.c_str()) ? Bytes("=") + getenv(name.c_str()) : "-"; }
static Words parts_of(const Bytes &variable) { return cut(value_of(variable).substr(1), ":").between; }

// The file of a program; empty: there is none.
static Bytes program_of(const Bytes &name) {
    for (const Bytes &folder : name.find('/') != Bytes::npos ? Words{""} : parts_of("PATH"))
        if (const Bytes file = inside(folder, name); is_file(file) && !access(file.c_str(), X_OK)) return file;
    return "";
}
static bool is_script(const Bytes &program) {
    char head[2] = {};
    return std::ifstream(program).read(head, 2) && head[0] == '#' && head[1] == '!';
}

// The bytes of a program and of its libraries. A library that newly stands in an earlier folder is not seen.
static Bytes sum_of_program(const Bytes &path) {
    return remembered("program" + path + value_of("LD_LIBRARY_PATH") + value_of("LD_PRELOAD"), [&] {
        Bytes sums;
        for (const Bytes &it : Words{path} + cut(run({"ldd", path}, true).out, "/[^ \n]+").found) {
            ask('=', it);
            sums += sum_of_file(it);
        }
        return ask('=', "/etc/ld.so.cache"), sums;
    });
}

// ---- base directories: in keys and entries NUL and `<baseN>` stand for base N, and two NULs for one

struct Base { Bytes path, told; };
static std::vector<Base> given_bases() {
    std::vector<Base> all;
    for (const Bytes &it : parts_of("CACHE_BASES"))
        if (const Bytes path = without(it, "[/\\\\]+$"); !path.empty())
            all.push_back({path, Bytes("\0<base", 6) + std::to_string(all.size()) + ">"});
    return all;
}
static std::vector<Base> bases = given_bases();  // none, if the object names one of them
template <class Is> static const Base *base_that(Is is) {  // the longest
    const Base *found = nullptr;
    for (const Base &it : bases)
        if (is(it) && (!found || it.path.size() > found->path.size())) found = &it;
    return found;
}
static bool stands_at(const Bytes &text, size_t at, const Bytes &it) { return !text.compare(at, it.size(), it); }
static bool is_below(const Base &it, const Bytes &path) { return stands_at(path + "/", 0, it.path + "/"); }
static bool has_base(const Bytes &text) { return any(bases, [&](const Base &it) { return text.find(it.path) != Bytes::npos; }); }
static bool is_beside(const Bytes &path) {
    return any(bases, [&](const Base &it) { return stands_at(path, 0, it.path) && !is_below(it, path); });
}
// The bases belong in the key after all, if the object may name them.
static Bytes all_bases(bool are_named) {
    Bytes all;
    for (const Base &it : bases) all += packed({it.told, it.path});
    return are_named ? all : "-";
}
static Bytes told(const Bytes &path) {
    const Base *const base = base_that([&](const Base &it) { return is_below(it, path); });
    return base ? base->told + path.substr(base->path.size()) : path;
}
struct ByTold { bool operator()(const Bytes &a, const Bytes &b) const { return told(a) < told(b); } };
using Paths = std::set<Bytes, ByTold>;  // in the same order in every checkout
// What a run wrote: the library tells the names in its line markers.
static Bytes told_run(const Bytes &text, const char *quoting) {
    if (bases.empty()) return text;
    std::vector<scl_bytes> list;
    for (const Base &it : bases) list.push_back(scl::bytes(it.path));
    scl_texts mapped;
    need(scl_map(list.data(), list.size(), quoting, scl::bytes(text), &mapped) == SCL_OK, "a run can't be told");
    const Bytes all(scl::view(mapped.text));
    return free(mapped.block), all;
}
// A plan, messages or rules of make: a base is told that stands as a whole name, or begins one.
static bool is_of_path(char it) { return uint8_t(it) >= 0x80 || is_one_of(it, "_.+@~-"); }
static bool is_named_at(const Base &base, const Bytes &text, size_t at) {
    const size_t end = at + base.path.size();
    if (!stands_at(text, at, base.path) || (end < text.size() && is_of_path(text[end]))) return false;
    if (!at || (!is_of_path(text[at - 1]) && text[at - 1] != '/')) return true;
    const size_t line = text.rfind('\n', at - 1) + 1;  // (a flag like -I may stand before it, or the end of a colour)
    return matches(text.substr(line, at - line), "((^|[\"' \t\v\f\r])-[A-Z]|\x1b\\[[0-9;]*[mK])$");
}
static Bytes told_text(const Bytes &text) {
    Bytes all;
    for (size_t at = 0; at < text.size(); at++) {
        const Base *const base = base_that([&](const Base &it) { return is_named_at(it, text, at); });
        all += base ? base->told : Bytes(text[at] || bases.empty() ? 1 : 2, text[at]);
        at += base ? base->path.size() - 1 : 0;
    }
    return all;
}
static Bytes put_back(const Bytes &text) {
    Bytes all;
    for (size_t at = 0; at < text.size(); at++) {
        const Base *const base = base_that([&](const Base &it) { return stands_at(text, at, it.told); });
        all += base ? base->path : Bytes(1, text[at]);
        at += base ? base->told.size() - 1 : !text[at] && !bases.empty();
    }
    return all;
}
// Where rules of make have ends of lines depends on the lengths of names.
static Bytes unbroken(const Bytes &text) { return bases.empty() ? text : without(text, "\\\\\n[ \t]*"); }

// ---- 1. ask

// The name by which the library knows the compiler: the first on the way of its links, as c++ may be a link to clang++.
static Bytes served_name(const Bytes &compiler) {
    static const Bytes served = "(^|[-/])(gcc|g[+][+]|clang|clang[+][+]|cl|clang-cl|diab|tasking)(-[0-9.]+)?$";
    Bytes path = compiler;
    for (int links = 0; links < 40; links++) {
        if (const Words name = cut(path, served).found; !name.empty()) return without(name[0], "^[-/]|-[0-9.]+$");
        if (!links) path = program_of(compiler);
        path = inside(folder_of(path), fs::read_symlink(path, ignored).string());
    }
    throw KeepNothing("the compiler's name");
}

// Asks until the answer wants nothing that is there.
static scl::Answer described(const Bytes &compiler, char **words) {
    std::list<Bytes> texts = {here.string(), served_name(compiler)};  // the request has views of them
    const scl::Catalogue known;  // read once, for all rounds
    scl::Request request(texts.back());
    request.set_catalogue(known);
    request.set_directory(texts.front());
    request.raw().wants_questions = request.raw().wants_key = true;
    for (; *words; words++) request.add_word(*words);
    for (const Base &it : bases) request.add_base(it.path);
    for (;;) {
        const size_t count = texts.size();
        scl::Answer answer = request.ask();
        need(bool(answer), scl::sentence(answer.status()));
        for (const Bytes &path : words_of(answer.wanted_files()))
            if (is_file(path)) request.add_file(texts.emplace_back(path), texts.emplace_back(content(path)));
        for (const Bytes &path : words_of(answer.wanted_directories()))
            if (is_folder(path)) request.add_directory(texts.emplace_back(path));
        for (const Bytes &path : words_of(answer.wanted_existing()))
            if (fs::exists(fs::symlink_status(path, ignored))) request.add_existing(texts.emplace_back(path));
        if (count == texts.size()) return answer;
    }
}

struct Row {
    scl_key_row is;
    Words told, words;  // the name and the fields: as the bases tell them, and as they are used
    Bytes sum;          // of the answer
};

struct Key {
    Bytes compiler, input;
    scl::Answer said;
    Words command;                  // what a miss runs
    std::vector<Row> rows;
    std::vector<Words> direct;      // rows `direct`: the name, and the fields
    std::map<Bytes, bool> outputs;  // whether each may lack
    std::set<Bytes> rules;          // the outputs with rules of make
    Words shown;                    // words that define macros: each may be left out of the key,
    bool do_all_count = false;      // unless a run warns, or there may be a precompiled header
    Bytes planned;                  // what the driver wrote of its plan
    bool has_colors, is_clang = false, has_else = false, has_failed = false;
    Words texts, sources, first;    // what runs wrote; the files that they name; those that they name before other text
    std::vector<Words> runs;        // the words of these runs

    Key(const Bytes &program, scl::Answer &&answer) : compiler(program), said(std::move(answer)) {
        Bytes why(said.reason());
        for (const scl::Words &row : said.keep()) why += packed(words_of(row));
        need(said.is_cacheable() && said.key_size(), why.empty() ? "no key" : why);
        command = words_of(said.command());
        has_colors = isatty(2) || said.record().color == SCL_COLOR_ON;
        const scl::Lists key(said.raw().key.at, said.raw().key.len), rest(said.raw().direct.at, said.raw().direct.len);
        if (scl_key_at(&said.raw(), 0).kind != SCL_KEY_BASES) bases.clear();
        for (size_t i = 0; i < key.size(); i++)
            take({scl_key_at(&said.raw(), i), words_of(key[i]), each(words_of(key[i]), put_back), ""});
        for (const scl::Words &row : rest) direct.push_back(words_of(row));
        for (const auto &[path, may_lack] : outputs) {
            struct stat it;
            const bool is_own = lstat(path.c_str(), &it) || (S_ISREG(it.st_mode) && it.st_nlink == 1);
            need(is_own, "an output is no file, or has two names: " + path);
            made.insert(whole(path));
        }
    }
    void take(const Row &row) {
        const Words &it = row.words;
        rows.push_back(row);
        if (row.is.kind == SCL_KEY_OUTPUT) outputs[it[2]] = it.size() > 3;
        if (row.is.kind == SCL_KEY_OUTPUT && it[1] == "d") rules.insert(it[2]);
        if (row.is.kind == SCL_KEY_SHOWN) shown.push_back(it[1]);
        if (row.is.kind == SCL_KEY_RUN_ELSE) has_else = true;
        if (row.is.kind != SCL_KEY_IS || it.size() < 3) return;
        if (it[1] == "compiler") is_clang = it[2].rfind("clang", 0) == 0;
        if (it[1] == "input") input = it[2];
        if (it[1] == "run-words" && it[2] == "given") command.assign(it.begin() + 3, it.end());
    }

    // ---- 2. hash the rows. Of some only the name is hashed: their fields say what to start, and where to look

    Bytes find() {
        Bytes start;
        for (Row &row : rows) {
            if (row.is.is_asked && row.is.kind < SCL_KEY_RUN) row.sum = sum_of(answer(row));
            start += sum_of(packed(row.words)) + row.sum;
        }
        for (const Words &row : direct) start += sum_of(packed(row) + (row[0] == "env" ? value_of(row[1]) : ""));
        if (!has_direct_mode()) return hash_rows();
        return remembered("key" + start, [&] { return ask_where_headers_are(hash_rows()); });
    }
    Bytes hash_rows() {
        Bytes sums, text = brought;
        for (Row &row : rows)
            if (row.is.is_asked && row.sum.empty()) row.sum = sum_of(answer(row));
        for (const Bytes &path : shown.empty() ? shown : all_sources()) text += is_file(path) ? content(path) + "\n" : "";
        const auto is_left_out = [&](const Row &row) { return row.is.may_be_left_out && !counts(row.words[1], text); };
        rows.erase(std::remove_if(rows.begin(), rows.end(), is_left_out), rows.end());
        for (const Row &row : rows) sums += sum_of(row.is.is_named ? row.words[0] : packed(row.told)) + row.sum;
        return sum_of(sums);
    }
    // Whether a source can name the macro. One that none can name changes nothing (docs/PROTOCOL.md, A key).
    bool counts(const Bytes &word, const Bytes &text) const {
        const Bytes macro = macro_of(word);
        if (do_all_count || macro.empty() || !std::all_of(macro.begin(), macro.end(), is_of_name)) return true;
        const auto names = [&](const Bytes &it) { return it != word && is_named(macro, it.substr(2 + macro_of(it).size())); };
        return is_named(macro, text) || any(shown, names);
    }

    // ---- 3. answer them

    Bytes answer(const Row &row) {
        const Words fields(row.words.begin() + 1, row.words.end());
        const Bytes it = fields.empty() ? "" : fields[0];
        switch (row.is.kind) {
        case SCL_KEY_DIRECTORY: return told(directory());
        case SCL_KEY_COMPILER: return fs::path(compiler).filename().string() + sum_of_program(program_of(compiler));
        case SCL_KEY_PLAN: return planned_by(fields);
        case SCL_KEY_ENV: return value_of(it);
        case SCL_KEY_UNSET: return need(value_of(it) == "-", "set: " + it), "";
        case SCL_KEY_FILE: return need(is_file(it), "no file: " + it), read(it);
        case SCL_KEY_MAYBE:  // (what the command writes, it does not read)
            return made.count(whole(it)) ? "" : (do_all_count |= is_file(it), read(it));
        case SCL_KEY_REGULAR: return note(it), "";
        case SCL_KEY_RUN: return preprocessed(fields);
        case SCL_KEY_RUN_ELSE: return has_failed ? preprocessed(fields) : "-";
        case SCL_KEY_PCH: {  // (which one is taken, the order of folders says)
            const Words found = precompiled(fields);
            return found.empty() ? "" : read_all(found) + words_of_runs();
        }
        case SCL_KEY_SOURCES: return read_all(all_sources());
        case SCL_KEY_SOURCES_IF_SHOWN: return is_in(texts, it) ? read_all(all_sources()) : "-";
        case SCL_KEY_TIMES: return stamps_of_sources();
        case SCL_KEY_REFUSE_IF_SHOWN: return refuse_if_shown(it), "";
        case SCL_KEY_BASES_IF_BESIDE: return all_bases(any(sources + Words{input, directory()}, is_beside));
        case SCL_KEY_BASES_IF_SHOWN: return all_bases(is_in(each(texts, as_assembled), it));
        case SCL_KEY_BASES_IF_PLANNED: return all_bases(matches(planned, it));
        default: throw KeepNothing("a row that is not known");
        }
    }

    Bytes words_of_runs() const {
        Bytes all;
        for (const Row &row : rows)
            if (row.is.kind == SCL_KEY_RUN || row.is.kind == SCL_KEY_RUN_ELSE) all += packed(row.told);
        return all;
    }
    static Bytes read(const Bytes &path) {
        ask('=', path);
        return is_file(path) ? "=" + content(path) : is_folder(path) ? "/" : "-";
    }
    static Bytes read_all(const Words &paths) {
        Bytes sums;
        for (const Bytes &path : paths) sums += sum_of(told(path)) + sum_of(read(path));
        return sums;
    }
    static Bytes directory() {
        const char *named = getenv("PWD");
        return named && *named == '/' && fs::equivalent(named, here, ignored) ? named : here.string();
    }
    Words all_sources() const { return has(sources, input) ? sources : sources + Words{input}; }
    Bytes stamps_of_sources() const {
        Bytes all;
        for (const Bytes &path : sources) all += packed({told(path), Stamp(path).size_and_time});
        return all;
    }
    void refuse_if_shown(const Bytes &pattern) const {
        const Words all = sources.empty() ? texts + Words{content(input)} : texts;
        need(!is_in(each(all, as_assembled), pattern), "shown: " + pattern);
    }

    // What is found with the compiler's driver. One takes 2 to 30 milliseconds to start; so it is remembered for the
    // words and all variables, while what the driver looks at is as it was. What a script looks at, nobody knows; nor what
    // a program does that starts the driver, as ccache by the name gcc.
    template <class Find> Bytes of_driver(const Words &words, Find find) const {
        const Bytes program = program_of(compiler);
        if (is_script(program)) return find();
        const Bytes place = packed({compiler, program, Stamp(program).text, answer_to("@" + program), here.string(), all_bases(true)});
        Words variables, flags;
        for (char **it = environ; *it; it++) variables.push_back(*it);
        for (const Bytes &it : words) flags.push_back(it == input ? "x" : outputs.count(it) ? "y" : it);
        return remembered("driver" + place + packed(variables + words), [&] {
            sum_of_program(program);
            const auto ask_folders = [&] { return ask_where_it_searches(flags); };
            if (remembered("folders" + place + packed(variables + flags), ask_folders).empty()) keep_no_finding();
            return find();
        });
    }
    // The driver names its folders of programs and libraries. Above them another version may come to stand; and what it
    // finds in none, it looks for in PATH.
    Bytes ask_where_it_searches(const Words &flags) const {
        const Ran ran = run(Words{compiler, "-###", "-print-search-dirs"} + flags, true, "LC_ALL=C");
        const Words lists = cut(ran.out, "^(install|programs|libraries): .*$").found;
        if (ran.status || lists.size() < 2 || !is_of_driver_itself(ran.err)) return "";
        for (const Bytes &folder : parts_of("PATH")) ask('=', folder);
        for (const Bytes &list : lists)
            for (const Bytes &folder : cut(without(list, "^[a-z]+: =?"), ":").between)
                ask('=', folder), ask('=', inside(folder, ".."));
        return ran.out;
    }

    // A driver says how it was called, or in which folder it stands.
    bool is_of_driver_itself(const Bytes &text) const {
        const Bytes program = program_of(compiler), file = fs::canonical(program, ignored).string();
        const Words itself = {"COLLECT_GCC=" + compiler, "InstalledDir: " + folder_of(program), "InstalledDir: " + folder_of(file)};
        const Words names = cut(text, "^(COLLECT_GCC=|InstalledDir: ).*$").found;
        return any(names, [&](const Bytes &it) { return has(itself, it); });
    }

    // What the driver would start, and the bytes of each program and file that it names.
    Bytes planned_by(const Words &words) {
        const Words parts = unpacked(of_driver(words, [&] { return plan(words); }));
        return told_text(planned = parts.at(0)) + parts.at(1);
    }
    Bytes plan(const Words &words) const {
        const Bytes own = store + "/scl-plan";
        need(has_folder(own), "no own folder: " + own);
        const Ran ran = run(Words{compiler, "-###"} + words, true, "TMPDIR=" + own);
        need(!ran.status, "the plan fails");
        const Bytes text = without(ran.err, "[^ =\"\n]*/scl-plan/[^ \"\n]*");  // (names of temporary files)
        Bytes sums;
        Paths paths;
        for (const Bytes &it : cut(text, "^ (" + string_pattern + "|[^ \"\n]+)").found)
            paths.insert(program_of(it[1] == '"' ? unquoted(it) : it.substr(1)));
        for (const Bytes &it : cut(text, string_pattern + "|[^ \"\n]+").found) {
            const Bytes word = it[0] == '"' ? unquoted(it) : it;
            paths.insert({word, word.substr(word.find('=') + 1)});
        }
        for (const Bytes &path : paths) {
            if (path.empty() || whole(path) == whole(input) || made.count(whole(path))) continue;
            ask(is_file(path) ? '=' : '?', path);
            if (is_file(path)) sums += packed({told(path), sum_of_program(path)});
        }
        return packed({text, sums});
    }

    // What the preprocessor writes, also into a file of the cache's own.
    Bytes preprocessed(Words words) {
        const Bytes own = store + "/own" + mine;
        const Words given = words;
        std::replace(words.begin(), words.end(), Bytes(1, '\0'), own);
        const Ran ran = run(Words{compiler} + words, true);
        const Bytes written = is_file(own) ? content(own) : "";
        unlink(own.c_str());
        do_all_count |= !ran.err.empty();
        if (ran.status && has_else && !has_failed) return has_failed = true, "failed";
        need(!ran.status, "a run fails");
        texts.push_back(ran.out);
        runs.push_back(given);
        take_markers(ran.out);
        const Bytes all = told_run(ran.out, is_clang ? "clang" : "gcc") + sum_of(told_text(unbroken(written)));
        static const Bytes loaded = "^#pragma GCC pch_preprocess " + string_pattern;  // precompiled headers
        return all + (has_failed ? read_all(each(cut(ran.out, loaded).found, unquoted)) : "");
    }

    // A header that came to stand in an earlier folder after a run is in the object, and in no text.
    bool do_runs_write_the_same() const {
        for (size_t i = 0; i < runs.size(); i++) {
            Words words = runs[i];
            std::replace(words.begin(), words.end(), Bytes(1, '\0'), Bytes("/dev/null"));
            if (run(Words{compiler} + words, true).out != texts[i]) return false;
        }
        return true;
    }

    // A line marker is `# N "P" FLAGS` or `#line N "P"`. The flag 1 stands where a file begins that is included.
    void take_markers(const Bytes &text) {
        static const Bytes marker = "^#(line)? [0-9]+ " + string_pattern + "[ 0-9]*$";
        static const Bytes other = "^[ \t]*([^# \t\n]|#[^ ldu]|# [^0-9])";  // (no blank line, marker or macro)
        const Words markers = cut(text, marker).found;
        const size_t before = cut(cut(text, other, 1).between[0], marker).found.size();
        need(!markers.empty() || !matches(text, "[^ \t\r\f\v]"), "a run hides its sources");
        for (size_t i = 0; i < markers.size(); i++) {
            const Bytes name = unquoted(markers[i]);
            if (matches(name, "^<|//$")) continue;
            if (!has(sources, name)) ask('=', name), sources.push_back(name);
            if (i < before && matches(markers[i], "\"[ 0-9]* 1[ 0-9]*$")) first.push_back(name);
        }
    }

    // The precompiled headers that a search can find (docs/PROTOCOL.md, A key): files, and files of folders.
    Words precompiled(const Words &pairs) {
        Words headers = first, folders, all;
        for (size_t i = 0; i + 1 < pairs.size(); i += 2) {
            const Bytes &what = pairs[i], &name = pairs[i + 1];
            if (what == "header") headers.push_back(name);
            if (what == "folder") folders.push_back(name);
            if (what == "beside") folders.push_back(folder_of(name));
            if (what == "variable" && getenv(name.c_str())) folders = folders + cut(getenv(name.c_str()), ":").between;
        }
        Paths paths;
        for (const Bytes &header : headers) folders.push_back(folder_of(header));
        for (const Bytes &header : headers + sources) paths.insert(header + ".gch");
        for (const Bytes &header : headers)
            for (size_t at = 0; at <= header.size(); at = std::min(header.find('/', at), header.size()) + 1)
                for (const Bytes &folder : folders) paths.insert(inside(folder, header.substr(at)) + ".gch");
        for (const Bytes &path : paths)
            for (const Bytes &it : Words{path} + files_in(path)) {
                if (made.count(whole(it))) continue;
                ask('=', it);
                if (kind_of(it) && !is_folder(it)) all.push_back(it);
            }
        return do_all_count |= !all.empty(), all;
    }

    // No base is left within a word, and no message may quote one from a source.
    bool is_told(const Bytes &messages) const {
        const Bytes told = told_text(messages);
        const auto names_base = [](const Bytes &path) { return is_file(path) && has_base(content(path)); };
        return !has_base(told) && (told == messages || !any(sources, names_base));
    }

    // ---- 4. direct mode: the key is remembered. What was read for it is asked already; so only what may come is not

    bool has_direct_mode() const {
        static const Words known = {"env", "search", "first", "named", "refuse-if-read"};
        const auto is_known = [](const Words &row) { return row.size() > 1 && has(known, row[0]); };
        return !direct.empty() && std::all_of(direct.begin(), direct.end(), is_known);
    }
    // The fields of all rows `direct` of a name.
    Words fields_of(const Bytes &name) const {
        Words all;
        for (const Words &row : direct) if (row[0] == name) all.insert(all.end(), row.begin() + 1, row.end());
        return all;
    }
    // Whether there is each name that a source asks for, in each folder; passes the key on.
    Bytes ask_where_headers_are(const Bytes &key) const try {
        const Bytes patterns = packed(fields_of("named") + fields_of("refuse-if-read"));
        const Words folders = unpacked(of_driver(fields_of("search"), [&] { return searched_folders(); }));
        const auto ask_for = [&](const Bytes &name, const Bytes &beside) {
            for (const Bytes &folder : folders + Words{beside}) ask('?', inside(folder, name));
        };
        for (const Bytes &path : folders) ask('@', path);
        for (const Bytes &header : fields_of("first")) ask_for(header, "");
        for (const Bytes &path : all_sources()) {
            ask('=', path);
            const Bytes what = "names" + patterns + path + Stamp(path).text;
            for (const Bytes &name : unpacked(remembered(what, [&] { return names_in(path); })))
                ask_for(name, folder_of(path));
        }
        return key;
    } catch (const KeepNothing &) { return keep_no_finding(), key; }

    // The names that a source includes or asks for.
    Bytes names_in(const Bytes &path) const {
        const Bytes text = without(content(path), "\\\\[ \t\r\v\f]*\n");
        Words all;
        for (const Bytes &pattern : fields_of("refuse-if-read")) need(!matches(text, pattern), "no list can say this");
        for (const Bytes &pattern : fields_of("named"))
            for (const Bytes &it : cut(text, pattern).found) {
                const size_t from = it.find_first_of("<\"") + 1;
                all.push_back(it.substr(from, it.size() - from - 1));
            }
        return packed(all);
    }
    // The folders in which the compiler looks for headers, as it says itself.
    Bytes searched_folders() const {
        const Ran ran = run(Words{compiler} + fields_of("search"), true, "LC_ALL=C");
        const Cut list = cut(ran.err, "search starts here:$|^End of search list[.]$");
        need(!ran.status && list.found.size() > 1 && list.found.back()[0] == 'E', "no list of folders");
        Words all;
        for (size_t i = 1; i < list.found.size(); i++) {
            need(!matches(list.between[i], "\\((framework directory|headermap)\\)$"), "a folder of another kind");
            for (const Bytes &line : cut(list.between[i], "^ .*$").found) all.push_back(line.substr(1));
        }
        for (const Bytes &line : cut(ran.err, "^ignoring .* directory \".*\"$").found)
            all.push_back(cut(line, "\"").between.at(1));
        for (const Bytes &folder : all) ask('@', folder);
        return packed(all);
    }
};

// ---- 5. a miss: compile, and keep what came, if all is as it was

// Built commands force colours.
static void show(const Bytes &messages, const Key &key) {
    const Bytes it = key.has_colors ? messages : without(messages, "\x1b\\[[0-9;]*[mK]");
    fwrite(it.data(), 1, it.size(), stderr);
}

// The compiler's status.
static int compile(const Key &key, const Bytes &name, bool &is_kept) {
    std::map<Bytes, Bytes> before;
    Words parts;
    for (const Bytes &it : recalled) if (it[0] == '=') note(it.substr(1));
    for (const auto &it : key.outputs) before[it.first] = Stamp(it.first).text;
    const Ran ran = run(Words{key.compiler} + key.command, false);
    need(ran.status != 126 && ran.status != 127, "it can't be started");  // (it may have too many words)
    fwrite(ran.out.data(), 1, ran.out.size(), stdout);
    show(ran.err, key);
    is_kept = !ran.status && ran.out.empty() && key.do_runs_write_the_same() && is_as_it_was() && key.is_told(ran.err);
    for (const auto &[path, may_lack] : key.outputs) {
        const bool is_written = is_file(path) && Stamp(path).text != before[path], has_rules = key.rules.count(path);
        const Bytes text = is_written ? content(path) : "", kept = has_rules ? told_text(text) : text;
        if (is_written) parts.insert(parts.end(), {told(path), kept});
        is_kept = is_kept && (is_written || may_lack) && !(has_rules && has_base(kept));
    }
    if (is_kept) put(name, Words{told_text(ran.err)} + parts);
    return ran.status;
}

// ---- 6. a hit: put back what was kept. False: there is no whole entry

static bool restore(const Key &key, const Bytes &name) {
    Words parts;
    if (!get(name, parts)) return false;
    for (size_t i = 1; i + 1 < parts.size(); i += 2) {
        const Bytes path = put_back(parts[i]), text = key.rules.count(path) ? put_back(parts[i + 1]) : parts[i + 1];
        if (key.outputs.count(path)) need(write_file(path, text), "can't be written: " + path);
    }
    return show(put_back(parts.at(0)), key), true;
}

// ---- what is said of the cache

// A byte a call, and at each 64th a look at the size.
static void count(const Bytes &what, const Bytes &why, char **words) {
    try {
        const int counts = open_own(store + "/counts", O_WRONLY | O_APPEND | O_CREAT);
        if (write(counts, &what[0], 1) == 1 && lseek(counts, 0, SEEK_END) % 64 == 0) remove_oldest();
        close(counts);
    } catch (const KeepNothing &) {}  // (it can't be written: then nothing is counted)
    if (!getenv("CACHE_LOG")) return;
    Bytes line = what + " " + why + " |";
    for (; *words; words++) line += Bytes(" ") + *words;
    std::replace(line.begin(), line.end(), '\n', ' ');  // (a name may have one)
    std::ofstream(getenv("CACHE_LOG"), std::ios::app) << line + "\n";
}
static int print_counts() {
    const Bytes all = stored(store + "/counts");
    for (const char *what : {"direct", "hit", "miss", "unkept", "given"})
        printf("%s %td\n", what, std::count(all.begin(), all.end(), *what));
    return 0;
}
// Writes down the rows that the last miss of the same output did not have, or with another answer.
static void note_why(const Key &key) {
    const Bytes name = sum_of("why" + packed(Words(made.begin(), made.end())));
    Words now, before;
    get(name, before);
    Bytes why;
    for (const Row &row : key.rows) {
        now.push_back(packed(row.words) + row.sum);
        if (!has(before, now.back())) why += row.words[0] + " " + (row.words.size() > 1 ? row.words[1] : "") + "\n";
    }
    write_file(store + "/why", why);
    put(name, now);
}

static int call(char **words) try {
    Key key(words[0], described(words[0], words + 1));
    const Bytes name = key.find();
    const bool is_direct = key.texts.empty() && !key.direct.empty();
    if (restore(key, name)) return count(is_direct ? "direct" : "hit", name, words), 0;
    if (!is_direct) note_why(key);
    bool is_kept = false;
    const int status = compile(key, name, is_kept);
    return count(is_kept ? "miss" : "unkept", name, words), status;
} catch (const std::exception &it) {
    count("given", it.what(), words);
    execvp(words[0], words);
    const int status = errno == ENOENT ? 127 : 126;
    return perror(words[0]), status;
}

// The store, and what is written in it by its name; empty, if all is one's own.
static Bytes strange() try {
    fs::create_directories(folder_of(store), ignored);
    if (!has_folder(store)) return store + ": no folder of your own that only you may write";
    for (const char *name : {"/counts", "/why"}) close(open_own(store + name, O_RDONLY));
    return "";
} catch (const KeepNothing &it) { return it.what(); }

int main(int number, char **words) {
    const Bytes first = number > 1 ? words[1] : "-", named = value_of("CACHE").substr(1), home = value_of("HOME").substr(1);
    store = whole(named.empty() ? home + "/.cache/scl" : named);
    store.erase(store.find_last_not_of('/') + 1);  // (with a slash at its end a link would be followed)
    if (const Bytes why = strange(); !why.empty()) return fprintf(stderr, "cache: %s\n", why.c_str()), 64;
    if (first == "--stats") return print_counts();
    if (first == "--why") return printf("%s", stored(store + "/why").c_str()), 0;
    if (first[0] == '-') return fprintf(stderr, "usage: cache COMPILER WORD .. | cache --stats | cache --why\n"), 64;
    return call(words + 1);
}
