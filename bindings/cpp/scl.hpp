// scl.hpp: scl.h for C++17, with memory that is given back by itself. It throws nothing itself and works with -fno-exceptions.
//
//     scl::Request request("gcc", {"-c", "a.c"});
//     if (const scl::Answer answer = request.ask()) for (std::string_view word : answer.command()) ..
//
// A request holds views of texts, not the texts: they must live until ask() returns. An answer's views live as long as the answer.
// Memory of std::vector is refused as std::vector does it; memory of an answer is Status::no_memory. Nothing is proved of this file.
#ifndef SCL_HPP
#define SCL_HPP
#include <cstddef>
#include <initializer_list>
#include <iterator>
#include <string_view>
#include <utility>
#include <vector>
#include "scl.h"

namespace scl {

inline scl_bytes bytes(std::string_view text) noexcept { return scl_bytes_of(text.data(), text.size()); }
inline std::string_view view(const scl_bytes &it) noexcept { return {reinterpret_cast<const char *>(it.at), it.len}; }

struct Pair {
    std::string_view key, value;
};

struct Output {
    std::string_view name, path;
    bool is_optional;
};

inline Pair pair(const scl_pair &it) noexcept { return {view(it.key), view(it.value)}; }
inline Output output(const scl_output &it) noexcept { return {view(it.name), view(it.path), it.is_optional}; }

// A list of an answer, of which each item is made by Make when it is looked at.
template <class From, class To, To (*Make)(const From &) noexcept> class List {
    const From *first_;
    std::size_t size_;

public:
    class Iterator {
        const From *at_;

    public:
        using iterator_category = std::input_iterator_tag;
        using value_type = To;
        using difference_type = std::ptrdiff_t;
        using pointer = const To *;
        using reference = To;

        explicit Iterator(const From *at) noexcept : at_(at) {}
        To operator*() const noexcept { return Make(*at_); }
        Iterator &operator++() noexcept {
            ++at_;
            return *this;
        }
        Iterator operator++(int) noexcept { return Iterator(at_++); }
        bool operator==(const Iterator &other) const noexcept { return at_ == other.at_; }
        bool operator!=(const Iterator &other) const noexcept { return at_ != other.at_; }
    };

    List(const From *first, std::size_t size) noexcept : first_(first), size_(size) {}
    Iterator begin() const noexcept { return Iterator(first_); }
    Iterator end() const noexcept { return Iterator(first_ + size_); }
    std::size_t size() const noexcept { return size_; }
    bool empty() const noexcept { return !size_; }
    To operator[](std::size_t at) const noexcept { return Make(first_[at]); }
};

using Words = List<scl_bytes, std::string_view, view>;
inline Words words(const scl_words &it) noexcept { return {it.at, it.len}; }
using Lists = List<scl_words, Words, words>;
using Pairs = List<scl_pair, Pair, pair>;
using Outputs = List<scl_output, Output, output>;

enum class Status {
    ok = SCL_OK,
    no_such_compiler = SCL_BAD,
    no_memory = SCL_NO_MEMORY,
    too_many_words = SCL_TOO_MANY_WORDS,
    newer = SCL_NEWER, // the library, or this header, does not know what the other says
    bad_catalogue = SCL_BAD_CATALOGUE
};

inline const char *sentence(Status status) noexcept {
    switch (status) {
    case Status::no_such_compiler: return "no such compiler";
    case Status::no_memory: return "out of memory";
    case Status::too_many_words: return "too many words";
    case Status::newer: return "not known to this library";
    case Status::bad_catalogue: return "a bad catalogue";
    default: return "answered";
    }
}

// A row of a key (docs/PROTOCOL.md, A key).
struct KeyRow {
    std::string_view name;
    Words fields;
    bool is_asked;        // its answer goes into the key
    bool is_named;        // of the row itself only the name goes into the key
    bool may_be_left_out; // the row goes into the key only if its macro counts
};

// An answer, or the status that says why there is none: then every list is empty, and nothing may be kept.
class Answer {
    scl_given given_;
    Status status_;

public:
    explicit Answer(const scl_request &request) noexcept : given_(), status_(static_cast<Status>(scl_ask_new(&request, &given_))) {}
    explicit Answer(Status status) noexcept : given_(), status_(status) { given_.answer = scl_no_answer(); }
    Answer(Answer &&other) noexcept : given_(other.given_), status_(other.status_) { other.given_.block = nullptr; }
    Answer(const Answer &) = delete;
    Answer &operator=(const Answer &) = delete;
    Answer &operator=(Answer &&other) noexcept {
        std::swap(given_, other.given_);
        std::swap(status_, other.status_);
        return *this;
    }
    ~Answer() { scl_free(&given_); }

    explicit operator bool() const noexcept { return status_ == Status::ok; }
    Status status() const noexcept { return status_; }
    // The structs of scl.h: what has no name here is there.
    const scl_answer &raw() const noexcept { return given_.answer; }
    const scl_record &record() const noexcept { return raw().record; }

    bool is_compiled() const noexcept { return status_ == Status::ok && raw().outcome == SCL_COMPILED; }
    bool is_refused() const noexcept { return status_ == Status::ok && raw().outcome == SCL_CANNOT_CACHE; }
    bool is_cacheable() const noexcept { return status_ == Status::ok && raw().is_cacheable; }
    std::string_view reason() const noexcept { return view(raw().reason); }
    std::string_view sentence() const noexcept { return view(raw().sentence); }
    std::string_view input() const noexcept { return view(record().input); }
    Words command() const noexcept { return words(raw().command); }
    Pairs environment() const noexcept { return {raw().environment.at, raw().environment.len}; }
    Outputs outputs() const noexcept { return {record().outputs.at, record().outputs.len}; }
    Lists runs() const noexcept { return {raw().runs.at, raw().runs.len}; }
    Words hazards() const noexcept { return words(raw().hazards); }
    Words wanted_files() const noexcept { return words(raw().questions.files); }
    Words wanted_directories() const noexcept { return words(raw().questions.directories); }
    Words wanted_existing() const noexcept { return words(raw().questions.existing); }
    Lists keep() const noexcept { return {raw().keep.at, raw().keep.len}; }
    std::size_t key_size() const noexcept { return raw().key.len; }
    KeyRow key_at(std::size_t at) const noexcept {
        const scl_key_row row = scl_key_at(&raw(), at);
        const Words fields = words(raw().key.at[at]);
        return {fields.empty() ? std::string_view() : fields[0], words(row.fields), row.is_asked, row.is_named, row.may_be_left_out};
    }
};

// A catalogue that is read once: that of a text over the built-in one, or the built-in one alone. It must live while a request asks it, and
// may be asked by any number of threads at once. If it is none, status() says why, and so do the answers to requests that are to ask it.
class Catalogue {
    scl_catalogue *handle_;
    std::size_t wrong_line_;
    Status status_;

public:
    explicit Catalogue(std::string_view text = {}) noexcept
        : handle_(nullptr), wrong_line_(0), status_(static_cast<Status>(scl_catalogue_new(bytes(text).at, text.size(), &handle_, &wrong_line_))) {}
    Catalogue(Catalogue &&other) noexcept : handle_(other.handle_), wrong_line_(other.wrong_line_), status_(other.status_) { other.handle_ = nullptr; }
    Catalogue(const Catalogue &) = delete;
    Catalogue &operator=(const Catalogue &) = delete;
    Catalogue &operator=(Catalogue &&other) noexcept {
        std::swap(handle_, other.handle_);
        std::swap(wrong_line_, other.wrong_line_);
        std::swap(status_, other.status_);
        return *this;
    }
    ~Catalogue() { scl_catalogue_free(handle_); }

    explicit operator bool() const noexcept { return handle_ != nullptr; }
    Status status() const noexcept { return status_; }
    // The number of the text's first wrong line, from 1; or 0.
    std::size_t wrong_line() const noexcept { return wrong_line_; }
    const scl_catalogue *raw() const noexcept { return handle_; }
};

// A request: its members `wants_..` and the others of scl_request are set in raw().
class Request {
    std::vector<scl_bytes> words_, directories_, existing_, settings_, bases_;
    std::vector<scl_pair> environment_, files_;
    scl_request raw_;
    scl_bytes compiler_;
    Status catalogue_ = Status::ok; // why there is none

public:
    explicit Request(std::string_view compiler, std::initializer_list<std::string_view> words = {})
        : raw_(scl_request_of("", nullptr, 0)), compiler_(bytes(compiler)) {
        for (std::string_view word : words) add_word(word);
    }

    scl_request &raw() noexcept { return raw_; }
    void set_directory(std::string_view path) noexcept { raw_.directory = bytes(path); }
    void set_catalogue(std::string_view text) noexcept { raw_.catalogue = bytes(text); }
    void set_catalogue(const Catalogue &it) noexcept {
        raw_.handle = it.raw();
        catalogue_ = it.status();
    }
    void set_catalogue(Catalogue &&) = delete;
    void add_word(std::string_view word) { words_.push_back(bytes(word)); }
    void add_variable(std::string_view name, std::string_view value) { environment_.push_back({bytes(name), bytes(value)}); }
    void add_file(std::string_view path, std::string_view text) { files_.push_back({bytes(path), bytes(text)}); }
    void add_directory(std::string_view path) { directories_.push_back(bytes(path)); }
    void add_existing(std::string_view path) { existing_.push_back(bytes(path)); }
    void add_setting(std::string_view line) { settings_.push_back(bytes(line)); }
    void add_base(std::string_view path) { bases_.push_back(bytes(path)); }

    [[nodiscard]] Answer ask() const noexcept {
        if (catalogue_ != Status::ok) return Answer(catalogue_);
        scl_request request = raw_;
        request.compiler = compiler_;
        request.words = scl_words_of(words_.data(), words_.size());
        request.environment = scl_pairs_of(environment_.data(), environment_.size());
        request.files = scl_pairs_of(files_.data(), files_.size());
        request.directories = scl_words_of(directories_.data(), directories_.size());
        request.existing = scl_words_of(existing_.data(), existing_.size());
        request.settings = scl_words_of(settings_.data(), settings_.size());
        request.bases = scl_words_of(bases_.data(), bases_.size());
        return Answer(request);
    }
};

} // namespace scl
#endif
