// The calls of picky.h over strings, in C++17: an answer is a value, a table frees itself. picky.h says what
// the words are, and what each status means.
//
// Status 0 isn't enough to install a program. An accepted signature with an empty `path=` is vouched for by
// nobody: anyone can make its certificate. A path is worth what its last certificate is, since no root is
// checked. So compare the whole line with the one that you expect, and pin the signer's key (a table
// without rows of other keys) or find a path to a root that you trust (as the last certificate of
// picky::chain): docs/MANUAL.md, "Who signed". An answer has no truth value.
#ifndef PICKY_HPP
#define PICKY_HPP

#if __cplusplus < 201703L
#error "picky.hpp is written in C++17"
#endif

#include "picky.h"
#include <string>
#include <string_view>
#include <utility>
#include <vector>

namespace picky {

struct [[nodiscard]] answer {
    picky_status status;
    std::string line; // without the newline at its end; empty where there is none
};

// A word with a newline would be two, so it has the status PICKY_USAGE.

namespace detail {

using call = uint8_t (*)(const uint8_t *, size_t, const uint8_t *, size_t, const uint8_t *, size_t, const uint8_t *, size_t, uint8_t *, size_t, size_t *);

inline const uint8_t *octets(std::string_view text) { return reinterpret_cast<const uint8_t *>(text.data() ? text.data() : ""); }

inline std::string text_of(const std::vector<std::string_view> &words) {
    std::string text;
    for (size_t at = 0; at < words.size(); at++) (text += at ? "\n" : "") += words[at];
    return text;
}

inline bool has_newline(const std::vector<std::string_view> &words) {
    for (auto word : words) if (word.find('\n') != word.npos) return true;
    return false;
}

// The answer of a call with a buffer that has room for its line.
template <class Call> answer with_room(const std::vector<std::string_view> &words, Call call) {
    if (has_newline(words)) return {PICKY_USAGE, ""};
    for (std::string line(512, '\0');; line.resize(2 * line.size())) {
        size_t written = 0;
        auto status = call(reinterpret_cast<uint8_t *>(line.data()), line.size(), &written);
        if (status == PICKY_NO_ROOM) continue;
        line.resize(written > 0 ? written - 1 : 0);
        return {static_cast<picky_status>(status), line};
    }
}

inline answer run(call function, const std::vector<std::string_view> &words, std::string_view file, std::string_view table, std::string_view list) {
    auto text = text_of(words);
    return with_room(words, [&](uint8_t *line, size_t room, size_t *written) {
        return function(octets(text), text.size(), octets(file), file.size(), octets(table), table.size(), octets(list), list.size(), line, room, written);
    });
}

using call_with_table = uint8_t (*)(const uint8_t *, size_t, const uint8_t *, size_t, picky_table *, const uint8_t *, size_t, uint8_t *, size_t, size_t *);

inline answer run(call_with_table function, const std::vector<std::string_view> &words, std::string_view file, picky_table *table, std::string_view list) {
    auto text = text_of(words);
    return with_room(words, [&](uint8_t *line, size_t room, size_t *written) {
        return function(octets(text), text.size(), octets(file), file.size(), table, octets(list), list.size(), line, room, written);
    });
}

// Octets one after another, with their lengths.
struct pool {
    std::string octets;
    std::vector<size_t> lengths;
    explicit pool(const std::vector<std::string_view> &files) {
        for (auto file : files) octets += file, lengths.push_back(file.size());
        lengths.reserve(1); // so that its pointer isn't null
    }
};

} // namespace detail

// A verdict table that was parsed once, for many calls, one at a time.
class Table {
public:
    Table() = default;
    Table(const Table &) = delete;
    Table &operator=(const Table &) = delete;
    Table(Table &&other) noexcept : handle_(std::exchange(other.handle_, picky_table PICKY_NO_TABLE)) {}
    Table &operator=(Table &&other) noexcept {
        if (this != &other) {
            clear();
            std::swap(handle_, other.handle_);
        }
        return *this;
    }
    ~Table() { clear(); }

    // PICKY_ACCEPTED; or PICKY_BAD_TABLE or PICKY_OUT_OF_MEMORY, and the table is as it was.
    [[nodiscard]] picky_status parse(std::string_view text) {
        return static_cast<picky_status>(picky_table_parse(detail::octets(text), text.size(), &handle_));
    }

    // Without a table, the file TABLE isn't there.
    void clear() { picky_table_free(&handle_); }
    picky_table *handle() { return &handle_; }

private:
    picky_table handle_ = PICKY_NO_TABLE;
};

// Words name the files SIG, TABLE and LIST.
inline answer check(const std::vector<std::string_view> &words, std::string_view signature, std::string_view table, std::string_view list = "") {
    return detail::run(picky_check_bytes, words, signature, table, list);
}

inline answer check(const std::vector<std::string_view> &words, std::string_view signature, Table &table, std::string_view list = "") {
    return detail::run(picky_check_with_table, words, signature, table.handle(), list);
}

// Words name the files PROGRAM, TABLE and LIST.
inline answer check_program(const std::vector<std::string_view> &words, std::string_view program, std::string_view table, std::string_view list = "") {
    return detail::run(picky_pe_bytes, words, program, table, list);
}

inline answer check_program(const std::vector<std::string_view> &words, std::string_view program, Table &table, std::string_view list = "") {
    return detail::run(picky_pe_with_table, words, program, table.handle(), list);
}

// Words name the file TABLE and the certificates 0, 1 and so on.
inline answer chain(const std::vector<std::string_view> &words, std::string_view table, const std::vector<std::string_view> &certificates) {
    auto text = detail::text_of(words);
    detail::pool pool(certificates);
    return detail::with_room(words, [&](uint8_t *line, size_t room, size_t *written) {
        return picky_chain_bytes(detail::octets(text), text.size(), detail::octets(table), table.size(), detail::octets(pool.octets), pool.octets.size(),
                                 pool.lengths.data(), pool.lengths.size(), line, room, written);
    });
}

inline answer chain(const std::vector<std::string_view> &words, Table &table, const std::vector<std::string_view> &certificates) {
    auto text = detail::text_of(words);
    detail::pool pool(certificates);
    return detail::with_room(words, [&](uint8_t *line, size_t room, size_t *written) {
        return picky_chain_with_table(detail::octets(text), text.size(), table.handle(), detail::octets(pool.octets), pool.octets.size(),
                                      pool.lengths.data(), pool.lengths.size(), line, room, written);
    });
}

// Words name the files 0, 1 and so on. The line of the answer has a question a line.
inline answer questions(const std::vector<std::string_view> &words, const std::vector<std::string_view> &files) {
    auto text = detail::text_of(words);
    detail::pool pool(files);
    return detail::with_room(words, [&](uint8_t *line, size_t room, size_t *written) {
        return picky_ask_bytes(detail::octets(text), text.size(), detail::octets(pool.octets), pool.octets.size(), pool.lengths.data(), pool.lengths.size(),
                               line, room, written);
    });
}

} // namespace picky
#endif
