// As caller.c, by the calls of picky.hpp.
#include "picky.hpp"
#include <cstdlib>
#include <fstream>
#include <iostream>
#include <iterator>
#include <sstream>

static std::string octets_of(const std::string &path) {
    if (path == "-") return {};
    std::ifstream file(path, std::ios::binary);
    return {std::istreambuf_iterator<char>(file), {}};
}

struct test_case {
    std::string kind, file, table, list;
    std::vector<std::string_view> words, files;

    // By a string or by a picky::Table.
    template <class Text> void call(Text &given) const {
        auto answer = kind == "chain" ? picky::chain(words, given, files)
                    : kind == "ask"   ? picky::questions(words, files)
                    : kind == "pe"    ? picky::check_program(words, file, given, list)
                                      : picky::check(words, file, given, list);
        std::cout << answer.status << ' ' << answer.line << (answer.line.empty() ? "" : "\n");
    }
};

static void parse(char step, picky::Table &table, const std::string &text) { std::cout << step << table.parse(text) << ' '; }

int main(int count, char **arguments) {
    if (count < 5) return 100;
    test_case test = {arguments[1], octets_of(arguments[2]), octets_of(arguments[3]), octets_of(arguments[4]), {arguments + 5, arguments + count}, {}};
    if (test.kind == "chain" || test.kind == "ask") {
        std::istringstream lengths(test.list);
        for (size_t at = 0, length; lengths >> length; at += length) test.files.push_back(std::string_view(test.file).substr(at, length));
    }
    auto steps = std::getenv("STEPS");
    if (!steps) test.call(test.table);
    picky::Table table;
    for (char step : std::string(steps ? steps : "")) {
        auto moved = std::move(table);
        if (step == 'c') test.call(moved);
        if (step == 'p') parse(step, moved, test.table);
        if (step == 'b') parse(step, moved, "x\n");
        if (step == 'e') parse(step, moved, "");
        if (step == 'l') parse(step, moved, octets_of(std::getenv("LONG")));
        if (step == 'f') moved.clear();
        table = std::move(moved);
    }
}
