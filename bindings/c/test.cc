// nfa.h in C++. Prints "c++: passed", or the line that failed.
#include "nfa.h"
#include <cstdio>
#include <string_view>

namespace {

// A handle that frees itself.
class Regex {
  public:
    explicit Regex(std::string_view pattern)
        : code(nfa_compile(&handle, pattern.data(), pattern.size(), nullptr, nullptr)) {}
    Regex(const Regex &) = delete;
    Regex &operator=(const Regex &) = delete;
    ~Regex() { nfa_free(&handle); }

    bool find(std::string_view hay, std::size_t start, nfa_match &found) {
        return nfa_find(&handle, hay.data(), hay.size(), start, &found) == NFA_FOUND;
    }

    nfa_regex handle = NFA_REGEX_INIT;
    std::int32_t code;
};

int stop(int line) {
    std::printf("line %d\n", line);
    return 1;
}

} // namespace

int main() {
    nfa_match found = {};
    Regex word("[a-z]+"), bad("("), any("");
    if (word.code != NFA_OK || bad.code != NFA_PATTERN || any.code != NFA_OK)
        return stop(__LINE__);
    if (!word.find("12 ab", 0, found) || found.start != 3 || found.end != 5)
        return stop(__LINE__);
    if (bad.find("12 ab", 0, found))
        return stop(__LINE__);
    if (!any.find(std::string_view(), 0, found) || found.end != 0)
        return stop(__LINE__);
    std::puts("c++: passed");
    return 0;
}
