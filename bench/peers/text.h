// What the peers print: numbers, and text to standard output.
#pragma once

#include <unistd.h>

#include <array>
#include <charconv>
#include <cstdint>
#include <cstdio>
#include <cstdlib>
#include <cstring>
#include <string>

/// What the systems of a peer never come to, and words that it doesn't have.
[[noreturn]] inline void fail(const char *what) {
    std::fprintf(stderr, "peer: %s\n", what);
    std::exit(1);
}

inline void write_text(const char *text, size_t length) {
    while (length) {
        const ssize_t some = ::write(STDOUT_FILENO, text, length);
        if (some <= 0) fail("not written");
        text += some, length -= static_cast<size_t>(some);
    }
}

inline constexpr auto PAIRS = [] {
    std::array<char, 200> pairs{};
    for (size_t k = 0; k < 100; k++) pairs[2 * k] = static_cast<char>('0' + k / 10), pairs[2 * k + 1] = static_cast<char>('0' + k % 10);
    return pairs;
}();

inline char *put_pair(char *at, uint32_t pair) { return static_cast<char *>(std::memcpy(at, &PAIRS[2 * pair], 2)) + 2; }

/// Two digits at once: `std::to_chars` would be half of the whole.
inline char *put_digits(char *at, uint64_t wide) {
    if (wide >= 100'000'000) return std::to_chars(at, at + 20, wide).ptr;
    const uint32_t number = static_cast<uint32_t>(wide), high = number / 10'000, low = number % 10'000;
    if (number < 100) return put_pair(at, number);
    if (number >= 10'000) {
        if (high >= 1'000) at = put_pair(put_pair(at, high / 100), high % 100);
        else if (high >= 100) *at = static_cast<char>('0' + high / 100), at = put_pair(at + 1, high % 100);
        else if (high >= 10) at = put_pair(at, high);
        else *at++ = static_cast<char>('0' + high);
    } else if (number < 1'000) {
        *at = static_cast<char>('0' + number / 100);
        return put_pair(at + 1, number % 100);
    }
    return put_pair(put_pair(at, low / 100), low % 100);
}

inline char *put_number(char *at, uint64_t number) {
    if (number >= 10) return put_digits(at, number);
    *at = static_cast<char>('0' + number);
    return at + 1;
}
