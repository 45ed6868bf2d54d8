// Texts, their words by number and their tokens, and members, of bench/floor.cc.
#pragma once
#include <cctype>
#include <cstdint>
#include <cstdio>
#include <cstdlib>
#include <cstring>
#include <string>
#include <string_view>
#include <vector>

using std::string_view;
using std::vector;

[[noreturn]] inline void fail(const char *what) { std::fprintf(stderr, "floor: %s\n", what); std::exit(1); }

inline void want(bool holds, const char *what) { if (!holds) fail(what); }

// A member: twice a number, or twice a word's number and one.
using Member = int64_t;
constexpr Member nothing = INT64_MIN;
inline Member of_number(int64_t number) { return number * 2; }
inline int64_t number_of(Member member) { want((member & 1) == 0, "a name where a number is needed"); return member / 2; }

inline uint64_t mixed(uint64_t hash, uint64_t value) {
    unsigned __int128 product = (unsigned __int128)(hash ^ 0x9E3779B97F4A7C15) * (value ^ 0xD1B54A32D192ED03);
    return uint64_t(product) ^ uint64_t(product >> 64);
}

// Places by hash, counted from 1; what stands at one is asked of the caller.
struct Places {
    vector<uint32_t> table = vector<uint32_t>(8);
    template <class Same> long find(uint64_t hash, Same same) const {
        size_t mask = table.size() - 1;
        for (size_t slot = hash & mask; table[slot]; slot = (slot + 1) & mask)
            if (same(table[slot] - 1)) return table[slot] - 1;
        return -1;
    }
    void enter(uint64_t hash, size_t place) {
        size_t mask = table.size() - 1, slot = hash & mask;
        while (table[slot]) slot = (slot + 1) & mask;
        table[slot] = place + 1;
    }
    // Takes in the last of so many.
    template <class Hash> void add(size_t count, Hash hash) {
        bool is_full = count * 8 > table.size() * 5;
        if (is_full) table.assign(table.size() * 2, 0);
        for (size_t place = is_full ? 0 : count - 1; place < count; place++) enter(hash(place), place);
    }
};

struct Words {
    Places places;
    vector<string_view> texts;
    static uint64_t hash(string_view text) {
        uint64_t sum = text.size(), part;
        for (; text.size() >= 8; text.remove_prefix(8)) std::memcpy(&part, text.data(), 8), sum = mixed(sum, part);
        part = 0;
        std::memcpy(&part, text.data(), text.size());
        return mixed(sum, part);
    }
    int64_t place(string_view text) {
        long found = places.find(hash(text), [&](size_t it) { return texts[it] == text; });
        if (found >= 0) return found;
        texts.push_back(text);
        places.add(texts.size(), [&](size_t it) { return hash(texts[it]); });
        return texts.size() - 1;
    }
};

enum class Kind : uint8_t { word, quoted, number, mark, end };
struct Token { Kind kind; int64_t value; };
// A mark of two characters is told by both.
constexpr int64_t both(char one, char two) { return one + 256 * two; }

inline bool in_word(unsigned char it) { return std::isalnum(it) || it == '_' || it >= 128; }

inline Token number_at(string_view text, size_t from, size_t to) {
    int64_t value = 0;
    for (size_t at = from + !std::isdigit(text[from]); at < to; at++) value = value * 10 + (text[at] - '0');
    return {Kind::number, text[from] == '-' ? -value : value};
}

inline vector<Token> tokens_of(string_view text, Words &words, bool is_data) {
    vector<Token> found;
    for (size_t at = 0; at < text.size();) {
        char it = text[at], next = at + 1 < text.size() ? text[at + 1] : 0;
        size_t from = at++;
        if (it == '#') { while (at < text.size() && text[at] != '\n') at++; continue; }
        if (it >= 0 && it <= ' ') continue;
        bool is_signed = is_data && (it == '-' || it == '+') && std::isdigit((unsigned char)next);
        if (in_word(it) || is_signed) {
            bool is_number = is_signed || std::isdigit((unsigned char)it);
            for (; at < text.size() && in_word(text[at]); at++) is_number = is_number && std::isdigit((unsigned char)text[at]);
            found.push_back(is_number ? number_at(text, from, at) : Token{Kind::word, words.place(text.substr(from, at - from))});
        } else if (it == '\'') {
            while (text[at] != '\'') at++;
            found.push_back({Kind::quoted, words.place(text.substr(from + 1, at++ - from - 1))});
        } else {
            bool is_double = (next == '=' && (it == ':' || it == '<' || it == '>')) || (it == '.' && next == '.');
            found.push_back({Kind::mark, is_double ? both(it, next) : it});
            at += is_double;
        }
    }
    found.push_back({Kind::end, 0});
    return found;
}

inline std::string text_of(const char *path) {
    std::FILE *file = std::fopen(path, "rb");
    want(file, "a file cannot be read");
    std::string text;
    char piece[1 << 16];
    for (size_t count; (count = std::fread(piece, 1, sizeof piece, file)) > 0;) text.append(piece, count);
    std::fclose(file);
    return text;
}
