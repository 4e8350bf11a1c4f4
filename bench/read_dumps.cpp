// Reads two dumps from standard input, one behind the other, as plain programs do: `read_dumps words | bytes | lists`.
//   words  takes word by word with `>>`
//   bytes  goes over the bytes and counts the words
//   lists  puts each change behind the list of its code, as a comparison has to know them
// Prints how many words or changes there were.
#include <cstdint>
#include <cstdio>
#include <cstring>
#include <iostream>
#include <iterator>
#include <string>
#include <vector>

static bool is_space(unsigned char c) { return (c >= 9 && c <= 13) || c == 32; }

static std::size_t words() {
    std::string word;
    std::size_t count = 0;
    while (std::cin >> word) count++;
    return count;
}

static std::size_t bytes() {
    static char block[1 << 16];
    std::size_t count = 0;
    bool inside = false;
    while (std::size_t length = std::fread(block, 1, sizeof block, stdin))
        for (std::size_t at = 0; at < length; at++) {
            bool space = is_space(block[at]);
            count += !space && !inside;
            inside = !space;
        }
    return count;
}

struct Change {
    std::uint64_t time;
    char value;
};

// The text of standard input.
static std::string text() {
    std::string all;
    static char block[1 << 16];
    while (std::size_t length = std::fread(block, 1, sizeof block, stdin)) all.append(block, length);
    return all;
}

// The number that a code of this program's dumps spells.
static std::size_t number(const char* code, const char* end) {
    std::size_t spelled = 0;
    while (end > code) spelled = spelled * 94 + (unsigned char)(*--end - 32);
    return spelled;
}

static std::size_t lists() {
    std::string all = text();
    std::vector<std::vector<Change>> lists;
    std::uint64_t time = 0, count = 0;
    bool declares = true;
    std::size_t first = 0;
    for (const char *at = all.data(), *end = at + all.size(); at < end;) {
        while (at < end && is_space(*at)) at++;
        const char* word = at;
        while (at < end && !is_space(*at)) at++;
        if (word == at) break;
        if (*word == '$') {
            if (!declares && at - word == 10 && !std::memcmp(word, "$timescale", 10)) declares = true, first = lists.size();
            if (at - word == 15 && !std::memcmp(word, "$enddefinitions", 15)) declares = false, time = 0;
        } else if (!declares && *word == '#') {
            time = 0;
            for (const char* digit = word + 1; digit < at; digit++) time = time * 10 + (*digit - '0');
        } else if (!declares) {
            std::size_t list = first + number(word + 1, at);
            if (list >= lists.size()) lists.resize(list + 1);
            lists[list].push_back({time, *word});
            count++;
        }
    }
    return count;
}

int main(int argc, char** argv) {
    std::string how = argc == 2 ? argv[1] : "";
    if (how != "words" && how != "bytes" && how != "lists") {
        std::fprintf(stderr, "usage: read_dumps words | bytes | lists\n");
        return 2;
    }
    std::printf("%zu\n", how == "words" ? words() : how == "bytes" ? bytes() : lists());
}
