// Writes a bench text of SIZE inputs whose names all have one hash under the hasher that the kit's maps take where
// they are given none, whose seed is fixed: `write_colliding SIZE > text.bench`. The reader must take about as long
// for it as for any text of its size, since it hashes by a seed of the text.
#include <cstdint>
#include <cstdio>
#include <cstdlib>
#include <cstring>

static const uint64_t SEED = 0x243f6a8885a308d3, MULTIPLIER = 0x9e3779b97f4a7c15;

static uint64_t folded(uint64_t a, uint64_t b) {
    unsigned __int128 product = (unsigned __int128)a * b;
    return (uint64_t)product ^ (uint64_t)(product >> 64);
}

static bool is_letter(unsigned char byte) {
    return 33 <= byte && byte <= 126 && !strchr("(),=#", byte);
}

static bool are_letters(uint64_t word) {
    for (int i = 0; i < 8; i++)
        if (!is_letter((unsigned char)(word >> 8 * i))) return false;
    return true;
}

int main(int count, char **words) {
    long size = count == 2 ? atol(words[1]) : 0;
    // A name is 32 letters: a number in letters, eight that are fixed, eight that make up for the number's
    // effect on the state, and eight that are fixed.
    const char *fixed = "abcdefgh";
    uint64_t last;
    memcpy(&last, fixed, 8);
    for (uint64_t number = 0; size > 0; number++) {
        uint64_t first = 0;
        for (int i = 0; i < 8; i++) first |= (uint64_t)('a' + (number >> 4 * i & 15)) << 8 * i;
        uint64_t state = folded(first ^ (SEED + 32), last ^ MULTIPLIER);
        uint64_t makes_up = state ^ 0x5a5a5a5a5a5a5a5a;
        if (!are_letters(makes_up)) continue;
        char name[33] = {};
        memcpy(name, &first, 8);
        memcpy(name + 8, fixed, 8);
        memcpy(name + 16, &makes_up, 8);
        memcpy(name + 24, fixed, 8);
        printf("INPUT(%s)\n", name);
        size--;
    }
}
