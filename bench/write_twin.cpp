// Writes the bytes that the benchmark `write` writes, from the same changes in order of time: `write_twin SIZE`.
// Prints the number of bytes, and on standard error the time of the writing alone.
#include <algorithm>
#include <charconv>
#include <chrono>
#include <cstdio>
#include <cstdlib>
#include <cstring>
#include <memory>
#include <string_view>
#include <vector>

struct Change {
    unsigned time, net;
    char value;
};

// The code of a net: at most four bytes, the first `count` of `bytes`.
struct Code {
    char bytes[4];
    unsigned count;
};

static Code code(unsigned net) {
    Code made{};
    for (made.count = 0;; net = net / 94 - 1) {
        made.bytes[made.count++] = char(33 + net % 94);
        if (net < 94) return made;
    }
}

static char *put(char *to, std::string_view text) {
    return std::copy(text.begin(), text.end(), to);
}

static char *put(char *to, unsigned number) {
    return std::to_chars(to, to + 10, number).ptr;
}

// Copies all four bytes and goes on after those that count.
static char *put(char *to, const Code &code) {
    std::memcpy(to, code.bytes, sizeof code.bytes);
    return to + code.count;
}

static char *put_change(char *to, char value, const Code &code) {
    *to++ = value;
    to = put(to, code);
    *to++ = '\n';
    return to;
}

static char *put_stamp(char *to, unsigned time) {
    *to++ = '#';
    to = put(to, time);
    *to++ = '\n';
    return to;
}

// Three nets change at each of as many times as there are nets, in order of time, and at one time of net.
static std::vector<Change> changes_of(unsigned size) {
    std::vector<char> last(size, 'x');
    std::vector<Change> changes;
    for (unsigned time = 0; time < size; time++) {
        std::vector<unsigned> nets;
        for (unsigned part = 0; part < 3; part++) nets.push_back(unsigned((time * 7ull + part * 13ull) % size));
        std::sort(nets.begin(), nets.end());
        nets.erase(std::unique(nets.begin(), nets.end()), nets.end());
        for (unsigned net : nets) {
            last[net] = last[net] == '1' ? '0' : '1';
            changes.push_back({time, net, last[net]});
        }
    }
    return changes;
}

// Writes the dump from `to` on, and returns its end.
static char *put_dump(char *to, const std::vector<Change> &changes, const std::vector<Code> &codes,
                      const std::vector<char> &first) {
    unsigned size = unsigned(codes.size());
    to = put(to, "$timescale 1 ns $end\n$scope module top $end\n");
    for (unsigned net = 0; net < size; net++) {
        to = put(put(to, "$var wire 1 "), codes[net]);
        to = put(put(put(to, " n"), net), " $end\n");
    }
    to = put(to, "$upscope $end\n$enddefinitions $end\n#0\n$dumpvars\n");
    for (unsigned net = 0; net < size; net++) to = put_change(to, first[net], codes[net]);
    to = put(to, "$end\n");
    unsigned stamp = 0;
    for (const Change &change : changes) {
        if (change.time == 0) continue;
        if (change.time != stamp) to = put_stamp(to, stamp = change.time);
        to = put_change(to, change.value, codes[change.net]);
    }
    return stamp < size - 1 ? put_stamp(to, size - 1) : to;
}

int main(int count, char **words) {
    unsigned size = count == 2 ? unsigned(std::atoi(words[1])) : 0;
    if (size < 1 || size > 900'000) {
        std::fprintf(stderr, "the size is from 1 to 900,000\n");
        return 1;
    }
    std::vector<Change> changes = changes_of(size);
    std::vector<char> first(size, 'x');
    for (const Change &change : changes)
        if (change.time == 0) first[change.net] = change.value;

    auto start = std::chrono::steady_clock::now();
    std::vector<Code> codes(size);
    for (unsigned net = 0; net < size; net++) codes[net] = code(net);
    // At most 30 bytes to declare a net, 6 for its first value and for each change, 9 for a stamp.
    std::unique_ptr<char[]> out(new char[200 + 45 * size_t(size) + 6 * changes.size()]);
    char *end = put_dump(out.get(), changes, codes, first);
    auto stop = std::chrono::steady_clock::now();

    std::printf("write %u %zu\n", size, size_t(end - out.get()));
    std::fprintf(stderr, "write %u %lld us\n", size,
                 (long long)std::chrono::duration_cast<std::chrono::microseconds>(stop - start).count());
}
