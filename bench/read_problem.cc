// A plain reader of DIMACS minimum-cost flow problems in C++, which bench/run measures beside netflow's: one loop over the
// bytes with all of its tests. It prints the counts, or the fault and its line, and on standard error the time in microseconds.
// usage: read_problem FILE
#include <cstdint>
#include <cstdio>
#include <ctime>
#include <fstream>
#include <iterator>
#include <limits>
#include <string>
#include <vector>

struct Arc {
    uint32_t src, dst;
    int64_t low, cap, cost;
};

struct Problem {
    std::vector<int64_t> supplies;
    std::vector<Arc> arcs;
};

struct Fault {
    int number = 0;
    size_t line = 0;
};

static const size_t TEXT_LIMIT = 64 * 1024 * 1024;
static const int64_t NODE_LIMIT = 20000, ARC_LIMIT = 200000, FLOW_LIMIT = 1000000000000000000, COST_LIMIT = 1000000000000;
static const int64_t GREATEST = std::numeric_limits<int64_t>::max();

static bool is_blank(char byte) { return byte == ' ' || byte == '\t'; }

// A line: from `at` to `end`.
struct Line {
    const char *at, *end;

    void skip_blanks() {
        while (at < end && is_blank(*at)) at++;
    }

    bool is_done() {
        skip_blanks();
        return at == end;
    }

    // The next field, an optional sign and digits, cut off near the ends of 64 bits, which is past all limits.
    bool number(int64_t &value) {
        skip_blanks();
        bool negative = false;
        if (at < end && (*at == '-' || *at == '+')) negative = *at++ == '-';
        if (at == end || *at < '0' || *at > '9') return false;
        uint64_t size = 0;
        for (; at < end && *at >= '0' && *at <= '9'; at++) {
            size = size >= uint64_t(GREATEST) / 10 ? uint64_t(GREATEST) : size * 10 + (*at - '0');
        }
        if (at < end && !is_blank(*at)) return false;
        value = negative ? -int64_t(size) : int64_t(size);
        return true;
    }

    bool numbers(int64_t *values, int count) {
        for (int i = 0; i < count; i++)
            if (!number(values[i])) return false;
        return is_done();
    }
};

static bool is_past(int64_t limit, int64_t number) { return number > limit || number < -limit; }

struct Reader {
    Problem problem;
    std::vector<bool> named;
    size_t arc_count = 0;
    bool has_problem = false;

    bool place(int64_t node, uint32_t &place) const {
        if (node < 1 || node > int64_t(problem.supplies.size())) return false;
        place = uint32_t(node - 1);
        return true;
    }

    int problem_line(Line line) {
        line.skip_blanks();
        int64_t v[2];
        if (line.end - line.at < 3 || line.at[0] != 'm' || line.at[1] != 'i' || line.at[2] != 'n') return 70;
        line.at += 3;
        if ((line.at < line.end && !is_blank(*line.at)) || !line.numbers(v, 2)) return 70;
        if (has_problem) return 72;
        if (v[0] < 1 || v[1] < 0) return 75;
        if (v[0] > NODE_LIMIT || v[1] > ARC_LIMIT) return 77;
        has_problem = true;
        problem.supplies.assign(v[0], 0);
        named.assign(v[0], false);
        arc_count = v[1];
        problem.arcs.reserve(arc_count);
        return 0;
    }

    int node_line(Line line) {
        int64_t v[2];
        uint32_t node;
        if (!line.numbers(v, 2)) return 70;
        if (!has_problem) return 71;
        if (!problem.arcs.empty()) return 72;
        if (!place(v[0], node)) return 73;
        if (named[node]) return 74;
        if (is_past(FLOW_LIMIT, v[1])) return 77;
        problem.supplies[node] = v[1];
        named[node] = true;
        return 0;
    }

    int arc_line(Line line) {
        int64_t v[5];
        Arc arc;
        if (!line.numbers(v, 5)) return 70;
        if (!has_problem) return 71;
        if (problem.arcs.size() >= arc_count) return 75;
        if (!place(v[0], arc.src) || !place(v[1], arc.dst)) return 73;
        if (v[2] > FLOW_LIMIT || v[3] > FLOW_LIMIT || is_past(COST_LIMIT, v[4])) return 77;
        if (v[2] < 0 || v[2] > v[3]) return 76;
        arc.low = v[2], arc.cap = v[3], arc.cost = v[4];
        problem.arcs.push_back(arc);
        return 0;
    }

    int line(Line line) {
        if (line.is_done()) return 0;
        const char kind = *line.at++;
        if (kind == 'c') return 0;
        if (line.at < line.end && !is_blank(*line.at)) return 70;
        switch (kind) {
        case 'p': return problem_line(line);
        case 'n': return node_line(line);
        case 'a': return arc_line(line);
        default: return 70;
        }
    }

    Fault read(const char *at, const char *end) {
        if (size_t(end - at) > TEXT_LIMIT) return {77, 1};
        size_t number = 1;
        for (; at < end; number++) {
            const char *stop = at;
            while (stop < end && *stop != '\n') stop++;
            const bool fed = stop < end;
            const bool returned = fed && stop > at && stop[-1] == '\r';
            const int fault = line(Line{at, returned ? stop - 1 : stop});
            if (fault != 0) return {fault, number};
            at = fed ? stop + 1 : stop;
        }
        if (!has_problem) return {71, number};
        if (problem.arcs.size() < arc_count) return {75, number};
        return {};
    }
};

static int64_t microseconds() {
    timespec now;
    clock_gettime(CLOCK_THREAD_CPUTIME_ID, &now);
    return int64_t(now.tv_sec) * 1000000 + now.tv_nsec / 1000;
}

int main(int count, char **words) {
    if (count != 2) return 64;
    std::ifstream file(words[1], std::ios::binary);
    const std::string text((std::istreambuf_iterator<char>(file)), std::istreambuf_iterator<char>());
    const int64_t start = microseconds();
    Reader reader;
    const Fault fault = reader.read(text.data(), text.data() + text.size());
    const int64_t spent = microseconds() - start;
    if (fault.number != 0) {
        std::printf("E%d %zu\n", fault.number, fault.line);
        return 3;
    }
    std::printf("%zu nodes, %zu arcs\n", reader.problem.supplies.size(), reader.problem.arcs.size());
    std::fprintf(stderr, "read %lld us\n", static_cast<long long>(spent));
    return 0;
}
