// The recurrences of a preparation in C++, for a comparison with the proved one: the same rows, of a
// polynomial of degree 8 in Y at k = 2, and the same layout. Each series keeps its coefficients in
// rows along the first variable, so that a coefficient of a product is a sum of products of two
// contiguous lists, one of them read backwards, which is exact and reduced once.
// Words: DEGREE MODULUS TIMES. It prints the degrees, the checksum, and nanoseconds for one
// preparation, the least of TIMES.
#include <algorithm>
#include <chrono>
#include <cstdint>
#include <cstdio>
#include <cstdlib>
#include <vector>

using Wide = unsigned __int128;
using Part = std::vector<uint64_t>;  // coefficients by the power of the first variable
using Row = std::vector<Part>;       // parts by the power of Y

static const int K = 2, Q = 6;
static uint64_t state = 88172645463325252ull;

static uint64_t next_number() {
    state ^= state << 13;
    state ^= state >> 7;
    state ^= state << 17;
    return state;
}

static Part part_at(int degree, int j, uint64_t m) {
    if (degree == 0 && j <= 2) return Part{uint64_t(j == 2)};
    Part part(degree + 1);
    for (uint64_t& c : part) c = next_number() % (m - 1) + 1;
    return part;
}

// an exact sum of products: 192 bits, or the halves of products below 2^64 apart
struct Exact {
    Wide low = 0, high = 0;

    void add_wide(const uint64_t* a, const uint64_t* w, int n) {
        Wide sum = low;
        uint64_t carries = 0;
        for (int i = 0; i < n; i++) {
            Wide product = (Wide)a[i] * w[-i];
            sum += product;
            carries += sum < product;
        }
        low = sum;
        high += carries;
    }

    void add_halves(const uint64_t* a, const uint64_t* w, int n) {
        uint64_t below = 0, above = 0;
        for (int i = 0; i < n; i++) {
            uint64_t product = (uint64_t)(uint32_t)a[i] * (uint32_t)w[-i];
            below += (uint32_t)product;
            above += product >> 32;
        }
        low += below + ((Wide)above << 32);
    }

    uint64_t residue(uint64_t m) const {
        Wide top = ((~(Wide)0) % m + 1) % m;  // 2^128
        return (low % m + high % m * top) % m;
    }
};

// a series in two variables: at row g the coefficients of x^p y^g
struct Series {
    std::vector<std::vector<uint64_t>> rows;

    void push(const Part& part) {
        int degree = part.size() - 1;
        rows.emplace_back();
        for (int p = 0; p <= degree; p++) rows[degree - p].push_back(part[p]);
    }
};

static void add_product_at(Exact& sum, const Series& a, const Series& w, int p, int g, bool small) {
    for (int e = 0; e <= g && e < (int)a.rows.size(); e++) {
        if (g - e >= (int)w.rows.size()) continue;
        const auto& left = a.rows[e];
        const auto& right = w.rows[g - e];
        int first = std::max(0, p - (int)right.size() + 1), end = std::min(p + 1, (int)left.size());
        if (first >= end) continue;
        if (small) sum.add_halves(&left[first], &right[p - first], end - first);
        else sum.add_wide(&left[first], &right[p - first], end - first);
    }
}

struct Prep {
    std::vector<Row> p, u;
    std::vector<Series> of_p{K}, of_u{Q + 1};
};

// the part of `start` less that of the product of the first `count` series of p with those of u at Y^l
static Part less_crossed(const Prep& prep, const Part& start, int count, int l, uint64_t m) {
    int degree = start.size() - 1;
    Part part(degree + 1);
    bool small = m >> 32 == 0;
    for (int p = 0; p <= degree; p++) {
        Exact sum;
        for (int h = 0; h < count; h++)
            if (l - h <= Q) add_product_at(sum, prep.of_p[h], prep.of_u[l - h], p, degree - p, small);
        uint64_t taken = sum.residue(m);
        part[p] = start[p] >= taken ? start[p] - taken : start[p] + (m - taken);
    }
    return part;
}

static Prep prepared(const std::vector<Row>& rows, uint64_t m) {
    Prep prep;
    prep.p.push_back({{0}, {0}, {1}});
    prep.u.push_back(Row(rows[0].begin() + K, rows[0].end()));
    for (int i = 0; i < K; i++) prep.of_p[i].push(prep.p[0][i]);
    for (int j = 0; j <= Q; j++) prep.of_u[j].push(prep.u[0][j]);
    for (int r = 1; r < (int)rows.size(); r++) {
        prep.p.emplace_back();
        for (int i = 0; i < K; i++) {
            Part part = less_crossed(prep, rows[r][i], i + 1, i, m);
            for (uint64_t& c : part) c = (Wide)c * prep.p[0][K][0] % m;  // the unit's inverse is 1
            prep.of_p[i].push(part);
            prep.p[r].push_back(part);
        }
        prep.p[r].push_back(Part(r + 1));
        Row next;
        for (int j = 0; j <= Q; j++) next.push_back(less_crossed(prep, rows[r][K + j], K, K + j, m));
        for (int j = 0; j <= Q; j++) prep.of_u[j].push(next[j]);
        prep.u.push_back(next);
    }
    return prep;
}

static uint64_t checksum(uint64_t total, const Row& row, uint64_t m) {
    for (const Part& part : row)
        for (size_t i = part.size(); i-- > 0;)
            if (part[i]) total = ((Wide)total * 31 + part[i]) % m;
    return total;
}

static double now() {
    auto since = std::chrono::steady_clock::now().time_since_epoch();
    return std::chrono::duration<double, std::nano>(since).count();
}

int main(int count, char** words) {
    if (count != 4) return 2;
    int degree = atoi(words[1]), times = atoi(words[3]);
    uint64_t m = strtoull(words[2], nullptr, 10), sum = 0;
    std::vector<Row> rows;
    for (int r = 0; r <= degree; r++) {
        rows.emplace_back();
        for (int j = 0; j <= K + Q; j++) rows[r].push_back(part_at(r, j, m));
    }
    double best = 0;
    for (int i = 0; i < times; i++) {
        double start = now();
        Prep prep = prepared(rows, m);
        double taken = now() - start;
        if (i == 0 || taken < best) best = taken;
        sum = checksum(checksum(0, prep.p.back(), m), prep.u.back(), m);
    }
    printf("%d %llu %.0f\n", degree + 1, (unsigned long long)sum, best);
}
