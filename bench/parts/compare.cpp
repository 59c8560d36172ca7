// Two ways in C++ to multiply homogeneous parts, for a comparison with the proved product:
//   plain   one remainder for each pair of terms, in cells of 64 bits
//   cells   cells of 128 bits that are reduced once at the end, as the proved product has them
// Each line: modulus, weights of the variables, the degree of a form, two powers of it, terms,
// pairs, and nanoseconds a pair for the plain product, the product in cells, and a hundred products
// in one list of cells.
#include <chrono>
#include <cstdint>
#include <cstdio>
#include <string>
#include <vector>

using Wide = unsigned __int128;

struct Term {
    uint16_t powers[8];
    uint64_t coefficient;
};

using Weights = std::vector<int>;

struct Placed {
    size_t place;
    uint64_t coefficient;
};

static uint64_t random_state = 88172645463325252ull;

static uint64_t next_random() {
    random_state ^= random_state << 13;
    random_state ^= random_state >> 7;
    random_state ^= random_state << 17;
    return random_state;
}

// all monomials of a degree by the weights, by falling powers of the first variable, then the next
static void add_terms(std::vector<Term>& terms, Term term, const Weights& weights, size_t variable,
                      int left, uint64_t m) {
    int weight = weights[variable];
    if (variable == weights.size() - 1) {
        if (left % weight != 0) return;
        term.powers[variable] = left / weight;
        term.coefficient = next_random() % (m - 1) + 1;
        terms.push_back(term);
        return;
    }
    for (int power = left / weight; power >= 0; power--) {
        term.powers[variable] = power;
        add_terms(terms, term, weights, variable + 1, left - weight * power, m);
    }
}

static std::vector<Term> all_terms(const Weights& weights, int degree, uint64_t m) {
    std::vector<Term> terms;
    add_terms(terms, Term{}, weights, 0, degree, m);
    return terms;
}

// how many powers of a variable a degree has room for
static int base_of(int weight, int degree) { return degree / weight + 1; }

// the powers of all variables but the last, each a digit in a base of its own
static size_t place_of(const Term& term, const Weights& weights, int degree) {
    size_t place = 0;
    for (size_t i = 0; i + 1 < weights.size(); i++)
        place = place * base_of(weights[i], degree) + term.powers[i];
    return place;
}

static std::vector<Placed> placed(const std::vector<Term>& terms, const Weights& weights,
                                  int degree) {
    std::vector<Placed> row;
    for (const Term& t : terms) row.push_back({place_of(t, weights, degree), t.coefficient});
    return row;
}

static std::vector<Term> collected(const std::vector<Wide>& cells, const Weights& weights,
                                   int degree, uint64_t m) {
    int n = weights.size();
    std::vector<Term> terms;
    for (size_t at = cells.size(); at-- > 0;) {
        if (cells[at] == 0) continue;
        uint64_t coefficient = cells[at] % m;
        Term term{};
        int left = degree;
        size_t rest = at;
        for (int i = n - 2; i >= 0; i--) {
            int base = base_of(weights[i], degree);
            term.powers[i] = rest % base;
            left -= weights[i] * term.powers[i];
            rest /= base;
        }
        if (coefficient == 0 || left < 0 || left % weights[n - 1] != 0) continue;
        term.powers[n - 1] = left / weights[n - 1];
        term.coefficient = coefficient;
        terms.push_back(term);
    }
    return terms;
}

static void add_plain(std::vector<uint64_t>& cells, const std::vector<Placed>& a,
                      const std::vector<Placed>& b, uint64_t m) {
    for (const Placed& x : a)
        for (const Placed& y : b) {
            uint64_t& cell = cells[x.place + y.place];
            cell = ((Wide)x.coefficient * y.coefficient + cell) % m;
        }
}

static void add_cells(std::vector<Wide>& cells, const std::vector<Placed>& a,
                      const std::vector<Placed>& b, Wide multiple) {
    for (const Placed& x : a)
        for (const Placed& y : b) {
            Wide& cell = cells[x.place + y.place];
            Wide sum = cell + (Wide)x.coefficient * y.coefficient;
            cell = sum >> 127 ? sum - multiple : sum;
        }
}

static double now() {
    auto since = std::chrono::steady_clock::now().time_since_epoch();
    return std::chrono::duration<double, std::nano>(since).count();
}

static volatile size_t kept;

static std::string listed(const Weights& weights) {
    std::string list;
    for (int weight : weights) list += (list.empty() ? "" : ",") + std::to_string(weight);
    return list;
}

// two parts whose degrees are the same power of a form's degree, each with all monomials
static void measure(uint64_t m, const Weights& weights, int form, int power, int times) {
    std::vector<Term> a = all_terms(weights, form * power, m);
    std::vector<Term> b = all_terms(weights, form * power, m);
    int degree = 2 * form * power;
    size_t count = 1;
    for (size_t i = 0; i + 1 < weights.size(); i++) count *= base_of(weights[i], degree);
    Wide top = (Wide)1 << 127, multiple = top - top % m;
    double pairs = (double)a.size() * b.size(), start = now();
    for (int i = 0; i < times; i++) {
        std::vector<uint64_t> cells(count);
        add_plain(cells, placed(a, weights, degree), placed(b, weights, degree), m);
        kept = cells[0];
    }
    double plain = now() - start;
    start = now();
    for (int i = 0; i < times; i++) {
        std::vector<Wide> cells(count);
        add_cells(cells, placed(a, weights, degree), placed(b, weights, degree), multiple);
        kept = collected(cells, weights, degree, m).size();
    }
    double single = now() - start;
    start = now();
    std::vector<Wide> cells(count);
    for (int i = 0; i < 100; i++)
        add_cells(cells, placed(a, weights, degree), placed(b, weights, degree), multiple);
    size_t terms = collected(cells, weights, degree, m).size();
    double together = now() - start;
    printf("%llu %s %d %d %d %zu %.0f %.2f %.2f %.2f\n", (unsigned long long)m,
           listed(weights).c_str(), form, power, power, terms, pairs, plain / pairs / times,
           single / pairs / times, together / pairs / 100);
}

int main() {
    for (uint64_t m : {9223372036854775783ull, 998244353ull}) {
        measure(m, {1, 1}, 1, 100, 500);
        measure(m, {1, 1, 1}, 1, 20, 100);
        measure(m, {1, 3}, 3, 100, 500);
        measure(m, {2, 3}, 6, 100, 500);
    }
}
