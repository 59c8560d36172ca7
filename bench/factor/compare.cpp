// The factors of a polynomial by the recurrences of the proved program, in C++: reads a script from standard input and
// prints its block.
//
// Each part of a series is a dense row of coefficients. A part of a product is added up in cells that hold exact sums,
// of 128 bits and a count of carries, and the remainders are taken once, at its end.
#include <algorithm>

#include "printer.h"

// An exact sum: rest + 2^128 * carries.
struct Sum {
    Wide rest = 0;
    uint64_t carries = 0;

    void add(Wide number) { carries += __builtin_add_overflow(rest, number, &rest); }

    uint64_t modulo(uint64_t m) const {
        Wide upper = (Wide(carries) << 64) + uint64_t(rest >> 64);
        Wide all = (Wide(upper % m) << 64) + uint64_t(rest);
        return all >> 64 ? all % m : uint64_t(all) % m;
    }
};

// Adds a product of two rows, of which a has a few numbers and b as many at least. The products for one cell, each
// below 2^126, are added up before the cell is loaded.
template <int FEW>
static void add_few(const uint64_t* a, const uint64_t* b, int b_size, Sum* cells) {
    static_assert(FEW <= 4);
    auto add = [=](int at, int from, int to) {
        Wide sum = 0;
        for (int i = from; i < to; i++) sum += Wide(a[i]) * b[at - i];
        cells[at].add(sum);
    };
    for (int at = 0; at < FEW - 1; at++) add(at, 0, at + 1);
    for (int at = FEW - 1; at < b_size; at++) add(at, 0, FEW);
    for (int at = b_size; at < b_size + FEW - 1; at++) add(at, at - b_size + 1, FEW);
}

static void add_rows(const uint64_t* a, int a_size, const uint64_t* b, int b_size, Sum* cells) {
    if (a_size > b_size) {
        std::swap(a, b);
        std::swap(a_size, b_size);
    }
    for (; a_size >= 4; a_size -= 4, a += 4, cells += 4) add_few<4>(a, b, b_size, cells);
    if (a_size == 3) add_few<3>(a, b, b_size, cells);
    if (a_size == 2) add_few<2>(a, b, b_size, cells);
    if (a_size == 1) add_few<1>(a, b, b_size, cells);
}

// The two operations of a stage, on the coefficients of a polynomial by the power of Y.
struct Engine {
    const Layout& layout;
    const Modulus modulus;
    std::vector<Sum> cells;  // of the part that is computed

    // adds the product of parts of the degrees s and t in k variables, of which there are two at least
    void add_parts(int k, const uint64_t* a, int s, const uint64_t* b, int t, Sum* sums) const {
        if (k == 2) return add_rows(a, s + 1, b, t + 1, sums);
        const std::vector<int>& begins = layout.below[k - 1];
        for (int i = 0; i <= s; i++)
            for (int j = 0; j <= t; j++) add_parts(k - 1, a + begins[i], i, b + begins[j], j, sums + begins[i + j]);
    }

    // adds the part of degree r of the product of two series, so far as they are known; a has no part of degree 0
    void add_crossed(const Series& a, const Series& w, int r) {
        int from = std::max(1, r - w.known + 1), to = std::min(r + 1, a.known);
        if (from >= to) return;
        if (layout.variables == 1) return add_products(&a.cells[from], &w.cells[r] - from, to - from);
        for (int s = from; s < to; s++)
            add_parts(layout.variables, &a.cells[layout.begin(s)], s, &w.cells[layout.begin(r - s)], r - s,
                      cells.data());
    }

    // adds a[0] * w[0] + a[1] * w[-1] + .. to the only cell
    void add_products(const uint64_t* a, const uint64_t* w, int count) {
        Sum sum = cells[0];
        int i = 0;
        for (; i + 4 <= count; i += 4)
            sum.add(Wide(a[i]) * w[-i] + Wide(a[i + 1]) * w[-i - 1] + Wide(a[i + 2]) * w[-i - 2] +
                    Wide(a[i + 3]) * w[-i - 3]);
        for (; i < count; i++) sum.add(Wide(a[i]) * w[-i]);
        cells[0] = sum;
    }

    // Puts the prepared pair of G = b_0 + b_1 Y + .. in its place. The pair is p = a_0 + .. + a_(k-1) Y^(k-1) + Y^k and
    // u = w_0 + w_1 Y + .. with p * u = G; a_l takes the place of b_l, and w_j that of b_(k+j). With f(r) for the part
    // of degree r of f, and 0 for what isn't known yet:
    //   a_l(r) = w_0(0)^-1 * (b_l(r) - sum over h <= l of (a_h * w_(l-h))(r))
    //   w_j(r) = b_(k+j)(r) - sum over h < k of (a_h * w_(k+j-h))(r)
    void prepare(std::vector<Series>& g, int k) {
        int y_degree = g.size() - 1;
        uint64_t inverse = modulus.inverse(g[k].cells[0]);
        for (Series& series : g) series.known = 0;
        for (int r = 0; r <= layout.precision; r++)
            for (int l = 0; l <= y_degree; l++) {
                cells.assign(layout.begin(r + 1) - layout.begin(r), Sum());
                for (int h = std::max(0, l - (y_degree - k)); h < k && h <= l; h++) add_crossed(g[h], g[k + l - h], r);
                subtract_cells(g[l], r, l < k ? inverse : 1);
            }
    }

    // takes the cells from the part of degree r, which is known then
    void subtract_cells(Series& series, int r, uint64_t scale) {
        uint64_t* part = &series.cells[layout.begin(r)];
        for (size_t i = 0; i < cells.size(); i++) {
            part[i] = modulus.subtract(part[i], cells[i].modulo(modulus.m));
            if (scale != 1) part[i] = modulus.multiply(scale, part[i]);
            if (part[i] != 0) series.known = r + 1;
        }
    }

    // Puts Y + c in place of Y: the new coefficient of Y^i is the sum over j >= i of C(j, i) * c^(j-i) times that of
    // Y^j.
    void shift(std::vector<Series>& g, uint64_t c) const {
        if (c == 0) return;
        std::vector<std::vector<uint64_t>> powers = {{1}};  // the coefficients of (Y + c)^j
        for (size_t j = 1; j < g.size(); j++) {
            powers.push_back(powers[j - 1]);
            powers[j].insert(powers[j].begin(), 0);
            for (size_t i = 0; i < j; i++)
                powers[j][i] = modulus.add(powers[j][i], modulus.multiply(c, powers[j - 1][i]));
        }
        for (int place = 0; place < layout.size(); place++)
            for (size_t i = 0; i < g.size(); i++) {
                Sum sum;
                for (size_t j = i; j < g.size(); j++) sum.add(Wide(powers[j][i]) * g[j].cells[place]);
                g[i].cells[place] = sum.modulo(modulus.m);
            }
    }
};

// the coefficients of the job's polynomial by the power of Y
static std::vector<Series> input_of(const Job& job, const Layout& layout) {
    int y_degree = 0;
    for (const Root& root : job.roots) y_degree += root.times;
    Powers leading{};
    leading[Y] = y_degree;
    std::vector<Series> input(y_degree + 1, {std::vector<uint64_t>(layout.size()), 0});
    for (const auto& [powers, c] : job.polynomial) {
        if (powers[Y] >= y_degree && c != (powers == leading)) refuse("not monic of the degree of the roots");
        int degree = 0;
        for (int i = 0; i < layout.variables; i++) degree += powers[i];
        if (degree <= layout.precision) input[powers[Y]].cells[layout.place(powers, degree)] = c;
    }
    return input;
}

int main() {
    const Job job = read_job();
    const Layout layout(job.names.size(), job.precision);
    Engine engine{layout, job.modulus, {}};
    Printer printer{job, layout, "precision " + std::to_string(job.precision) + "\n"};
    std::vector<Series> rest = input_of(job, layout);
    Series one = {std::vector<uint64_t>(layout.size()), 0};
    one.cells[0] = 1;
    uint64_t origin = 0;  // the rest has Y = 0 there
    for (size_t i = 0; i < job.roots.size(); i++) {
        const Root& root = job.roots[i];
        engine.shift(rest, job.modulus.subtract(root.value, origin));
        origin = root.value;
        for (int l = 0; l < root.times; l++)
            if (rest[l].cells[0] != 0) refuse("at the origin the polynomial hasn't these roots");
        engine.prepare(rest, root.times);
        std::vector<Series> factor(root.times + 1, one);
        std::swap_ranges(rest.begin(), rest.begin() + root.times, factor.begin());
        rest.erase(rest.begin(), rest.begin() + root.times);
        engine.shift(factor, job.modulus.subtract(0, root.value));
        printer.factor(i + 1, root, factor);
    }
    printer.flush();
}
