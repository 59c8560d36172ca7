// Reads scripts of few forms: the lines mod, vars, poly, roots and show, one each and in this order, without weights
// and divisions.
#pragma once
#include <algorithm>
#include <array>
#include <cctype>
#include <cstdint>
#include <cstdio>
#include <cstdlib>
#include <map>
#include <string>
#include <vector>

using Wide = unsigned __int128;

[[noreturn]] static void refuse(const std::string& reason) {
    fprintf(stderr, "compare: %s\n", reason.c_str());
    exit(2);
}

// Residues modulo a number from 2 to 2^63 - 1.
struct Modulus {
    uint64_t m;

    uint64_t add(uint64_t a, uint64_t b) const { return a + b < m ? a + b : a + b - m; }
    uint64_t subtract(uint64_t a, uint64_t b) const { return a < b ? a + (m - b) : a - b; }
    uint64_t multiply(uint64_t a, uint64_t b) const { return Wide(a) * b % m; }

    // by Euclid's algorithm: at each step a * x is u modulo m, and a * y is v
    uint64_t inverse(uint64_t a) const {
        uint64_t u = m, v = a, x = 0, y = 1;
        while (v != 0) {
            x = subtract(x, multiply(u / v, y));
            u %= v;
            std::swap(u, v);
            std::swap(x, y);
        }
        if (u != 1) refuse("a number has no inverse");
        return x;
    }
};

struct Root {
    uint64_t value;
    int times;
};

// the powers of at most eight variables, and of Y
using Powers = std::array<int, 9>;
const int Y = 8;

using Polynomial = std::map<Powers, uint64_t>;

struct Job {
    Modulus modulus;
    std::vector<std::string> names;
    Polynomial polynomial;
    std::vector<Root> roots;
    int precision;
};

// Reads the text of a polynomial.
struct Reader {
    const Job& job;
    const std::string& text;
    size_t at = 0;

    char next() {
        while (text[at] == ' ') at++;
        return text[at];
    }

    bool takes(char c) {
        if (next() != c) return false;
        at++;
        return true;
    }

    uint64_t number() {
        next();
        size_t start = at;
        while (isdigit(text[at])) at++;
        if (at == start) refuse("no number at byte " + std::to_string(at) + " of the polynomial");
        return strtoull(text.c_str() + start, nullptr, 10);
    }

    // a variable or Y
    Powers name() {
        size_t start = at;
        while (isalnum(text[at]) || text[at] == '_') at++;
        std::string word = text.substr(start, at - start);
        Powers powers{};
        if (word == "Y") powers[Y] = 1;
        for (size_t i = 0; i < job.names.size(); i++)
            if (word == job.names[i]) powers[i] = 1;
        if (powers == Powers{}) refuse("unknown name " + word);
        return powers;
    }

    Polynomial multiplied(const Polynomial& a, const Polynomial& b) {
        Polynomial all;
        for (const auto& [left, c] : a)
            for (const auto& [right, d] : b) {
                Powers powers;
                for (int i = 0; i <= Y; i++) powers[i] = left[i] + right[i];
                all[powers] = job.modulus.add(all[powers], job.modulus.multiply(c, d));
            }
        return all;
    }

    Polynomial base() {
        if (isalpha(next())) return {{name(), 1}};
        if (!takes('(')) return {{Powers{}, number() % job.modulus.m}};
        Polynomial inner = expression();
        if (!takes(')')) refuse("a parenthesis stays open");
        return inner;
    }

    Polynomial power() {
        Polynomial once = base();
        if (!takes('^')) return once;
        Polynomial all = {{Powers{}, 1}};
        for (uint64_t left = number(); left > 0; left--) all = multiplied(all, once);
        return all;
    }

    Polynomial term() {
        Polynomial all = power();
        while (takes('*')) all = multiplied(all, power());
        return all;
    }

    Polynomial expression() {
        Polynomial all;
        bool minus = takes('-');
        do {
            for (const auto& [powers, c] : term()) {
                uint64_t& old = all[powers];
                old = minus ? job.modulus.subtract(old, c) : job.modulus.add(old, c);
            }
            minus = next() == '-';
        } while (takes('-') || takes('+'));
        return all;
    }

    Polynomial whole() {
        Polynomial all = expression();
        if (next() != 0) refuse("what stands at byte " + std::to_string(at) + " of the polynomial isn't read here");
        return all;
    }
};

// the rest of the next line of standard input, which has to begin with the keyword
static std::string line_of(const std::string& keyword) {
    std::string line;
    for (int c; (c = getchar()) != EOF && c != '\n';) line += c;
    if (line.rfind(keyword + " ", 0) != 0) refuse("expected " + keyword);
    return line.substr(keyword.size() + 1);
}

static std::vector<std::string> words_of(const std::string& line) {
    std::vector<std::string> words;
    for (size_t at = 0, end; at < line.size(); at = end + 1) {
        end = std::min(line.find(' ', at), line.size());
        if (end > at) words.push_back(line.substr(at, end - at));
    }
    return words;
}

// C:K or -C:K
static Root root_of(const std::string& word, Modulus modulus) {
    bool minus = word[0] == '-';
    char* end;
    uint64_t value = strtoull(word.c_str() + minus, &end, 10) % modulus.m;
    return {minus ? modulus.subtract(0, value) : value, atoi(end + 1)};
}

static Job read_job() {
    Job job;
    job.modulus.m = strtoull(line_of("mod").c_str(), nullptr, 10);
    if (job.modulus.m < 2 || job.modulus.m >> 63) refuse("modulus out of range");
    job.names = words_of(line_of("vars"));
    if (job.names.empty() || job.names.size() > Y) refuse("one to eight variables are read");
    std::string text = line_of("poly");
    job.polynomial = Reader{job, text}.whole();
    for (const std::string& word : words_of(line_of("roots"))) job.roots.push_back(root_of(word, job.modulus));
    job.precision = atoi(line_of("show").c_str());
    if (getchar() != EOF) refuse("one request is answered here");
    return job;
}
