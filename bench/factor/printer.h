// Series, part after part, and how they are printed.
#pragma once
#include <charconv>

#include "script.h"

// Where the coefficients of a series stand, up to a degree: part after part, in the order in which they are printed. A
// part of degree r in k variables is made of parts of the degrees e from 0 to r in the k - 1 last ones, of which each
// belongs to the power r - e of the first one.
struct Layout {
    int variables, precision;
    // below[k][e]: how many monomials in k variables have a degree below e. There the part of degree e begins in a
    // series in k variables, and in a part in k + 1 variables.
    std::vector<std::vector<int>> below;

    Layout(int variables, int precision) : variables(variables), precision(precision) {
        below.push_back(std::vector<int>(precision + 2, 1));
        below[0][0] = 0;
        for (int k = 1; k <= variables; k++) {
            below.push_back({0});
            for (int e = 0; e <= precision; e++) below[k].push_back(below[k][e] + below[k - 1][e + 1]);
        }
    }

    int size() const { return begin(precision + 1); }
    int begin(int degree) const { return below[variables][degree]; }

    // where the coefficient of a monomial stands in a series
    int place(const Powers& powers, int degree) const {
        int place = begin(degree);
        for (int k = variables - 1; k > 0; k--) {
            degree -= powers[variables - 1 - k];
            place += below[k][degree];
        }
        return place;
    }
};

struct Series {
    std::vector<uint64_t> cells;
    int known;  // the parts from this degree on are zero, or aren't known yet
};

// Prints to standard output by way of a buffer.
struct Printer {
    const Job& job;
    const Layout& layout;
    std::string text;

    void number(uint64_t number) {
        char digits[20];
        text.append(digits, std::to_chars(digits, digits + 20, number).ptr);
    }

    void flush() {
        fwrite(text.data(), 1, text.size(), stdout);
        text.clear();
    }

    void term(uint64_t c, const Powers& powers) {
        number(c);
        for (int i = 0; i < layout.variables; i++) {
            if (powers[i] == 0) continue;
            text.append("*").append(job.names[i]);
            if (powers[i] == 1) continue;
            text += '^';
            number(powers[i]);
        }
        if (text.size() > 60000) flush();
    }

    // the terms with these powers of the variables before one, and all powers of that one and those behind it that add
    // to a degree; answers the cell behind them
    const uint64_t* terms(const uint64_t* cell, Powers& powers, int variable, int degree, bool& some) {
        if (variable == layout.variables - 1) {
            powers[variable] = degree;
            if (*cell != 0) {
                if (some) text += " + ";
                term(*cell, powers);
                some = true;
            }
            return cell + 1;
        }
        for (int power = degree; power >= 0; power--) {
            powers[variable] = power;
            cell = terms(cell, powers, variable + 1, degree - power, some);
        }
        return cell;
    }

    void factor(size_t place, const Root& root, const std::vector<Series>& factor) {
        text += "factor " + std::to_string(place) + " root " + std::to_string(root.value) + " times " +
                std::to_string(root.times) + "\n";
        for (size_t i = factor.size(); i-- > 0;) {
            text += "Y^" + std::to_string(i) + ": ";
            Powers powers{};
            bool some = false;
            const uint64_t* cell = factor[i].cells.data();
            for (int degree = 0; degree <= layout.precision; degree++) cell = terms(cell, powers, 0, degree, some);
            text += some ? "\n" : "0\n";
        }
    }
};
