// A totalizer (Bailleux and Boufkhad 2003) in the map: how many of some literals are true, up to a bound that only falls.
#pragma once
#include "solver.hpp"
#include <algorithm>

// The literals come in batches. Each batch is a balanced tree of sums, and is joined to the sum of all before it. A sum is its
// variables "at least one", "at least two" and so on, as far as the bound needs them; they become true with their literals, and
// nothing makes them false. The bound is the clause that the last variable it needs is false.
class Counter {
public:
    explicit Counter(Solver& map) : map(map) {}

    size_t size() const { return counted; }

    // At most so many of the literals so far and of these.
    void bound(const Lits& more, size_t most) {
        if (!more.empty()) {
            Lits sum = sum_of(more, 0, more.size(), most + 1);
            root = counted ? join(root, sum, most + 1) : sum;
            counted += more.size();
        }
        if (root.size() > most) map.add({-root[most]});
    }

private:
    Lits sum_of(const Lits& lits, size_t from, size_t to, size_t places) {
        if (to - from == 1) return {lits[from]};
        size_t middle = from + (to - from) / 2;
        return join(sum_of(lits, from, middle, places), sum_of(lits, middle, to, places), places);
    }

    Lits join(const Lits& left, const Lits& right, size_t places) {
        Lits sum;
        while (sum.size() < std::min(left.size() + right.size(), places)) sum.push_back(map.new_variable(Kind::Counter));
        for (size_t i = 0; i <= left.size(); i++)
            for (size_t j = i == 0; j <= right.size() && i + j <= sum.size(); j++) {
                Lits clause{sum[i + j - 1]};
                if (i) clause.push_back(-left[i - 1]);
                if (j) clause.push_back(-right[j - 1]);
                map.add(clause);
            }
        return sum;
    }

    Solver& map;
    Lits root;
    size_t counted = 0;
};
