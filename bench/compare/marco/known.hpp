// What known sets and models tell without a question.
#pragma once
#include "problem.hpp"

// Which groups of a shrinking set are needed. What is known are sets of groups without which all others were satisfied:
// the corrections so far, and what models left out. A group is needed where it is the set's only one in one of these.
class Needed {
public:
    explicit Needed(int groups) : left_out_with(groups + 1), is_needed(groups + 1) {}
    void add(const Groups& left_out) {
        for (int group : left_out) left_out_with[group].push_back(int(left.size()));
        left.push_back({0, 0});
    }
    // The same while a set is shrunk, of which `group` is the only one in `left_out`.
    void add_with(const Groups& left_out, int group) {
        add(left_out);
        left.back() = {1, group};
        mark(group);
    }
    void mark(int group) { is_needed[group] = true; }
    void begin(const Groups& set) {
        std::fill(left.begin(), left.end(), Left{0, 0});
        std::fill(is_needed.begin(), is_needed.end(), false);
        for (int group : set)
            for (int each : left_out_with[group]) left[each].count++, left[each].sum += group;
        for (const Left& each : left) if (each.count == 1) is_needed[each.sum] = true;
    }
    void drop(int group) {
        for (int each : left_out_with[group]) {
            left[each].count--, left[each].sum -= group;
            if (left[each].count == 1) is_needed[left[each].sum] = true;
        }
    }
    bool operator[](int group) const { return is_needed[group]; }

private:
    struct Left { int count, sum; };   // of the groups that one of them and the set share
    std::vector<std::vector<int>> left_out_with;
    std::vector<Left> left;
    std::vector<char> is_needed;
};

// Whether a known conflict lies in a set with one more group. In each conflict with that group another one is looked
// for that is not in the set. It is then put first, since there the next look begins.
class Known {
public:
    Known(int groups, std::vector<Groups>& conflicts)
        : conflicts(conflicts), conflicts_with(groups + 1), in_set(groups + 1) {}
    void add_last() {
        for (int group : conflicts.back()) conflicts_with[group].push_back(int(conflicts.size()) - 1);
    }
    void begin(const Groups& set) {
        std::fill(in_set.begin(), in_set.end(), false);
        for (int group : set) put(group);
    }
    void put(int group) { in_set[group] = true; }
    bool forbids(int group) {
        std::vector<int>& those = conflicts_with[group];
        for (size_t at = those.size(); at-- > 0;) {
            Groups& conflict = conflicts[those[at]];
            auto outside = std::find_if(conflict.begin(), conflict.end(),
                                        [&](int other) { return other != group && !in_set[other]; });
            if (outside == conflict.end()) {
                std::swap(those[at], those.back());
                return true;
            }
            std::iter_swap(conflict.begin(), outside);
        }
        return false;
    }

private:
    std::vector<Groups>& conflicts;
    std::vector<std::vector<int>> conflicts_with;
    std::vector<char> in_set;
};

// Model rotation (Marques-Silva and Lynce 2011). A group is needed where some model falsifies it alone of the set.
// Where a change of one variable moves the fault to another group alone, that one is needed too, and so on.
class Rotation {
public:
    explicit Rotation(const Problem& problem)
        : problem(problem), values(problem.variables + 1), in_set(problem.groups + 1), clauses_of(problem.groups + 1),
          clauses_with(2 * problem.variables + 2) {
        for (size_t at = 0; at < problem.clauses.size(); at++) {
            clauses_of[problem.clauses[at].group].push_back(int(at));
            for (int lit : problem.clauses[at].lits) clauses_with[place(lit)].push_back(int(at));
        }
    }
    void begin(const Groups& set) {
        std::fill(in_set.begin(), in_set.end(), false);
        in_set[0] = true;
        for (int group : set) in_set[group] = true;
    }
    void drop(int group) { in_set[group] = false; }
    void set(int variable, bool value) { values[variable] = value; }

    // Marks what is needed, from values that falsify `first` alone of the set. Leaves the values as they were.
    void run(int first, Needed& needed) {
        needed.mark(first);
        std::vector<Step> path{{flips(first), 0}};
        while (!path.empty()) {
            if (path.back().flips.empty()) {
                flip(path.back().flipped);
                path.pop_back();
                continue;
            }
            int lit = path.back().flips.back();
            path.back().flips.pop_back();
            flip(lit);
            int group = only_fault(-lit);
            if (group && !needed[group]) {
                needed.mark(group);
                path.push_back({flips(group), lit});
            } else {
                flip(lit);
            }
        }
    }

private:
    struct Step { Lits flips; int flipped; };   // what is left to try, and what led here, or 0

    static size_t place(int lit) { return 2 * size_t(std::abs(lit)) + (lit < 0); }
    void flip(int lit) { values[std::abs(lit)] = !values[std::abs(lit)]; }
    bool is_falsified(const Clause& clause) const {
        return std::none_of(clause.lits.begin(), clause.lits.end(),
                            [&](int lit) { return bool(values[std::abs(lit)]) == (lit > 0); });
    }

    // The literals that are in each falsified clause of a group, so that one of them alone satisfies it.
    Lits flips(int group) const {
        Lits common;
        bool is_first = true;
        for (int at : clauses_of[group]) {
            const Lits& lits = problem.clauses[at].lits;
            if (!is_falsified(problem.clauses[at])) continue;
            if (is_first) common = lits;
            auto is_missing = [&](int lit) { return std::find(lits.begin(), lits.end(), lit) == lits.end(); };
            common.erase(std::remove_if(common.begin(), common.end(), is_missing), common.end());
            is_first = false;
        }
        return common;
    }

    // The group of all clauses that this literal, which just became false, made false; 0 where that is not one group.
    int only_fault(int lit) const {
        int group = 0;
        for (int at : clauses_with[place(lit)]) {
            const Clause& clause = problem.clauses[at];
            if (!in_set[clause.group] || !is_falsified(clause)) continue;
            if (clause.group == 0 || (group != 0 && group != clause.group)) return 0;
            group = clause.group;
        }
        return group;
    }

    const Problem& problem;
    std::vector<char> values, in_set;
    std::vector<std::vector<int>> clauses_of, clauses_with;
};
