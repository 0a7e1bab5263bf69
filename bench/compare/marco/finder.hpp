// What the programs here share: a solver that is asked about sets of groups, a map of the sets not yet explored, and how an
// unsatisfiable set becomes a minimal conflict, and a satisfied one a minimal correction.
//
// A set is shrunk by leaving out one group after the other. A refutation cuts it down to its core; a model shows that a
// group is needed, and often more groups, by rotation and by what is remembered for later sets.
//
// A set is grown by a question for each group outside with which no known conflict lies in it. What a model satisfies beside
// comes in with it. Where many are grown the cores of these questions are kept as well, and looked up like conflicts.
#pragma once
#include "known.hpp"

struct Ways { bool save = false, recursive = false; size_t harvest = 0, limit = 1000000000; };

enum class Keeps { Nothing, Conflicts, Cores };    // of what was unsatisfiable, to be looked up

class Finder {
public:
    std::vector<Groups> conflicts, corrections;
    unsigned long calls = 0;
    size_t found() const { return conflicts.size() + corrections.size(); }

protected:
    // `in_map` tells how the map decides groups. With Cores conflicts are kept as well.
    Finder(const Problem& problem, const Ways& ways, Keeps keeps, Kind in_map)
        : ways(ways), keeps(keeps), groups(problem.groups), variables(problem.variables), subset(false), map(true),
          needed(problem.groups), known(problem.groups, conflicts), refuted(problem.groups, cores), rotation(problem),
          in_core(problem.groups + 1) {
        for (int i = 0; i < variables; i++) subset.new_variable(Kind::Plain);
        for (int group = 1; group <= groups; group++) {
            subset.new_variable(Kind::Selector);
            map.new_variable(in_map);
        }
        for (const Clause& clause : problem.clauses) {
            Lits lits = clause.lits;
            if (clause.group) lits.push_back(-selector(clause.group));
            subset.add(lits);
        }
    }

    int selector(int group) const { return variables + group; }

    Answer ask(const Groups& set) {
        assumed.clear();
        for (int group : set) assumed.push_back(selector(group));
        calls++;
        return time_is_up ? Answer::Stopped : subset.solve(assumed);
    }

    Groups core() {
        Groups found = subset.core(assumed);
        for (int& group : found) group -= variables;
        return found;
    }

    // Makes a minimal conflict of an unsatisfiable set. Groups that are needed stand first, which draws cores to them.
    bool shrink(Groups set) {
        needed.begin(set);
        rotation.begin(set);
        size_t kept = 0;           // set[..kept] are needed
        size_t models = 0;
        while (kept < set.size()) {
            int group = set.back();
            set.pop_back();
            Answer answer = needed[group] ? Answer::Sat : ask(set);
            if (answer == Answer::Stopped) return false;
            if (answer == Answer::Unsat) {
                drop(group);
                keep_core(set, kept);
                continue;
            }
            if (!needed[group]) {
                rotate(group);
                bool grows = models++ < ways.harvest && found() + 1 < ways.limit;   // the last one is this conflict
                if (!grows) remember(group);
                else if (!harvest(group)) return false;
            }
            set.push_back(group);
            std::swap(set[kept++], set.back());
        }
        std::sort(set.begin(), set.end());
        Lits block;
        for (int group : set) block.push_back(-group);
        map.add(block);
        conflicts.push_back(std::move(set));
        if (keeps != Keeps::Nothing) known.add_last();
        return true;
    }

    // Makes a correction of what the last model satisfies, which is more than `inside`: of the groups outside `open` are those
    // that may come in, and `outside` those that can't. These become all that are left.
    bool grow(Groups inside, Groups open, Groups& outside) {
        known.begin(inside);
        refuted.begin(inside);
        while (!open.empty()) {
            int each = open.back();
            open.pop_back();
            if (known.forbids(each) || refuted.forbids(each)) {
                outside.push_back(each);
                continue;
            }
            inside.push_back(each);
            Answer answer = ask(inside);
            if (answer == Answer::Stopped) return false;
            if (answer == Answer::Unsat) {
                inside.pop_back();
                outside.push_back(each);
                if (keeps == Keeps::Cores) keep(core());
                continue;
            }
            known.put(each), refuted.put(each);
            auto is_out = [&](int other) { return subset.is_false(selector(other)); };
            auto satisfied = std::partition(open.begin(), open.end(), is_out);
            for (auto at = satisfied; at != open.end(); at++) known.put(*at), refuted.put(*at), inside.push_back(*at);
            open.erase(satisfied, open.end());
        }
        std::sort(outside.begin(), outside.end());
        return true;
    }

    void keep(Groups core) {
        cores.push_back(std::move(core));
        refuted.add_last();
    }

    void add_correction(Groups set) {
        map.add(set);
        corrections.push_back(std::move(set));
    }

    Ways ways;
    Keeps keeps;
    int groups, variables;
    Solver subset, map;
    Needed needed;
    std::vector<Groups> cores;    // of sets that could not be grown
    Known known, refuted;

private:
    void drop(int group) {
        needed.drop(group);
        rotation.drop(group);
    }

    // The last model falsifies this group alone of the set that is shrunk: so in the next three.
    void rotate(int group) {
        for (int variable = 1; variable <= variables; variable++) rotation.set(variable, !subset.is_false(variable));
        rotation.run(group, needed);
    }

    // Remembers all that the model left out, if not much.
    void remember(int group) {
        Groups left_out;
        for (int each = 1; each <= groups && left_out.size() <= most_remembered; each++)
            if (subset.is_false(selector(each))) left_out.push_back(each);
        if (left_out.size() <= most_remembered) needed.add_with(left_out, group);
    }

    // Grows what the model satisfies to a maximal set, and records what is left.
    bool harvest(int group) {
        Groups open, inside, outside{group};
        for (int each = 1; each <= groups; each++)
            if (each != group) (subset.is_false(selector(each)) ? open : inside).push_back(each);
        if (!grow(std::move(inside), std::move(open), outside)) return false;
        needed.add_with(outside, group);
        add_correction(std::move(outside));
        return true;
    }

    // Drops what the last refutation did not use. What is needed is in every core.
    void keep_core(Groups& set, size_t kept) {
        Groups found = core();
        for (int group : found) in_core[group] = true;
        size_t to = kept;
        for (size_t from = kept; from < set.size(); from++) {
            if (in_core[set[from]]) set[to++] = set[from];
            else drop(set[from]);
        }
        set.resize(to);
        for (int group : found) in_core[group] = false;
    }

    static constexpr size_t most_remembered = 64;
    Rotation rotation;
    std::vector<char> in_core;
    Lits assumed;
};
