// The smallest minimal conflicts or corrections of a GCNF file, by MARCO with a bound in the map.
//
//     least conflicts|corrections FILE [--count SETS | --within GROUPS] [--time SECONDS] [--cpu SECONDS] [--stats]
//
// What is told are all sets of a kind with at most k groups, k being the least at which there are so many sets, or given. It goes
// as in marco.cpp, but seeds are looked for at which at most k groups count: of corrections those that are out, of conflicts
// those that are in. At first there is no k. Once so many sets are held, k is the size of the last of them by size, so it only
// falls. Where no seed is left within k, each set with at most k groups is held: it, or all but its groups, would be a seed.
//
// Counted are groups of known sets of the other kind alone: another group can be in, or out, at no cost. One that stands alone
// in such a set is in each set of the own kind; it is not counted, and k is one less instead. Where the counter would have more
// than some millions of clauses there is none, and seeds come as without a bound.
//
// Seeds for conflicts are small, and mostly satisfied. They are grown from above: of each refutation of all groups one is left
// out that is not in the seed, until the others can be satisfied; then those that were left out are tried one by one.
//
// The report is that of `gmus least`; where the time was up, a partial one, with the number of disjoint sets of the other kind.
#include "counter.hpp"
#include "finder.hpp"
#include "report.hpp"

// A group in view of the bound: no set of the other kind names it, it waits to be counted, is, or is in each set of the kind.
enum class Place : char { Unnamed, Waiting, Counted, Sure };
struct Wish { bool of_conflicts = false, has_within = false; size_t count = 1, within = 0; };

class Least : public Finder {
public:
    Least(const Problem& problem, const Wish& wish)
        : Finder(problem, Ways(), Keeps::Cores, wish.of_conflicts ? Kind::Unlikely : Kind::Map), wish(wish), counter(map),
          place(problem.groups + 1, Place::Unnamed) {
        if (wish.has_within) most = std::min(wish.within, size_t(groups)), has_bound = true;
    }

    Status run() {
        for (;;) {
            if (time_is_up) return OutOfTime;
            if (!tell_bound()) return Complete;
            Answer seeds = map.solve({});
            if (seeds != Answer::Sat) return seeds == Answer::Unsat ? Complete : OutOfTime;
            Groups seed, rest;
            for (int group = 1; group <= groups; group++) (map.is_false(group) ? rest : seed).push_back(group);
            Answer answer = ask(seed);
            if (answer == Answer::Stopped) return OutOfTime;
            if (answer == Answer::Unsat ? !shrink(core()) : !correct(seed, rest)) return OutOfTime;
            take(answer == Answer::Unsat);
        }
    }

    // All that are held with at most so many groups, smaller ones first.
    std::vector<Groups> smallest(size_t size) {
        std::vector<Groups> sets;
        for (const Groups& set : own()) if (set.size() <= size) sets.push_back(set);
        for (Groups& set : sets) std::sort(set.begin(), set.end());
        std::sort(sets.begin(), sets.end(), [](const Groups& a, const Groups& b) {
            return a.size() != b.size() ? a.size() < b.size() : a < b;
        });
        return sets;
    }

    // So many sets of the other kind have no group in common, so each set of the kind has as many groups.
    size_t packed() const {
        std::vector<char> is_taken(groups + 1);
        size_t sets = 0;
        for (const Groups& set : wish.of_conflicts ? corrections : conflicts) {
            if (std::any_of(set.begin(), set.end(), [&](int group) { return is_taken[group]; })) continue;
            for (int group : set) is_taken[group] = true;
            sets++;
        }
        return sets;
    }

    size_t bound() const { return has_bound ? most : size_t(groups); }

private:
    const std::vector<Groups>& own() const { return wish.of_conflicts ? conflicts : corrections; }

    // The bound by the sizes that are held, and the groups of a set of the other kind, which are to be counted.
    void take(bool is_conflict) {
        const Groups& set = is_conflict ? conflicts.back() : corrections.back();
        if (is_conflict == wish.of_conflicts) {
            if (wish.has_within) return;
            sizes.insert(std::upper_bound(sizes.begin(), sizes.end(), set.size()), set.size());
            if (sizes.size() >= wish.count) most = sizes[wish.count - 1], has_bound = true;
            return;
        }
        if (set.size() == 1 && place[set[0]] != Place::Counted) {
            if (place[set[0]] == Place::Waiting) waiting.erase(std::find(waiting.begin(), waiting.end(), set[0]));
            place[set[0]] = Place::Sure;
            sure++;
            return;
        }
        for (int group : set)
            if (place[group] == Place::Unnamed) place[group] = Place::Waiting, waiting.push_back(group);
    }

    // Tells the map the bound, if it is of use there. Gives false where the sure groups alone are too many.
    bool tell_bound() {
        if (!has_bound) return true;
        if (sure > most) return false;
        size_t left = most - sure, counted = counter.size() + waiting.size();
        if (counted <= left || counted * (left + 1) > most_clauses || (waiting.empty() && left == told)) return true;
        Lits lits;
        for (int group : waiting) lits.push_back(wish.of_conflicts ? group : -group), place[group] = Place::Counted;
        waiting.clear();
        counter.bound(lits, left);
        told = left;
        return true;
    }

    bool correct(const Groups& seed, const Groups& rest) {
        Groups inside = seed, open, outside;
        if (wish.of_conflicts && !satisfy_from_above(seed, inside, open)) return false;
        if (!wish.of_conflicts)
            for (int group : rest) (subset.is_false(selector(group)) ? open : inside).push_back(group);
        if (!grow(std::move(inside), std::move(open), outside)) return false;
        needed.add(outside);
        add_correction(std::move(outside));
        return true;
    }

    // The groups that a model satisfies, with all of the seed among them, and the others.
    bool satisfy_from_above(const Groups& seed, Groups& inside, Groups& open) {
        std::vector<char> is_in(groups + 1), is_in_seed(groups + 1);
        known.begin(seed);
        refuted.begin(seed);
        for (int group : seed) is_in[group] = is_in_seed[group] = true;
        for (int group = 1; group <= groups; group++)
            if (!is_in[group] && !known.forbids(group) && !refuted.forbids(group))
                known.put(group), refuted.put(group), is_in[group] = true;
        for (;;) {
            inside.clear();
            for (int group = 1; group <= groups; group++) if (is_in[group]) inside.push_back(group);
            Answer answer = ask(inside);
            if (answer == Answer::Stopped) return false;
            if (answer == Answer::Sat) break;
            Groups set = core();
            is_in[*std::find_if(set.begin(), set.end(), [&](int group) { return !is_in_seed[group]; })] = false;
            keep(std::move(set));
        }
        for (int group = 1; group <= groups; group++)
            if (!is_in[group]) (subset.is_false(selector(group)) ? open : inside).push_back(group);
        return true;
    }

    static constexpr size_t most_clauses = 4000000;
    Wish wish;
    Counter counter;
    std::vector<Place> place;
    Groups waiting;                // those to be counted, in the order in which they were named
    std::vector<size_t> sizes;     // of the sets of the kind, ascending
    size_t sure = 0, most = 0, told = size_t(-1);
    bool has_bound = false;
};

int main(int count, char** words) {
    const char* name = nullptr;
    std::string kind;
    Wish wish;
    Clock clock;
    bool stats = false, has_count = false;
    for (int i = 1; i < count; i++) {
        std::string word = words[i];
        if (word == "--count" && i + 1 < count) wish.count = std::strtoul(words[++i], nullptr, 10), has_count = true;
        else if (word == "--within" && i + 1 < count) wish.within = std::strtoul(words[++i], nullptr, 10), wish.has_within = true;
        else if (word == "--time" && i + 1 < count) clock.seconds = std::strtod(words[++i], nullptr);
        else if (word == "--cpu" && i + 1 < count) clock.of_processor = std::strtod(words[++i], nullptr);
        else if (word == "--stats") stats = true;
        else if (word[0] != '-' && kind.empty()) kind = word;
        else if (word[0] != '-' && !name) name = words[i];
        else fail(BadWords, "bad command line");
    }
    if (!name || (kind != "conflicts" && kind != "corrections") || wish.count < 1 || (has_count && wish.has_within) || clock.is_bad())
        fail(BadWords, "bad command line");

    wish.of_conflicts = kind == "conflicts";
    clock.start_first();
    Problem problem = read_problem(name);
    Least least(problem, wish);
    clock.start_second();
    Status status = least.run();
    std::vector<Groups> sets = least.smallest(status == Complete ? least.bound() : size_t(problem.groups));
    std::string text = "p least " + std::to_string(problem.groups) + "\n";
    text += status == Complete ? "s ATMOST " + std::to_string(least.bound()) : "s PARTIAL " + std::to_string(least.packed());
    text += "\n";
    for (const Groups& set : sets) put_set(text, wish.of_conflicts ? 'u' : 'm', set);
    text += "e " + std::to_string(sets.size()) + "\n";
    write_report(text);
    if (stats)
        std::fprintf(stderr, "marco: %lu questions for %zu sets, %lu kB%s\n", least.calls, least.found(),
                     peak_of_memory(), Solver::counts().c_str());
    if (status == OutOfTime) fail(status, "time is up");
    return status;
}
