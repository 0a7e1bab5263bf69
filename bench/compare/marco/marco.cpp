// All minimal conflicts and minimal corrections of a GCNF file, by MARCO (Liffiton and others 2016) over a SAT solver.
//
//     marco FILE [--save] [--harvest MODELS] [--recursive] [--limit SETS] [--time SECONDS] [--cpu SECONDS] [--stats]
//
// The map is a formula with one variable for each group, whose models are the sets of groups not yet explored. A model
// of it is a seed. The subset solver has all clauses, each behind the selector of its group, and is asked whether the
// seed can be satisfied. If not, the seed is shrunk to a minimal conflict, and the map gets the clause "one of these
// groups is out". Otherwise the groups outside it are a minimal correction, and the map gets "one of these is in".
//
// Seeds are maximal, so a satisfied one needs no growing. The map decides every variable to true first, so each group
// that is out of a model was forced out by the map and groups that are in: no larger set is a model. A larger set that
// is explored and no model lies above a conflict, since below a known satisfied set the seed itself would be explored.
//
// With --save the map decides a variable as it was held last, and so finds models near the last one. To such a seed
// each other group is added, one after the other, with which no known conflict lies in it. So it is maximal as well.
// MiniSat then holds these groups too; CaDiCaL can't be told.
//
// With --harvest so many models of each shrink, the first ones, are grown. Such a model satisfies the set but for one
// group. What it satisfies is made maximal, by a question for each group with which no known conflict lies in it. What
// is left is a correction, and a new one: a known one with that group alone of the set would have spared the question.
//
// With --recursive it is ReMUS (Bendik, Cerna and Benes 2018). All sets that are explored next lie within some groups, at
// first all. If a seed, which is maximal among these, was shrunk to a conflict that is smaller, the search goes on within
// nine tenths of the seed, with the conflict among them, the others by chance; it comes back once all sets within these are
// explored. So what is shrunk gets smaller. A satisfied seed is grown to a correction of all groups.
//
// The report is that of gmus. It is partial where the limit or the time ended the run: seconds of the clock for the search, or
// of the processor for all but the report.
#include "finder.hpp"
#include "report.hpp"
#include <random>

class Marco : public Finder {
public:
    Marco(const Problem& problem, const Ways& ways)
        : Finder(problem, ways, kept_by(ways), Kind::Map), is_within(problem.groups + 1, true) {}

    Status run() {
        if (ways.save) map.keep_phases();
        return explore();
    }

private:
    static Keeps kept_by(const Ways& ways) {
        return ways.recursive ? Keeps::Cores : ways.save || ways.harvest ? Keeps::Conflicts : Keeps::Nothing;
    }

    // Explores all sets that lie within the groups of `is_within`.
    Status explore() {
        Lits without;
        for (int group = 1; group <= groups; group++) if (!is_within[group]) without.push_back(-group);
        for (;;) {
            if (found() >= ways.limit) return AtLimit;
            if (time_is_up) return OutOfTime;
            Answer seeds = map.solve(without);
            if (seeds != Answer::Sat) return seeds == Answer::Unsat ? Complete : OutOfTime;
            Groups seed, rest;
            for (int group = 1; group <= groups; group++) (map.is_false(group) ? rest : seed).push_back(group);
            if (ways.save) make_maximal(seed, rest);
            Answer answer = ask(seed);
            if (answer == Answer::Unsat && !shrink(core())) return OutOfTime;
            if (answer == Answer::Sat && !correct(seed, std::move(rest), !without.empty())) return OutOfTime;
            if (answer == Answer::Stopped) return OutOfTime;
            if (answer == Answer::Sat || !ways.recursive) continue;
            Status inner = explore_in(seed);
            if (inner != Complete) return inner;
        }
    }

    // Explores what lies within nine tenths of a seed, with its conflict among them, the last one, if that is smaller.
    Status explore_in(const Groups& seed) {
        const Groups& conflict = conflicts.back();
        size_t size = seed.size() * 9 / 10;
        if (conflict.size() >= size) return Complete;
        std::vector<char> outer(groups + 1);
        std::swap(outer, is_within);
        for (int group : conflict) is_within[group] = true;
        Groups others;
        for (int group : seed) if (!is_within[group]) others.push_back(group);
        for (size_t at = 0; at < size - conflict.size(); at++) {
            std::swap(others[at], others[at + numbers() % (others.size() - at)]);
            is_within[others[at]] = true;
        }
        Status status = explore();
        std::swap(outer, is_within);
        return status;
    }

    // Records what is left of a satisfied seed, after it was grown if it was maximal within some groups alone.
    bool correct(const Groups& seed, Groups rest, bool is_partial) {
        if (is_partial) {
            Groups inside = seed, open, outside;
            for (int group : rest) (subset.is_false(selector(group)) ? open : inside).push_back(group);
            if (!grow(std::move(inside), std::move(open), outside)) return false;
            rest = std::move(outside);
        }
        needed.add(rest);
        add_correction(std::move(rest));
        return true;
    }

    // Adds each group with which no known conflict lies in the seed.
    void make_maximal(Groups& seed, Groups& rest) {
        known.begin(seed);
        Groups outside;
        for (int group : rest) {
            if (known.forbids(group)) {
                outside.push_back(group);
            } else {
                known.put(group);
                map.hold(group);
                seed.push_back(group);
            }
        }
        rest = std::move(outside);
        std::sort(seed.begin(), seed.end());
    }

    std::vector<char> is_within;
    std::mt19937 numbers;      // the same ones in each run
};

int main(int count, char** words) {
    const char* name = nullptr;
    Ways ways;
    Clock clock;
    bool stats = false;
    for (int i = 1; i < count; i++) {
        std::string word = words[i];
        if (word == "--save") ways.save = true;
        else if (word == "--recursive") ways.recursive = true;
        else if (word == "--harvest" && i + 1 < count) ways.harvest = std::strtoul(words[++i], nullptr, 10);
        else if (word == "--limit" && i + 1 < count) ways.limit = std::strtoul(words[++i], nullptr, 10);
        else if (word == "--time" && i + 1 < count) clock.seconds = std::strtod(words[++i], nullptr);
        else if (word == "--cpu" && i + 1 < count) clock.of_processor = std::strtod(words[++i], nullptr);
        else if (word == "--stats") stats = true;
        else if (word[0] != '-' && !name) name = words[i];
        else fail(BadWords, "bad command line");
    }
    if (!name || ways.limit < 1 || clock.is_bad() || (ways.save && ways.recursive)) fail(BadWords, "bad command line");

    clock.start_first();
    Problem problem = read_problem(name);
    Marco marco(problem, ways);
    clock.start_second();
    Status status = marco.run();
    size_t conflicts = marco.conflicts.size(), corrections = marco.corrections.size();
    std::string text = "p gmus " + std::to_string(problem.groups) + "\n";
    text += status == Complete ? "s COMPLETE\n" : "s PARTIAL\n";
    put_sets(text, 'u', marco.conflicts);
    put_sets(text, 'm', marco.corrections);
    text += "e " + std::to_string(conflicts) + " " + std::to_string(corrections) + "\n";
    write_report(text);
    if (stats)
        std::fprintf(stderr, "marco: %lu questions for %zu sets, %lu kB%s\n", marco.calls, marco.found(),
                     peak_of_memory(), Solver::counts().c_str());
    if (status == AtLimit) fail(status, "limit of " + std::to_string(ways.limit) + " records reached");
    if (status == OutOfTime) fail(status, "time is up");
    return status;
}
