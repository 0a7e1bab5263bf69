// Whether the sets of a report are minimal, by a solver that knows nothing of how they were found.
//
//     check FILE REPORT [--cpu SECONDS]
//
// A conflict has to be unsatisfiable, and satisfiable without any one of its groups. What a correction leaves has to be
// satisfiable, and unsatisfiable with any one of its groups. Sets are tried in an order of chance, conflicts and corrections
// in turn, for as long as there are seconds of the processor. A set that is not minimal is told, and one that is there twice;
// then it ends with 1. Else it tells how many were tried.
#include "report.hpp"
#include <random>
#include <set>

struct Report { std::vector<Groups> conflicts, corrections; };

static Report read_report(const char* name, int groups) {
    Report report;
    std::FILE* file = std::fopen(name, "rb");
    if (!file) fail(NoFile, "read fault on report");
    for (int letter; (letter = std::fgetc(file)) != EOF;) {
        if (letter == 'u' || letter == 'm') {
            Groups set;
            int group;
            while (std::fscanf(file, "%d", &group) == 1 && group) {
                if (group < 1 || group > groups) fail(BadInput, "a group is none of the problem");
                set.push_back(group);
            }
            std::sort(set.begin(), set.end());
            (letter == 'u' ? report.conflicts : report.corrections).push_back(std::move(set));
        }
        while (letter != '\n' && letter != EOF) letter = std::fgetc(file);
    }
    std::fclose(file);
    return report;
}

class Checker {
public:
    explicit Checker(const Problem& problem) : groups(problem.groups), variables(problem.variables), solver(false) {
        for (int i = 0; i < variables; i++) solver.new_variable(Kind::Plain);
        for (int group = 1; group <= groups; group++) solver.new_variable(Kind::Selector);
        for (const Clause& clause : problem.clauses) {
            Lits lits = clause.lits;
            if (clause.group) lits.push_back(-(variables + clause.group));
            solver.add(lits);
        }
    }

    // What is wrong with a set, or an empty text; also where the time is up.
    std::string fault_of(bool is_conflict, const Groups& set) {
        std::vector<char> is_in(groups + 1, !is_conflict);
        for (int group : set) is_in[group] = is_conflict;
        if (is(is_in, is_conflict ? Answer::Sat : Answer::Unsat))
            return is_conflict ? "can be satisfied" : "leaves what can't be satisfied";
        for (int group : set) {
            is_in[group] = !is_conflict;
            if (is(is_in, is_conflict ? Answer::Unsat : Answer::Sat)) return "does not need " + std::to_string(group);
            is_in[group] = is_conflict;
        }
        return "";
    }

private:
    bool is(const std::vector<char>& is_in, Answer answer) {
        Lits assumed;
        for (int group = 1; group <= groups; group++) if (is_in[group]) assumed.push_back(variables + group);
        return !time_is_up && solver.solve(assumed) == answer;
    }

    int groups, variables;
    Solver solver;
};

static int tell(const char* what, char letter, const Groups& set) {
    std::string text;
    put_set(text, letter, set);
    std::printf("%s: %s", what, text.c_str());
    return 1;
}

int main(int count, char** words) {
    Clock clock;
    if (count == 5 && !std::strcmp(words[3], "--cpu")) clock.of_processor = std::strtod(words[4], nullptr);
    else if (count != 3) fail(BadWords, "bad command line");
    Problem problem = read_problem(words[1]);
    Report report = read_report(words[2], problem.groups);
    for (bool is_conflict : {true, false}) {
        std::set<Groups> seen;
        for (const Groups& set : is_conflict ? report.conflicts : report.corrections)
            if (!seen.insert(set).second) return tell("is there twice", is_conflict ? 'u' : 'm', set);
    }
    std::mt19937 numbers;
    std::shuffle(report.conflicts.begin(), report.conflicts.end(), numbers);
    std::shuffle(report.corrections.begin(), report.corrections.end(), numbers);
    Checker checker(problem);
    clock.start_first();
    size_t conflicts = 0, corrections = 0;
    for (size_t at = 0; at < std::max(report.conflicts.size(), report.corrections.size()); at++)
        for (bool is_conflict : {true, false}) {
            const std::vector<Groups>& sets = is_conflict ? report.conflicts : report.corrections;
            if (at >= sets.size()) continue;
            std::string fault = checker.fault_of(is_conflict, sets[at]);
            if (!fault.empty()) return tell(("not minimal, " + fault).c_str(), is_conflict ? 'u' : 'm', sets[at]);
            if (!time_is_up) (is_conflict ? conflicts : corrections)++;
        }
    std::printf("minimal: %zu of %zu conflicts, %zu of %zu corrections\n", conflicts, report.conflicts.size(), corrections,
                report.corrections.size());
}
