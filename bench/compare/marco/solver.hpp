// One of two SAT solvers, MiniSat or, with USE_CADICAL, CaDiCaL, behind the calls that the programs here make.
#pragma once
#include <csignal>
#include <cstdlib>
#include <string>
#include <vector>

#ifdef USE_CADICAL
#include <cadical.hpp>
#else
#include <minisat/core/Solver.h>
using Minisat::lbool;   // which the macros l_True, l_False and l_Undef name
#endif

using Groups = std::vector<int>;   // ascending where a report has it
using Lits = std::vector<int>;     // as in DIMACS

enum class Answer { Sat, Unsat, Stopped };
// Of a variable: Map is decided to true first, Unlikely to false, and Counter follows from others.
enum class Kind { Plain, Selector, Map, Unlikely, Counter };

inline volatile std::sig_atomic_t time_is_up = 0;

#ifdef USE_CADICAL
class Solver : CaDiCaL::Terminator {
public:
    explicit Solver(bool is_map) {
        solver.set("quiet", 1);    // or it prints comments to standard output
        // Without inprocessing and lucky guesses a variable is false only where it was forced, so seeds are maximal.
        if (is_map) solver.configure("plain"), solver.set("lucky", 0);
        solver.connect_terminator(this);
    }
    int new_variable(Kind kind) {
        solver.reserve(++variables);
        bool is_negative = kind == Kind::Unlikely || kind == Kind::Counter;
        if (kind != Kind::Plain) solver.freeze(variables), solver.phase(is_negative ? -variables : variables);
        return variables;
    }
    void keep_phases() { for (int variable = 1; variable <= variables; variable++) solver.unphase(variable); }
    void hold(int) {}
    void add(const Lits& clause) {
        for (int lit : clause) solver.add(lit);
        solver.add(0);
    }
    Answer solve(const Lits& assumed) {
        for (int lit : assumed) solver.assume(lit);
        int answer = solver.solve();
        return answer == 10 ? Answer::Sat : answer == 20 ? Answer::Unsat : Answer::Stopped;
    }
    bool is_false(int variable) { return solver.val(variable) < 0; }
    Lits core(const Lits& assumed) {
        Lits found;
        for (int lit : assumed) if (solver.failed(lit)) found.push_back(lit);
        return found;
    }
    static void stop_all() {}
    static std::string counts() { return ""; }    // its counts are not open to callers

private:
    bool terminate() override { return time_is_up; }
    CaDiCaL::Solver solver;
    int variables = 0;
};
#else
class Solver {
public:
    explicit Solver(bool) { all.push_back(&solver); }
    int new_variable(Kind kind) {
        // The user's polarity is the sign of the literal: false is the positive one. Selectors are never decided, so
        // one is false in a model only where the model falsifies a clause of its group, or it was learnt that it must.
        // A counter's variable is not decided either: where none of its clauses makes it true, it may be false.
        solver.newVar(kind == Kind::Map ? l_False : kind == Kind::Unlikely ? l_True : l_Undef,
                      kind != Kind::Selector && kind != Kind::Counter);
        return solver.nVars();
    }
    // From now on each variable is decided as it was held last, at first to true.
    void keep_phases() {
        for (int variable = 1; variable <= solver.nVars(); variable++) {
            solver.setPolarity(variable - 1, l_Undef);
            hold(variable);
        }
    }
    void hold(int variable) { solver.polarity[variable - 1] = false; }    // the sign of a positive literal
    void add(const Lits& clause) {
        lits.clear();
        for (int lit : clause) lits.push(literal(lit));
        solver.addClause_(lits);
    }
    Answer solve(const Lits& assumed) {
        lits.clear();
        for (int lit : assumed) lits.push(literal(lit));
        lbool answer = solver.solveLimited(lits);
        return answer == l_True ? Answer::Sat : answer == l_False ? Answer::Unsat : Answer::Stopped;
    }
    bool is_false(int variable) const { return solver.model[variable - 1] == l_False; }
    Lits core(const Lits&) const {
        Lits found;
        for (int i = 0; i < solver.conflict.size(); i++) found.push_back(Minisat::var(solver.conflict[i]) + 1);
        return found;
    }
    static void stop_all() {
        for (Minisat::Solver* each : all) each->interrupt();
    }
    // Of all solvers together: a start that is not the first one of its question is a restart.
    static std::string counts() {
        unsigned long conflicts = 0, restarts = 0;
        for (Minisat::Solver* each : all) conflicts += each->conflicts, restarts += each->starts - each->solves;
        return ", " + std::to_string(conflicts) + " conflicts, " + std::to_string(restarts) + " restarts";
    }

private:
    static Minisat::Lit literal(int lit) { return Minisat::mkLit(std::abs(lit) - 1, lit < 0); }
    struct Open : Minisat::Solver { using Minisat::Solver::polarity; };
    static std::vector<Minisat::Solver*> all;
    Open solver;
    Minisat::vec<Minisat::Lit> lits;
};
std::vector<Minisat::Solver*> Solver::all;
#endif
