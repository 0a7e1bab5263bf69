// The same formula and decisions by MiniSat's own propagate, which the library has.
#include "formula.h"
#include <minisat/core/Solver.h>

using namespace Minisat;

struct Kernel : Solver {
    void read() {
        for (uint32_t var = 0; var < kernel_vars(); var++)
            newVar();
        for (;;) {
            vec<Lit> clause;
            for (int32_t lit; (lit = kernel_literal());)
                clause.push(mkLit(abs(lit) - 1, lit < 0));
            if (clause.size() == 0)
                return;
            addClause_(clause);
        }
    }

    void search() {
        uint32_t codes = 2 * kernel_vars();
        uint64_t all = 0, decisions = 0, conflicts = 0;
        for (uint32_t round = 0; round < kernel_rounds(); round++) {
            for (bool conflict = false; !conflict && nAssigns() < nVars();) {
                uint32_t code = kernel_choice();
                while (value(toLit(code)) != l_Undef)
                    code = code + 1 < codes ? code + 1 : 0;
                newDecisionLevel();
                uncheckedEnqueue(toLit(code));
                decisions++;
                kernel_start();
                conflict = propagate() != CRef_Undef;
                kernel_stop();
                conflicts += conflict;
            }
            all += nAssigns();
            cancelUntil(0);
        }
        kernel_report(all, decisions, conflicts);
    }
};

int main() {
    Kernel kernel;
    kernel.read();
    kernel.search();
}
