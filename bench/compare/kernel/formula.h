// The formula and the decisions, which are the same for each program, and the clock that is read round `propagate`.
//
// The variables, clauses and rounds are those of the environment's KERNEL, as in KERNEL=5000,36000,400.
#ifndef FORMULA_H
#define FORMULA_H
#include <stdint.h>

#ifdef __cplusplus
extern "C" {
#endif

uint32_t kernel_vars(void);
uint32_t kernel_rounds(void);
// The next literal of the formula: 0 at the end of a clause, and 0 twice at the end of all.
int32_t kernel_literal(void);
// Where the search for a free literal begins: 0 to 2 * vars - 1, of which 2 * v - 2 stands for v and 2 * v - 1 for -v.
uint32_t kernel_choice(void);
void kernel_start(void);
void kernel_stop(void);
void kernel_report(uint64_t values, uint64_t decisions, uint64_t conflicts);

#ifdef __cplusplus
}
#endif
#endif
