// Unit propagation by lists that are linked through the clauses, without a check: what propagate is measured by.
//
// A clause's record holds where its literals begin, how many they are and two flags, its two watched literals, the next
// clause in the list of each and, of a clause of three literals, all three as one number, in 32 bytes. A watch that moves is
// appended to its new list. What stays is not written, or, with -DRELINK, each list is taken off and put back clause by
// clause; the order of all lists is the same in both. With -DMALLOC the records lie as malloc has them, where every second
// one is in two lines of the cache. -DCOUNT counts visits.
#include "formula.h"
#include <stdio.h>
#include <stdlib.h>
#include <string.h>

typedef uint32_t Lit;   // 2 * v for v, and 2 * v + 1 for -v

typedef struct {
    Lit watched[2];
    uint32_t next[2];
    uint64_t start;
    uint32_t third, shape;   // the shape is four times the number of literals, and the flags
} Clause;

_Static_assert(sizeof(Clause) == 32, "a record is half a line of the cache");

static Lit *lits;
static Clause *clauses;
static uint32_t *heads, *tails;
static int8_t *values;
static Lit *trail;
static uint32_t *reasons, *levels;
static uint32_t length, done, level;
#ifdef COUNT
static uint64_t visits;
#endif

static void *room(size_t count, size_t size) {
    size_t bytes = (count * size + 63) / 64 * 64;
#ifdef MALLOC
    void *found = malloc(bytes);
#else
    void *found = aligned_alloc(64, bytes);
#endif
    if (!found)
        exit(1);
    return memset(found, 0, bytes);
}

static inline void assign(Lit lit, uint32_t reason) {
    values[lit] = 1;
    values[lit ^ 1] = -1;
    reasons[lit / 2] = reason;
    levels[lit / 2] = level;
    trail[length++] = lit;
}

static inline void append(uint32_t id, int place, Lit lit) {
    uint32_t last = tails[lit];
    clauses[id].watched[place] = lit;
    clauses[id].next[place] = 0;
    tails[lit] = id;
    if (last)
        clauses[last].next[clauses[last].watched[0] != lit] = id;
    else
        heads[lit] = id;
}

// A literal of the clause that is neither false nor this other one, or 0. Of a clause of three it is the third one.
static inline Lit replacement(const Clause *clause, Lit falsified, Lit other) {
    if (clause->shape / 4 == 3) {
        Lit third = clause->third ^ falsified ^ other;
        return values[third] >= 0 ? third : 0;
    }
    for (uint64_t at = clause->start, end = at + clause->shape / 4; at < end; at++)
        if (values[lits[at]] >= 0 && lits[at] != other)
            return lits[at];
    return 0;
}

#ifdef RELINK
static uint32_t visit_all(Lit falsified) {
    uint32_t id = heads[falsified], conflict = 0;
    heads[falsified] = tails[falsified] = 0;
    while (id) {
        Clause *clause = &clauses[id];
        int place = clause->watched[0] != falsified;
        uint32_t next = clause->next[place];
        Lit other = clause->watched[1 - place], to = falsified;
#ifdef COUNT
        visits += !conflict;
#endif
        if (!conflict && values[other] <= 0) {
            Lit found = replacement(clause, falsified, other);
            if (found)
                to = found;
            else if (values[other] < 0)
                conflict = id;
            else
                assign(other, id);
        }
        append(id, place, to);
        id = next;
    }
    return conflict;
}
#else
static uint32_t visit_all(Lit falsified) {
    uint32_t *from = &heads[falsified], last = 0;
    for (uint32_t id = *from; id;) {
        Clause *clause = &clauses[id];
        int place = clause->watched[0] != falsified;
        uint32_t next = clause->next[place];
        Lit other = clause->watched[1 - place];
#ifdef COUNT
        visits++;
#endif
        if (values[other] <= 0) {
            Lit found = replacement(clause, falsified, other);
            if (found) {
                *from = next;
                if (!next)
                    tails[falsified] = last;
                append(id, place, found);
                id = next;
                continue;
            }
            if (values[other] < 0)
                return id;
            assign(other, id);
        }
        from = &clause->next[place];
        last = id;
        id = next;
    }
    return 0;
}
#endif

__attribute__((noinline)) static uint32_t propagate(void) {
    while (done < length) {
        uint32_t conflict = visit_all(trail[done] ^ 1);
        if (conflict)
            return conflict;
        done++;
    }
    return 0;
}

static void read_formula(void) {
    uint32_t most_clauses = 1, most_lits = 16, count = 0, used = 0, vars = kernel_vars();
    Lit *read = malloc(most_lits * sizeof *read);
    uint32_t *ends = malloc(most_clauses * sizeof *ends);
    for (;;) {
        uint32_t begin = used;
        for (int32_t lit; (lit = kernel_literal());) {
            if (used == most_lits)
                read = realloc(read, (most_lits *= 2) * sizeof *read);
            read[used++] = lit > 0 ? 2 * (Lit)lit : 2 * (Lit)-lit + 1;
        }
        if (used == begin)
            break;
        if (count == most_clauses)
            ends = realloc(ends, (most_clauses *= 2) * sizeof *ends);
        ends[count++] = used;
    }
    lits = room(used, sizeof *lits);
    clauses = room(count + 1, sizeof *clauses);
    heads = room(2 * vars + 2, sizeof *heads);
    tails = room(2 * vars + 2, sizeof *tails);
    values = room(2 * vars + 2, sizeof *values);
    trail = room(vars + 1, sizeof *trail);
    reasons = room(vars + 1, sizeof *reasons);
    levels = room(vars + 1, sizeof *levels);
    for (uint32_t at = 0; at < used; at++)
        lits[at] = read[at];
    for (uint32_t id = 1, begin = 0; id <= count; begin = ends[id++ - 1]) {
        clauses[id].start = begin;
        clauses[id].shape = 4 * (ends[id - 1] - begin);
        clauses[id].watched[0] = lits[begin];
        if (ends[id - 1] - begin == 3)
            clauses[id].third = lits[begin] ^ lits[begin + 1] ^ lits[begin + 2];
        append(id, 0, lits[begin]);
        append(id, 1, lits[begin + 1]);
    }
    free(read);
    free(ends);
}

int main(void) {
    read_formula();
    uint32_t codes = 2 * kernel_vars();
    uint64_t all = 0, decisions = 0, conflicts = 0;
    for (uint32_t round = 0; round < kernel_rounds(); round++) {
        for (uint32_t conflict = 0; !conflict && length < kernel_vars();) {
            uint32_t code = kernel_choice();
            while (values[code + 2])
                code = code + 1 < codes ? code + 1 : 0;
            level++;
            assign(code + 2, 0);
            decisions++;
            kernel_start();
            conflict = propagate();
            kernel_stop();
            conflicts += conflict != 0;
        }
        all += length;
        while (length) {
            Lit lit = trail[--length];
            values[lit] = values[lit ^ 1] = 0;
        }
        done = level = 0;
    }
    kernel_report(all, decisions, conflicts);
#ifdef COUNT
    fprintf(stderr, "visits %llu\n", (unsigned long long)visits);
#endif
}
