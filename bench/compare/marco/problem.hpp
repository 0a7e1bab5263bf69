// A GCNF or CNF file, and how the programs here end.
#pragma once
#include "solver.hpp"
#include <algorithm>
#include <cstdio>
#include <cstring>

enum Status { Complete = 0, BadWords = 2, OutOfTime = 3, AtLimit = 4, BadInput = 5, NoFile = 6, NotWritten = 7 };

struct Clause { int group; Lits lits; };
struct Problem { int variables = 0, groups = 0; std::vector<Clause> clauses; };

[[noreturn]] inline void fail(Status status, const std::string& why) {
    std::fprintf(stderr, "marco: %s\n", why.c_str());
    std::exit(status);
}

// Reads the numbers, braces and words of a text, without the lines of comment.
class Reader {
public:
    explicit Reader(const std::string& text) : text(text) {}
    bool at_end() { skip(); return at == text.size(); }
    bool takes(const char* word) {
        skip();
        size_t length = std::strlen(word);
        bool stands = text.compare(at, length, word) == 0;
        if (stands) at += length;
        return stands;
    }
    void expect(const char* word) {
        if (!takes(word)) fail(BadInput, std::string("input refused: no ") + word);
    }
    int number(int least, int most) {
        skip();
        bool negative = at < text.size() && text[at] == '-';
        size_t digits = at += negative;
        long value = 0;
        for (; at < text.size() && text[at] >= '0' && text[at] <= '9' && value <= most; at++)
            value = value * 10 + (text[at] - '0');
        if (negative) value = -value;
        if (at == digits || value < least || value > most) fail(BadInput, "input refused: a number is bad");
        return int(value);
    }

private:
    void skip() {
        while (at < text.size()) {
            char byte = text[at];
            if (byte == 'c' && only_blanks) at = std::min(text.find('\n', at), text.size());
            else if (byte == '\n') only_blanks = true, at++;
            else if (byte == ' ' || byte == '\t') at++;
            else if (byte == '\r') only_blanks = false, at++;
            else break;
        }
        only_blanks = false;
    }
    const std::string& text;
    size_t at = 0;
    bool only_blanks = true;       // since the line began
};

inline Problem read_problem(const char* name) {
    std::FILE* file = std::fopen(name, "rb");
    if (!file) fail(NoFile, "read fault on input");
    std::string text;
    static char piece[1 << 16];
    while (size_t length = std::fread(piece, 1, sizeof piece, file)) text.append(piece, length);
    std::fclose(file);
    Reader reader(text);
    reader.expect("p");
    bool in_groups = reader.takes("gcnf");
    if (!in_groups) reader.expect("cnf");
    Problem problem;
    problem.variables = reader.number(0, 4194304);
    int clauses = reader.number(0, 16777216);
    problem.groups = in_groups ? reader.number(0, 1048576) : clauses;
    for (int i = 0; i < clauses; i++) {
        Clause clause;
        clause.group = i + 1;
        if (in_groups) {
            reader.expect("{");
            clause.group = reader.number(0, problem.groups);
            reader.expect("}");
        }
        while (int lit = reader.number(-problem.variables, problem.variables)) clause.lits.push_back(lit);
        problem.clauses.push_back(std::move(clause));
    }
    if (!reader.at_end()) fail(BadInput, "input refused: more than the header says");
    return problem;
}
