// The lines of a report, the clock, and the peak of memory.
#pragma once
#include "problem.hpp"
#include <ctime>
#include <sys/time.h>

inline void put_set(std::string& text, char letter, const Groups& set) {
    text += letter;
    for (int group : set) text += ' ', text += std::to_string(group);
    text += " 0\n";
}

inline void put_sets(std::string& text, char letter, std::vector<Groups>& sets) {
    for (Groups& set : sets) std::sort(set.begin(), set.end());
    std::sort(sets.begin(), sets.end());
    for (const Groups& set : sets) put_set(text, letter, set);
}

inline void write_report(const std::string& text) {
    if (std::fwrite(text.data(), 1, text.size(), stdout) != text.size() || std::fflush(stdout))
        fail(NotWritten, "write fault on report");
}

// The peak of resident memory since this program began, in kB. What the parent counts has the parent's own in it.
inline unsigned long peak_of_memory() {
    unsigned long peak = 0;
    char line[256];
    if (std::FILE* file = std::fopen("/proc/self/status", "r")) {
        while (std::fgets(line, sizeof line, file) && std::sscanf(line, "VmHWM: %lu", &peak) != 1) {}
        std::fclose(file);
    }
    return peak;
}

// When the time is up: after so many seconds of the clock from now on, or of the processor since this program began.
struct Clock {
    double seconds = 0, of_processor = 0;    // 0 for as long as it takes

    bool is_bad() const { return seconds < 0 || of_processor < 0; }
    // Begins what counts seconds of the processor, before the file is read, and then the other one.
    void start_first() const {
        if (of_processor > 0) start(ITIMER_PROF, SIGPROF, of_processor - double(std::clock()) / CLOCKS_PER_SEC);
    }
    void start_second() const {
        if (seconds > 0) start(ITIMER_REAL, SIGALRM, seconds);
    }

private:
    static void start(__itimer_which which, int signal, double left) {
        std::signal(signal, [](int) { time_is_up = 1; Solver::stop_all(); });
        left = std::max(left, 0.0);
        itimerval timer{};
        timer.it_value.tv_sec = long(left);
        timer.it_value.tv_usec = long((left - double(long(left))) * 1e6) + 1;
        setitimer(which, &timer, nullptr);
    }
};
