// What reading and writing a text of evidence costs at least.
//
//     plain scan FILE             times a loop over the words of the text in memory, which adds up their numbers
//     plain write FILE OUTPUT     times a loop that writes the same words again, through a buffer of 256 KiB
//
// Reading FILE into memory, and into words, is not in these times. Prints seconds of the processor.
#include <fcntl.h>
#include <stdint.h>
#include <stdio.h>
#include <stdlib.h>
#include <string.h>
#include <sys/stat.h>
#include <time.h>
#include <unistd.h>

static double now(void) {
    struct timespec t;
    clock_gettime(CLOCK_PROCESS_CPUTIME_ID, &t);
    return t.tv_sec + t.tv_nsec * 1e-9;
}

static char *text;
static size_t size;

static void load(const char *name) {
    int file = open(name, O_RDONLY);
    struct stat about;
    if (file < 0 || fstat(file, &about)) exit(1);
    size = about.st_size;
    text = malloc(size + 1);
    for (size_t have = 0; have < size;) {
        ssize_t got = read(file, text + have, size - have);
        if (got <= 0) exit(1);
        have += got;
    }
    close(file);
}

// A word: a letter or a longer word by its place, or a number; and what stands behind it.
struct word { int64_t number; const char *from; uint32_t length; char behind; };

// The next word from `at` on, and the place behind what stands behind it.
static size_t next(size_t at, struct word *w) {
    const char *p = text + at;
    w->from = p;
    int64_t number = 0;
    int negative = *p == '-';
    p += negative;
    if (*p >= '0' && *p <= '9') {
        while (*p >= '0' && *p <= '9') number = number * 10 + (*p++ - '0');
        w->length = 0;
    } else {
        while (*p != ' ' && *p != '\n') p++;
        w->length = p - w->from;
    }
    w->number = negative ? -number : number;
    w->behind = *p;
    return p + 1 - text;
}

static int scan(void) {
    double start = now();
    uint64_t sum = 0, words = 0, lines = 0;
    struct word w;
    for (size_t at = 0; at < size; words++) {
        at = next(at, &w);
        sum += w.number, lines += w.behind == '\n';
    }
    double seconds = now() - start;
    printf("seconds %.3f bytes %zu words %lu lines %lu sum %lu\n", seconds, size, words, lines, sum);
    return 0;
}

static char buffer[262144 + 64];
static size_t waiting;
static int output;

static void flush(void) {
    for (size_t done = 0; done < waiting;) {
        ssize_t wrote = write(output, buffer + done, waiting - done);
        if (wrote <= 0) exit(1);
        done += wrote;
    }
    waiting = 0;
}

static void put(const struct word *w) {
    if (w->length) {
        memcpy(buffer + waiting, w->from, w->length);
        waiting += w->length;
    } else {
        char digits[24];
        int count = 0;
        uint64_t rest = w->number < 0 ? -(uint64_t)w->number : (uint64_t)w->number;
        do digits[count++] = '0' + rest % 10, rest /= 10; while (rest);
        if (w->number < 0) buffer[waiting++] = '-';
        while (count) buffer[waiting++] = digits[--count];
    }
    buffer[waiting++] = w->behind;
    if (waiting >= 262144) flush();
}

static int copy(const char *name) {
    uint64_t room = 1 << 20, count = 0;
    struct word *words = malloc(room * sizeof *words);
    for (size_t at = 0; at < size;) {
        if (count == room) words = realloc(words, (room *= 2) * sizeof *words);
        if (!words) exit(1);
        at = next(at, &words[count++]);
    }
    output = open(name, O_WRONLY | O_CREAT | O_TRUNC, 0644);
    if (output < 0) exit(1);
    double start = now();
    for (uint64_t at = 0; at < count; at++) put(&words[at]);
    flush();
    printf("seconds %.3f bytes %zu words %lu\n", now() - start, size, count);
    return 0;
}

int main(int count, char **words) {
    if (count < 3) return 2;
    load(words[2]);
    if (!strcmp(words[1], "scan")) return scan();
    return count == 4 ? copy(words[3]) : 2;
}
