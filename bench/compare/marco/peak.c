// Runs a command, and writes its peak of resident memory in kB to a file.
//
//     peak FILE COMMAND WORDS..
//
// A process begins with the peak of the one that it was made of; that is this small one. It ends as the command did, and a
// SIGTERM to both ends the command alone.
#include <signal.h>
#include <stdio.h>
#include <sys/resource.h>
#include <sys/wait.h>
#include <unistd.h>

int main(int count, char **words) {
    if (count < 3) return 2;
    pid_t child = fork();
    if (child < 0) return 127;
    if (child == 0) {
        execvp(words[2], words + 2);
        _exit(127);
    }
    signal(SIGTERM, SIG_IGN);
    int status = 0;
    struct rusage usage;
    if (wait4(child, &status, 0, &usage) < 0) return 127;
    FILE *file = fopen(words[1], "w");
    if (file) {
        fprintf(file, "%ld\n", usage.ru_maxrss);
        fclose(file);
    }
    if (!WIFSIGNALED(status)) return WEXITSTATUS(status);
    signal(WTERMSIG(status), SIG_DFL);
    raise(WTERMSIG(status));
    return 128 + WTERMSIG(status);
}
