/* Runs a command and prints its peak memory, in KiB, on standard error as peak=NUMBER: peak PROGRAM [WORD..]. The system counts
   the memory of whoever starts a process as its peak, too; this program is small, a script in Python isn't.
       cc -O2 bench/peak.c -o peak */
#define _DEFAULT_SOURCE
#include <stdio.h>
#include <sys/resource.h>
#include <sys/types.h>
#include <sys/wait.h>
#include <unistd.h>

int main(int count, char **words) {
    struct rusage used;
    int status;
    pid_t child;
    if (count < 2 || (child = fork()) < 0) return 2;
    if (child == 0) {
        execv(words[1], words + 1);
        _exit(127);
    }
    if (wait4(child, &status, 0, &used) != child || !WIFEXITED(status) || WEXITSTATUS(status)) return 1;
    fprintf(stderr, "peak=%ld\n", used.ru_maxrss);
    return 0;
}
