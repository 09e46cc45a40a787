/* Runs a program, and prints `peak` and its most memory in KiB on standard error. A small parent, since
   the kernel counts what a child had before it became the program. */
#include <stdio.h>
#include <sys/resource.h>
#include <sys/wait.h>
#include <unistd.h>

int main(int count, char **words) {
    struct rusage used;
    int status = 0;
    pid_t child = count < 2 ? -1 : fork();
    if (child == 0) {
        execv(words[1], words + 1);
        _exit(127);
    }
    if (child < 0 || wait4(child, &status, 0, &used) < 0)
        return 1;
    fprintf(stderr, "peak %ld\n", used.ru_maxrss);
    return status != 0;
}
