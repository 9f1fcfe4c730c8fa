/* Runs a program and adds a line to a file: measure FILE WORDS PROGRAM ARGUMENTS... The line has the words, the
 * microseconds from the program's start to its end, the most KiB of memory that it had at once, its page faults, and how often its threads
 * gave a processor away or lost it. */
#include <fcntl.h>
#include <stdio.h>
#include <stdlib.h>
#include <sys/resource.h>
#include <sys/wait.h>
#include <time.h>
#include <unistd.h>

static long long microseconds(void)
{
    struct timespec now;
    clock_gettime(CLOCK_MONOTONIC, &now);
    return now.tv_sec * 1000000LL + now.tv_nsec / 1000;
}

int main(int count, char **words)
{
    struct rusage usage;
    int status = 0;
    if (count < 4) {
        fputs("measure FILE WORDS PROGRAM ARGUMENTS...\n", stderr);
        return 2;
    }
    long long start = microseconds();
    pid_t child = fork();
    if (child == 0) {
        execv(words[3], words + 3);
        perror(words[3]);
        _exit(127);
    }
    if (child == -1 || wait4(child, &status, 0, &usage) != child) {
        perror("measure");
        return 1;
    }
    long long taken = microseconds() - start;
    FILE *file = fopen(words[1], "a");
    if (file == NULL || fprintf(file, "%s %lld %ld %ld %ld\n", words[2], taken, usage.ru_maxrss, usage.ru_minflt + usage.ru_majflt,
                                usage.ru_nvcsw + usage.ru_nivcsw) < 0 || fclose(file) != 0) {
        perror(words[1]);
        return 1;
    }
    return WIFEXITED(status) ? WEXITSTATUS(status) : 1;
}
