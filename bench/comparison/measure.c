// Runs a program and says on a descriptor what it took: nanoseconds, the most memory in KiB, and the exit status,
// which is -1 where a signal ended it. `measure DESCRIPTOR PROGRAM WORD..`
//
// A process counts the memory of what it was before its program was started. So programs are started from here,
// which takes less than any of them, and not from python3.
#include <stdio.h>
#include <stdlib.h>
#include <sys/resource.h>
#include <sys/wait.h>
#include <time.h>
#include <unistd.h>

static long long now(void)
{
    struct timespec time;
    clock_gettime(CLOCK_MONOTONIC, &time);
    return time.tv_sec * 1000000000LL + time.tv_nsec;
}

int main(int count, char **words)
{
    if (count < 3)
        return 2;
    int descriptor = atoi(words[1]);
    long long start = now();
    pid_t child = fork();
    if (child == 0) {
        close(descriptor);
        execv(words[2], words + 2);
        _exit(127);
    }
    int status;
    struct rusage usage;
    if (child < 0 || wait4(child, &status, 0, &usage) != child)
        return 1;
    long long taken = now() - start;
    dprintf(descriptor, "%lld %ld %d\n", taken, usage.ru_maxrss, WIFEXITED(status) ? WEXITSTATUS(status) : -1);
    return 0;
}
