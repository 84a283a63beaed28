// timed PROGRAM WORD..: runs a program whose text goes nowhere, and prints the microseconds of a processor that it took and its largest
// resident set in KiB. It is a small program of its own since that set is never less than the one of the process that forks it.
#include <fcntl.h>
#include <stdio.h>
#include <sys/resource.h>
#include <sys/wait.h>
#include <unistd.h>

static long microseconds(struct timeval time) {
    return time.tv_sec * 1000000L + time.tv_usec;
}

int main(int count, char **words) {
    struct rusage usage;
    int status = 0;
    pid_t child = count < 2 ? -1 : fork();
    if (child == 0) {
        dup2(open("/dev/null", O_WRONLY), 1);
        execv(words[1], words + 1);
        _exit(127);
    }
    if (child < 0 || wait4(child, &status, 0, &usage) < 0 || status != 0) {
        fprintf(stderr, "timed: wait status %d\n", status);
        return 1;
    }
    printf("%ld %ld\n", microseconds(usage.ru_utime) + microseconds(usage.ru_stime), usage.ru_maxrss);
    return 0;
}
