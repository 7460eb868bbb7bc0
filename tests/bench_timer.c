/*
 * Runs a program once and says what it took: nanoseconds from before the fork to its end, microseconds of the
 * processor, and the most KiB that were resident. Its status is the program's. It is small itself, since Linux counts
 * what was resident before the exec too.
 *
 *     bench_timer IN OUT PROGRAM WORDS..      with standard input from IN and standard output to OUT
 */
#include <fcntl.h>
#include <stdio.h>
#include <sys/resource.h>
#include <sys/wait.h>
#include <time.h>
#include <unistd.h>

static long long now(void)
{
    struct timespec time;
    clock_gettime(CLOCK_MONOTONIC, &time);
    return time.tv_sec * 1000000000LL + time.tv_nsec;
}

static long long microseconds(struct timeval time)
{
    return time.tv_sec * 1000000LL + time.tv_usec;
}

int main(int argc, char **argv)
{
    struct rusage usage;
    int status, in, out;
    long long begun;
    pid_t child;
    if (argc < 4)
        return 2;
    in = open(argv[1], O_RDONLY);
    out = open(argv[2], O_WRONLY | O_CREAT | O_TRUNC, 0666);
    if (in < 0 || out < 0)
        return 2;
    begun = now();
    child = fork();
    if (child < 0)
        return 2;
    if (child == 0) {
        if (dup2(in, 0) == 0 && dup2(out, 1) == 1)
            execvp(argv[3], argv + 3);
        _exit(2);
    }
    if (wait4(child, &status, 0, &usage) != child)
        return 2;
    printf("%lld %lld %ld\n", now() - begun, microseconds(usage.ru_utime) + microseconds(usage.ru_stime),
           usage.ru_maxrss);
    return WIFEXITED(status) ? WEXITSTATUS(status) : 2;
}
