// peak FILE PROGRAM [WORD..]: runs a program and writes its peak memory, in KiB, and the time of the processor that it
// took, in microseconds, to a file.
#include <stdio.h>
#include <sys/resource.h>
#include <sys/wait.h>
#include <unistd.h>

int main(int argc, char **argv) {
    if (argc < 3) return 2;
    pid_t child = fork();
    if (child == 0) {
        execv(argv[2], argv + 2);
        _exit(127);
    }
    int status;
    struct rusage usage;
    FILE *file = fopen(argv[1], "w");
    if (child < 0 || !file || wait4(child, &status, 0, &usage) != child) return 2;
    long long seconds = (long long)usage.ru_utime.tv_sec + usage.ru_stime.tv_sec;
    long long took = 1000000 * seconds + usage.ru_utime.tv_usec + usage.ru_stime.tv_usec;
    fprintf(file, "%ld %lld\n", usage.ru_maxrss, took);
    return fclose(file) == 0 && WIFEXITED(status) ? WEXITSTATUS(status) : 2;
}
