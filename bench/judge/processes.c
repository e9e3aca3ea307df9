// processes INTERPRETER < JOBS: runs an image in a process of its own for each job, one after the other, as a judge does
// that starts a program for each test.
//
// A job is a line `SUBMISSION INSTRUCTIONS PAGES OUTPUT IMAGE INPUT`. After a run that does not end by exit 0 the rest of
// its submission's jobs is left out, as nothing could change the verdict. Writes how many runs were made, and their cost.
#include <fcntl.h>
#include <stdio.h>
#include <stdlib.h>
#include <string.h>
#include <sys/wait.h>
#include <unistd.h>

static long long cost;

static int run(const char *interpreter, char *limits[3], const char *image, const char *input) {
    int ends[2];
    if (pipe(ends)) return -1;
    pid_t child = vfork();
    if (child == 0) {
        int in = open(input, O_RDONLY), out = open("/dev/null", O_WRONLY);
        dup2(in, 0);
        dup2(out, 1);
        dup2(ends[1], 2);
        close(ends[0]);
        execl(interpreter, interpreter, "--instructions", limits[0], "--pages", limits[1], "--output", limits[2], image, (char *)0);
        _exit(127);
    }
    close(ends[1]);
    char said[512];
    long length = 0;
    for (long n; (n = read(ends[0], said + length, sizeof said - 1 - (size_t)length)) > 0;) length += n;
    close(ends[0]);
    said[length] = 0;
    int status;
    if (child < 0 || waitpid(child, &status, 0) != child || status) return -1;
    const char *found = strstr(said, " cost ");
    if (!found) return -1;
    cost += atoll(found + 6);
    return strstr(said, "ending exit=0 ") != NULL;
}

int main(int argc, char **argv) {
    static char submission[32], skipped[32], number[3][32], image[4096], input[4096];
    char *limits[3] = {number[0], number[1], number[2]};
    long runs = 0;
    if (argc != 2) return 2;
    while (scanf("%31s %31s %31s %31s %4095s %4095s", submission, number[0], number[1], number[2], image, input) == 6) {
        if (strcmp(submission, skipped) == 0) continue;
        int good = run(argv[1], limits, image, input);
        if (good < 0) return fprintf(stderr, "%s failed on %s\n", argv[1], image), 1;
        if (!good) strcpy(skipped, submission);
        runs++;
    }
    printf("%ld %lld\n", runs, cost);
    return 0;
}
