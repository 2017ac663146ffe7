/* Runs programs in turn on the same standard input, several times, and prints for each its best processor time in seconds and
   the most memory that it took in kB.
   timed ROUNDS INPUT PROGRAM... */
#include <fcntl.h>
#include <stdio.h>
#include <stdlib.h>
#include <sys/resource.h>
#include <sys/wait.h>
#include <unistd.h>

static double seconds(struct timeval t) { return t.tv_sec + t.tv_usec / 1e6; }

/* Runs a program once; its use of time and memory. */
static struct rusage run(const char *program, const char *input) {
    struct rusage used;
    int status;
    pid_t child = fork();
    if (child == 0) {
        int from = open(input, O_RDONLY), to = open("/dev/null", O_WRONLY);
        if (from < 0 || to < 0 || dup2(from, 0) < 0 || dup2(to, 1) < 0) _exit(127);
        execl(program, program, (char *)NULL);
        _exit(127);
    }
    if (child < 0 || wait4(child, &status, 0, &used) != child || status != 0) {
        fprintf(stderr, "timed: %s did not run on %s\n", program, input);
        exit(1);
    }
    return used;
}

int main(int argc, char **argv) {
    double best[8];
    long most[8] = {0};
    int programs = argc - 3;
    if (programs < 1 || programs > 8) return 2;
    for (int round = 0; round < atoi(argv[1]); round++)
        for (int i = 0; i < programs; i++) {
            struct rusage used = run(argv[3 + i], argv[2]);
            double time = seconds(used.ru_utime) + seconds(used.ru_stime);
            if (round == 0 || time < best[i]) best[i] = time;
            if (used.ru_maxrss > most[i]) most[i] = used.ru_maxrss;
        }
    for (int i = 0; i < programs; i++) printf("%.3f %ld\n", best[i], most[i]);
    return 0;
}
