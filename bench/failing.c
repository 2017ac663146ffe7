/* Runs a program whose input is what comes from standard input, at most a pipe's worth, and then a read that fails.
   failing PROGRAM */
#include <fcntl.h>
#include <unistd.h>

int main(int argc, char **argv) {
    char bytes[4096];
    int ends[2];
    if (argc != 2 || pipe2(ends, O_NONBLOCK)) return 2;
    for (ssize_t n; (n = read(STDIN_FILENO, bytes, sizeof bytes)) > 0;)
        if (write(ends[1], bytes, n) != n) return 2;
    /* the pipe's other end stays open: a read of the empty pipe fails */
    dup2(ends[0], STDIN_FILENO);
    execv(argv[1], argv + 1);
    return 2;
}
