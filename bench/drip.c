/* Copies standard input to standard output, a pipe, by so many bytes at a time, and waits each time until the reader has taken
   them; ends when the reader does.
   drip BYTES */
#include <poll.h>
#include <stdio.h>
#include <stdlib.h>
#include <sys/ioctl.h>
#include <unistd.h>

int main(int argc, char **argv) {
    char bytes[4096];
    size_t step = argc > 1 ? strtoul(argv[1], NULL, 10) : 1;
    if (step < 1 || step > sizeof bytes) {
        fprintf(stderr, "drip: from 1 to %zu bytes at a time\n", sizeof bytes);
        return 2;
    }
    for (size_t n; (n = fread(bytes, 1, step, stdin)) > 0;) {
        if (write(STDOUT_FILENO, bytes, n) != (ssize_t)n) return 1;
        for (int left = 1; left;) {
            struct pollfd pipe = {STDOUT_FILENO, 0, 0};
            if (poll(&pipe, 1, 0) < 0 || ioctl(STDOUT_FILENO, FIONREAD, &left)) return 1;
            if (pipe.revents & POLLERR) return 0;
        }
    }
    return 0;
}
