/* feed COUNT: copies standard input to a pipe on standard output, COUNT bytes at
 * a time, each only when the reader has taken those before, so that a read of
 * the pipe gets just that many. */
#include <sched.h>
#include <stdio.h>
#include <stdlib.h>
#include <sys/ioctl.h>
#include <unistd.h>

static void wait_until_taken(void)
{
    for (int unread = 1; unread > 0;) {
        if (ioctl(STDOUT_FILENO, FIONREAD, &unread) != 0) {
            perror("feed: standard output is no pipe");
            exit(EXIT_FAILURE);
        }
        sched_yield();
    }
}

int main(int argc, char **argv)
{
    static char bytes[4096]; /* a write of up to PIPE_BUF bytes is not divided */
    size_t count = argc == 2 ? strtoul(argv[1], NULL, 10) : 0;
    if (count < 1 || count > sizeof bytes) {
        fprintf(stderr, "usage: feed COUNT, from 1 to %zu\n", sizeof bytes);
        return EXIT_FAILURE;
    }
    for (size_t got; (got = fread(bytes, 1, count, stdin)) > 0;) {
        if (write(STDOUT_FILENO, bytes, got) != (ssize_t)got) {
            perror("feed: write");
            return EXIT_FAILURE;
        }
        wait_until_taken();
    }
    return EXIT_SUCCESS;
}
