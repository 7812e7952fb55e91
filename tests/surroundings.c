/* Runs a program where it meets what a shell does not give it.
 * surroundings pipe PROGRAM: standard output is a pipe of 4,096 bytes that does not wait; writes what the pipe has.
 * surroundings terminal PROGRAM: standard input is a terminal on which `123`, Enter and the end-of-file key are typed;
 * ends with 0 if the program ends within five seconds. */
#define _GNU_SOURCE
#include <fcntl.h>
#include <signal.h>
#include <stdio.h>
#include <stdlib.h>
#include <string.h>
#include <sys/wait.h>
#include <unistd.h>

static int start(const char *program, int standard, int fd) {
    int child = fork();
    if (child == 0) {
        dup2(fd, standard);
        execl(program, program, (char *)0);
        _exit(127);
    }
    return child;
}

static int full_pipe(const char *program) {
    int ends[2], status;
    char bytes[4096];
    ssize_t got;
    if (pipe(ends) != 0 || fcntl(ends[1], F_SETPIPE_SZ, 4096) < 0 || fcntl(ends[1], F_SETFL, O_NONBLOCK) != 0) return 2;
    int child = start(program, 1, ends[1]);
    if (child < 0 || waitpid(child, &status, 0) != child) return 2;
    close(ends[1]);
    while ((got = read(ends[0], bytes, sizeof bytes)) > 0) fwrite(bytes, 1, (size_t)got, stdout);
    return 0;
}

static int terminal(const char *program) {
    int status, keys = posix_openpt(O_RDWR | O_NOCTTY);
    if (keys < 0 || grantpt(keys) != 0 || unlockpt(keys) != 0) return 2;
    int screen = open(ptsname(keys), O_RDWR | O_NOCTTY);
    if (screen < 0 || write(keys, "123\n\004", 5) != 5) return 2;
    int child = start(program, 0, screen);
    for (int i = 0; i < 500; i++) {
        if (waitpid(child, &status, WNOHANG) == child) return 0;
        usleep(10000);
    }
    kill(child, SIGKILL);
    return 1;
}

int main(int count, char **words) {
    if (count == 3 && strcmp(words[1], "pipe") == 0) return full_pipe(words[2]);
    if (count == 3 && strcmp(words[1], "terminal") == 0) return terminal(words[2]);
    return 2;
}
