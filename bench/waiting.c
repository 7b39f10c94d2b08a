/* Runs a program and waits for each of its replies: writes a line of standard input to it, reads lines of its output up to
   the one that answers, and goes on. The first line of output is read before any is written.
   usage: waiting PROGRAM DATABASE < ENTRIES */
#include <stdio.h>
#include <stdlib.h>
#include <sys/wait.h>
#include <unistd.h>

static void need(int is_done, const char *what) {
    if (!is_done) {
        perror(what);
        exit(70);
    }
}

int main(int argc, char **argv) {
    if (argc != 3) {
        fprintf(stderr, "usage: waiting PROGRAM DATABASE < ENTRIES\n");
        return 64;
    }
    int to[2], from[2];
    need(pipe(to) == 0 && pipe(from) == 0, "pipe");
    pid_t child = fork();
    need(child >= 0, "fork");
    if (child == 0) {
        dup2(to[0], 0);
        dup2(from[1], 1);
        close(to[1]);
        close(from[0]);
        execl(argv[1], argv[1], argv[2], (char *)0);
        perror("exec");
        _exit(70);
    }
    close(to[0]);
    close(from[1]);
    FILE *in = fdopen(to[1], "w"), *out = fdopen(from[0], "r");
    need(in && out, "fdopen");
    char *line = 0, *reply = 0;
    size_t room = 0, more = 0;
    need(getline(&reply, &more, out) > 0, "opening");
    while (getline(&line, &room, stdin) > 0) {
        need(fputs(line, in) >= 0 && fflush(in) == 0, "write");
        need(getline(&reply, &more, out) > 0, "reply");
    }
    fclose(in);
    while (getline(&reply, &more, out) > 0) {
    }
    fputs(reply, stdout);
    int status;
    need(waitpid(child, &status, 0) == child, "wait");
    return WIFEXITED(status) ? WEXITSTATUS(status) : 70;
}
