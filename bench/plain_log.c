/* The least that a log of this order costs: each record is written and synced, and then its gate is written and
   synced. usage: plain_log FILE RECORDS */
#include <fcntl.h>
#include <stdio.h>
#include <stdlib.h>
#include <string.h>
#include <unistd.h>

static void need(int is_done, const char *what) {
    if (!is_done) {
        perror(what);
        exit(70);
    }
}

int main(int argc, char **argv) {
    if (argc != 3) {
        fprintf(stderr, "usage: plain_log FILE RECORDS\n");
        return 64;
    }
    int file = open(argv[1], O_RDWR | O_CREAT | O_TRUNC, 0666);
    need(file >= 0, "open");
    char record[51] = {0};
    record[7] = 42;
    memset(record + 8, 'x', 42);
    off_t end = 10;
    for (long left = atol(argv[2]); left > 0; left--) {
        need(pwrite(file, record, sizeof record, end + 1) == sizeof record, "write");
        need(fdatasync(file) == 0, "sync");
        need(pwrite(file, "\1", 1, end) == 1, "write");
        need(fdatasync(file) == 0, "sync");
        end += sizeof record;
    }
    return 0;
}
