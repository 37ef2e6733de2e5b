/* The writes and syncs of 32 reservations, without a register: for each the kind and the length, the contents and a closed gate
   behind the closed gate at the end of the file, a sync, the open gate, a sync. Usage: register PATH OCTETS. It prints the
   nanoseconds of all of them. */
#include <fcntl.h>
#include <stdio.h>
#include <stdlib.h>
#include <string.h>
#include <time.h>
#include <unistd.h>

int main(int argc, char **argv) {
    if (argc != 3) return 2;
    int file = open(argv[1], O_RDWR | O_CREAT | O_TRUNC, 0600);
    size_t len = strtoul(argv[2], 0, 10);
    unsigned char *contents = malloc(len + 1), head[77] = {0}, front[5] = {2}, open_gate = 0xA5, closed_gate = 0;
    if (file < 0 || !contents) return 1;
    memset(contents, 7, len);
    if (pwrite(file, head, 77, 0) != 77 || fsync(file)) return 1;
    off_t gate = 76;
    struct timespec from, to;
    clock_gettime(CLOCK_MONOTONIC, &from);
    for (int i = 0; i < 32; i++) {
        for (int k = 0; k < 4; k++) front[1 + k] = (unsigned char)(len >> (24 - 8 * k));
        if (pwrite(file, front, 5, gate + 1) != 5) return 1;
        if (pwrite(file, contents, len, gate + 6) != (ssize_t)len) return 1;
        if (pwrite(file, &closed_gate, 1, gate + 6 + (off_t)len) != 1 || fsync(file)) return 1;
        if (pwrite(file, &open_gate, 1, gate) != 1 || fsync(file)) return 1;
        gate += 6 + (off_t)len;
    }
    clock_gettime(CLOCK_MONOTONIC, &to);
    printf("%lld\n", (long long)(to.tv_sec - from.tv_sec) * 1000000000 + (to.tv_nsec - from.tv_nsec));
    return 0;
}
