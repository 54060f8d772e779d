/*
 * The physical limit of a durable one-block write: the writes and syncs that the array makes for one, and nothing else. Each
 * turn writes a chunk at some place and 36 bytes of a slot, syncs, writes one byte of a gate, and syncs.
 *
 *     limit FILE CHUNK_BYTES CHUNKS TURNS
 *
 * prints the seconds.
 */
#define _GNU_SOURCE
#include <fcntl.h>
#include <stdio.h>
#include <stdlib.h>
#include <string.h>
#include <time.h>
#include <unistd.h>

static void must(int holds, const char *what)
{
    if (!holds) {
        perror(what);
        exit(1);
    }
}

int main(int argc, char **argv)
{
    must(argc == 5, "limit FILE CHUNK_BYTES CHUNKS TURNS");
    long bytes = atol(argv[2]), chunks = atol(argv[3]), turns = atol(argv[4]);
    const long gates = 8192, slots = 12288, area = slots + 256 * 4096;
    char *chunk = malloc(bytes), slot[36] = {0}, gate = 1;
    must(chunk != NULL, "malloc");
    int fd = open(argv[1], O_RDWR | O_CREAT | O_TRUNC, 0666);
    must(fd >= 0 && ftruncate(fd, area + bytes * chunks) == 0, argv[1]);
    must(fdatasync(fd) == 0, "fdatasync");
    unsigned long drawn = 1;
    struct timespec from, to;
    clock_gettime(CLOCK_MONOTONIC, &from);
    for (long turn = 0; turn < turns; turn++) {
        drawn = drawn * 6364136223846793005UL + 1442695040888963407UL;
        memset(chunk, (int)turn, bytes);
        must(pwrite(fd, chunk, bytes, area + (long)((drawn >> 33) % chunks) * bytes) == bytes, "pwrite");
        must(pwrite(fd, slot, sizeof slot, slots + turn % 256 * 4096) == sizeof slot, "pwrite");
        must(fdatasync(fd) == 0, "fdatasync");
        must(pwrite(fd, &gate, 1, gates + turn % 256) == 1, "pwrite");
        must(fdatasync(fd) == 0, "fdatasync");
    }
    clock_gettime(CLOCK_MONOTONIC, &to);
    printf("%.6f\n", to.tv_sec - from.tv_sec + (to.tv_nsec - from.tv_nsec) / 1e9);
    return 0;
}
