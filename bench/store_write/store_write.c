/* Measures Stores::write beside memcpy, in MB/s of bytes written, in one run.
   Both go through a block of the same size in the same steps, and both times
   include making the block and filling it with zeros. Then it measures one
   store of the most bytes that stores may have, and 1,000 that come and go. */
#include <stdint.h>
#include <stdio.h>
#include <stdlib.h>
#include <string.h>
#include <time.h>

uint32_t bench_store_write(int32_t size, const uint8_t *piece, size_t piece_len, uint32_t rounds);
uint32_t bench_store_create(int32_t size, uint32_t rounds);

enum { STORE_SIZE = 32 * 1024 * 1024, MOST = 256 * 1024 * 1024, TURNS = 5 };

static double seconds(void)
{
    struct timespec now;
    clock_gettime(CLOCK_MONOTONIC, &now);
    return (double)now.tv_sec + (double)now.tv_nsec / 1e9;
}

static uint32_t memcpy_write(int32_t size, const uint8_t *piece, size_t piece_len, uint32_t rounds)
{
    uint8_t *block = malloc((size_t)size);
    if (block == NULL)
        return 0;
    memset(block, 0, (size_t)size);
    size_t at = 0;
    for (uint32_t round = 0; round < rounds; round++) {
        memcpy(block + at, piece, piece_len);
        __asm__ volatile("" : : "r"(block) : "memory");
        at = at + 2 * piece_len <= (size_t)size ? at + piece_len : 0;
    }
    free(block);
    return rounds;
}

typedef uint32_t (*write_loop)(int32_t, const uint8_t *, size_t, uint32_t);

/* The best of some turns, in MB/s. */
static double rate(write_loop loop, const uint8_t *piece, size_t piece_len, uint32_t rounds)
{
    double best = 0;
    for (int turn = 0; turn < TURNS; turn++) {
        double start = seconds();
        if (loop(STORE_SIZE, piece, piece_len, rounds) != rounds) {
            fprintf(stderr, "a write was refused\n");
            exit(1);
        }
        double took = seconds() - start;
        double megabytes = (double)piece_len * rounds / 1e6;
        if (megabytes / took > best)
            best = megabytes / took;
    }
    return best;
}

/* The least of some turns, in milliseconds. */
static double made_in(int32_t size, uint32_t rounds)
{
    double least = 0;
    for (int turn = 0; turn < TURNS; turn++) {
        double start = seconds();
        if (bench_store_create(size, rounds) != rounds) {
            fprintf(stderr, "a store was refused\n");
            exit(1);
        }
        double took = 1e3 * (seconds() - start);
        if (turn == 0 || took < least)
            least = took;
    }
    return least;
}

int main(void)
{
    static const size_t lengths[] = { 64, 1024, 4096, 65536, 1048576 };
    static uint8_t piece[1048576];
    for (size_t k = 0; k < sizeof piece; k++)
        piece[k] = (uint8_t)(k * 31);
    printf("%10s %14s %14s %7s\n", "piece", "write MB/s", "memcpy MB/s", "ratio");
    for (size_t k = 0; k < sizeof lengths / sizeof *lengths; k++) {
        uint32_t rounds = (uint32_t)(2000000000u / lengths[k]);
        double copied = rate(memcpy_write, piece, lengths[k], rounds);
        double written = rate(bench_store_write, piece, lengths[k], rounds);
        printf("%10zu %14.0f %14.0f %7.2f\n", lengths[k], written, copied, written / copied);
    }
    double one = made_in(MOST, 1);
    double thousand = made_in(MOST, 1000);
    printf("a store of 256 MiB: %.1f ms; 1,000 that come and go: %.1f ms\n", one, thousand);
    return 0;
}
