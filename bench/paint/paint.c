/* Measures frames of 1920 by 1080 that a window fills whose buffer is turned and scaled, in processor time: for each kind of frame the medians of
   some turns, in which each kind has its turn after the other, and in brackets how many times as long it takes as the one that is neither
   turned nor scaled. A turn's time is that of some frames less that of making the store and the image alone. */
#include <stdint.h>
#include <stdio.h>
#include <stdlib.h>
#include <time.h>

uint32_t bench_paint(uint8_t byte, uint32_t format, uint32_t transform, uint32_t scale, uint32_t rounds);

enum { TURNS = 7, FRAMES = 20, KINDS = 9 };

static const struct {
    uint32_t transform, scale;
} kinds[KINDS] = {{0, 1}, {0, 2}, {4, 1}, {6, 1}, {2, 1}, {1, 1}, {3, 1}, {1, 2}, {7, 1}};

static double seconds(void)
{
    struct timespec now;
    clock_gettime(CLOCK_PROCESS_CPUTIME_ID, &now);
    return (double)now.tv_sec + (double)now.tv_nsec / 1e9;
}

static double taken(uint8_t byte, uint32_t format, int kind, uint32_t rounds)
{
    double start = seconds();
    if (bench_paint(byte, format, kinds[kind].transform, kinds[kind].scale, rounds) != rounds) {
        fprintf(stderr, "a frame was not painted\n");
        exit(1);
    }
    return seconds() - start;
}

static int by_value(const void *a, const void *b)
{
    double x = *(const double *)a, y = *(const double *)b;
    return (x > y) - (x < y);
}

static void measure(const char *what, uint8_t byte, uint32_t format)
{
    static double times[KINDS][TURNS];
    for (int turn = 0; turn < TURNS; turn++)
        for (int kind = 0; kind < KINDS; kind++) {
            double nothing = taken(byte, format, kind, 1);
            times[kind][turn] = (taken(byte, format, kind, 1 + FRAMES) - nothing) / FRAMES;
        }
    printf("%s\n", what);
    double first = 0;
    for (int kind = 0; kind < KINDS; kind++) {
        qsort(times[kind], TURNS, sizeof times[kind][0], by_value);
        double median = times[kind][TURNS / 2];
        if (kind == 0)
            first = median;
        printf("  transform %u, scale %u: %.2f ms (%.2f), the least %.2f ms\n", kinds[kind].transform, kinds[kind].scale, 1000 * median,
            median / first, 1000 * times[kind][0]);
    }
}

int main(void)
{
    measure("xrgb8888", 255, 1);
    measure("argb8888, opaque by its pixels", 255, 0);
    measure("argb8888, half of what is below shows through", 128, 0);
    return 0;
}
