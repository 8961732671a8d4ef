/* Compares the proved blend_run with pixman's OVER, pixel by pixel, and measures it beside the same
   formula in C, pixman and memcpy, in one run: the medians of the processor time of some turns, in which each has
   its turn after the other.

   The pixels that are compared are random bytes: a source's channels may be above its alpha, so that
   sums are held at 255. Those are measured, premultiplied, opaque and transparent pixels. A framebuffer's pixel is blue, green, red and 255, which
   pixman calls a8r8g8b8 on a machine whose least byte comes first; what is measured is its OVER to x8r8g8b8, as a compositor has it. */
#include <pixman.h>
#include <stdint.h>
#include <stdio.h>
#include <stdlib.h>
#include <string.h>
#include <time.h>

void bench_blend_run(uint8_t *dst, size_t dst_len, const uint8_t *src, size_t src_len);

enum { WIDTH = 1920, HEIGHT = 1080, PIXELS = WIDTH * HEIGHT, BYTES = 4 * PIXELS, TURNS = 31, LOOPS = 4 };

static double seconds(void)
{
    struct timespec now;
    clock_gettime(CLOCK_PROCESS_CPUTIME_ID, &now);
    return (double)now.tv_sec + (double)now.tv_nsec / 1e9;
}

static uint64_t state = 0x9e3779b97f4a7c15u;

/* xorshift64*, https://doi.org/10.1145/2845077 */
static uint8_t random_byte(void)
{
    state ^= state >> 12;
    state ^= state << 25;
    state ^= state >> 27;
    return (uint8_t)((state * 0x2545f4914f6cdd1du) >> 56);
}

static uint8_t channel(uint8_t under, uint8_t over, uint8_t alpha)
{
    uint32_t shown = (uint32_t)under * (uint32_t)(255 - alpha);
    uint32_t sum = over + (2 * shown + 255) / 510;
    return (uint8_t)(sum < 255 ? sum : 255);
}

static void c_blend_run(uint8_t *dst, size_t dst_len, const uint8_t *src, size_t src_len)
{
    (void)src_len;
    for (size_t k = 0; k < dst_len / 4; k++) {
        uint8_t alpha = src[4 * k + 3];
        dst[4 * k] = channel(dst[4 * k], src[4 * k], alpha);
        dst[4 * k + 1] = channel(dst[4 * k + 1], src[4 * k + 1], alpha);
        dst[4 * k + 2] = channel(dst[4 * k + 2], src[4 * k + 2], alpha);
        dst[4 * k + 3] = 255;
    }
}

static void pixman_over(pixman_format_code_t format, uint8_t *dst, size_t dst_len, const uint8_t *src)
{
    int height = (int)(dst_len / 4 / WIDTH);
    pixman_image_t *under = pixman_image_create_bits(format, WIDTH, height, (uint32_t *)(void *)dst, 4 * WIDTH);
    pixman_image_t *over = pixman_image_create_bits(PIXMAN_a8r8g8b8, WIDTH, height, (uint32_t *)(void *)src, 4 * WIDTH);
    if (under == NULL || over == NULL) {
        fprintf(stderr, "pixman: out of memory\n");
        exit(1);
    }
    pixman_image_composite32(PIXMAN_OP_OVER, over, NULL, under, 0, 0, 0, 0, 0, 0, WIDTH, height);
    pixman_image_unref(over);
    pixman_image_unref(under);
}

static void pixman_blend_run(uint8_t *dst, size_t dst_len, const uint8_t *src, size_t src_len)
{
    (void)src_len;
    pixman_over(PIXMAN_x8r8g8b8, dst, dst_len, src);
}

static void copy_run(uint8_t *dst, size_t dst_len, const uint8_t *src, size_t src_len)
{
    (void)src_len;
    memcpy(dst, src, dst_len);
}

typedef void (*blend_loop)(uint8_t *, size_t, const uint8_t *, size_t);

static const struct {
    const char *name;
    blend_loop blend;
} loops[LOOPS] = {
    {"blend_run", bench_blend_run},
    {"the formula in C at -O2", c_blend_run},
    {"pixman", pixman_blend_run},
    {"memcpy", copy_run},
};

static int compare(const void *one, const void *other)
{
    double a = *(const double *)one, b = *(const double *)other;
    return (a > b) - (a < b);
}

static size_t differences(const uint8_t *one, const uint8_t *other)
{
    size_t found = 0;
    for (size_t k = 0; k < PIXELS; k++)
        found += memcmp(one + 4 * k, other + 4 * k, 4) != 0;
    return found;
}

static void measure(const char *name, uint8_t *dst, const uint8_t *before, const uint8_t *src)
{
    static double took[LOOPS][TURNS];
    for (int turn = 0; turn < TURNS; turn++) {
        for (int k = 0; k < LOOPS; k++) {
            memcpy(dst, before, BYTES);
            double start = seconds();
            loops[k].blend(dst, BYTES, src, BYTES);
            took[k][turn] = seconds() - start;
        }
    }
    printf("%s:", name);
    for (int k = 0; k < LOOPS; k++) {
        qsort(took[k], TURNS, sizeof(double), compare);
        printf("%s %s %.0f MB/s (%.2f)", k == 0 ? "" : ",", loops[k].name, BYTES / 1e6 / took[k][TURNS / 2],
            took[k][TURNS / 2] / took[0][TURNS / 2]);
    }
    printf("\n");
}

int main(void)
{
    uint8_t *src = malloc(BYTES), *before = malloc(BYTES);
    uint8_t *proved = malloc(BYTES), *peer = malloc(BYTES);
    if (src == NULL || before == NULL || proved == NULL || peer == NULL) {
        fprintf(stderr, "out of memory\n");
        return 1;
    }
    for (size_t k = 0; k < BYTES; k++) {
        src[k] = random_byte();
        before[k] = k % 4 == 3 ? 255 : random_byte();
    }
    pixman_over(PIXMAN_a8r8g8b8, memcpy(peer, before, BYTES), BYTES, src);
    bench_blend_run(memcpy(proved, before, BYTES), BYTES, src, BYTES);
    size_t found = differences(proved, peer);
    c_blend_run(memcpy(peer, before, BYTES), BYTES, src, BYTES);
    found += differences(proved, peer);
    printf("%d random pixels: %zu differences from pixman's OVER and the formula in C\n", PIXELS, found);

    measure("random bytes", proved, before, src);
    for (size_t k = 0; k < BYTES; k++)
        src[k] = k % 4 == 3 ? src[k] : (uint8_t)(src[k] * src[k | 3] / 255);
    measure("premultiplied", proved, before, src);
    for (size_t k = 3; k < BYTES; k += 4)
        src[k] = 255;
    measure("opaque", proved, before, src);
    memset(src, 0, BYTES);
    measure("transparent", proved, before, src);
    return found != 0;
}
