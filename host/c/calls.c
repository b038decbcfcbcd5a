/*
 * The calls of dihyravo.h from C: known pixels, each refusal, the size, bands, names, what lies around a buffer, the
 * stack. Prints a line for each test, then how many passed. Assumes a little-endian machine with POSIX threads.
 */
#define _POSIX_C_SOURCE 200809L
#include "dihyravo.h"
#include <float.h>
#include <math.h>
#include <pthread.h>
#include <stdio.h>
#include <stdlib.h>
#include <string.h>

#define FRESH 0xa5 /* what lent bytes are before a call */
#define WIDTH 4
#define HEIGHT 3
#define ROW (WIDTH * sizeof(float))
/* The next numbers above the limits. */
#define ABOVE_ARGUMENT (DIHYRAVO_LARGEST_ARGUMENT * (1 + DBL_EPSILON))
#define ABOVE_SAMPLE (DIHYRAVO_LARGEST_SAMPLE * (1 + FLT_EPSILON))

_Static_assert(sizeof(struct dihyravo_answer) == 48, "the call writes 48 bytes");

static int passed, failed;

static void test(const char *name, int ok)
{
    printf("%s %s\n", ok ? "ok" : "FAILED", name);
    if (ok) passed++;
    else failed++;
}

static int all_fresh(const void *bytes, size_t length)
{
    const unsigned char *at = bytes;
    for (size_t k = 0; k < length; k++)
        if (at[k] != FRESH) return 0;
    return 1;
}

/* A grey picture of 4 by 3, sixteenths from 0 on, and four corners picked askew on it. */
static const float grey[WIDTH * HEIGHT] = {0.0f,    0.0625f, 0.125f,  0.1875f, 0.25f,  0.3125f,
                                           0.375f,  0.4375f, 0.5f,    0.5625f, 0.625f, 0.6875f};
static const double corners[16] = {0.5, 0.25, 0, 0, 3.5, 0, 4, 0, 4, 2.75, 4, 3, 0.25, 3, 0, 3};

static struct dihyravo_job plain(void)
{
    struct dihyravo_job job = {
        .picture = grey, .picture_length = sizeof grey, .width = WIDTH, .height = HEIGHT, .channels = 1,
        .method = DIHYRAVO_METHOD_PERSPECTIVE, .arguments = corners, .arguments_length = sizeof corners,
        .policy = DIHYRAVO_POLICY_EDGE, .interpolation = DIHYRAVO_INTERPOLATION_BILINEAR,
        .background = {0, 0, 0, 1}, .matte = {0, 0, 0, 1}, .rows = HEIGHT};
    return job;
}

/* The answer of an accepted call is this, and nothing else. */
static int is(const struct dihyravo_answer *a, uint64_t width, uint64_t height, int64_t x, int64_t y, uint64_t channels,
              uint64_t matte_pixels)
{
    return a->width == width && a->height == height && a->x == x && a->y == y && a->channels == channels &&
           a->matte_pixels == matte_pixels;
}

/* The original's own answer for the same job, bit for bit. */
static void known_pixels(void)
{
    static const uint32_t original[WIDTH * HEIGHT] = {0x3d3e97de, 0x3da1c998, 0x3df219cb, 0x3e2b2b92,
                                                      0x3e8243c8, 0x3e94a562, 0x3ea73679, 0x3eb9f7c6,
                                                      0x3efd8978, 0x3f090617, 0x3f13640f, 0x3f1ddf1d};
    struct dihyravo_job job = plain();
    struct dihyravo_answer answer;
    float band[WIDTH * HEIGHT];
    uint64_t number = dihyravo_run(&job, band, sizeof band, &answer);
    test("four corners askew: the original's pixels", number == 0 && memcmp(band, original, sizeof band) == 0);
    test("four corners askew: size, offset, channels, matte pixels",
         number == 0 && is(&answer, WIDTH, HEIGHT, 0, 0, 1, 0));
}

static void halfway_to_clear(void)
{
    const float two[8] = {1, 1, 1, 1, 0, 0, 0, 0}, expected[4] = {1, 1, 1, 0.5f};
    const double shift[4] = {0.5, 0, 0, 0};
    struct dihyravo_job job = plain();
    struct dihyravo_answer answer;
    float pixel[4];
    job.picture = two, job.picture_length = sizeof two, job.width = 2, job.height = 1, job.channels = 4;
    job.method = DIHYRAVO_METHOD_AFFINE, job.arguments = shift, job.arguments_length = sizeof shift;
    job.viewport = 1, job.view_width = 1, job.view_height = 1, job.rows = 1;
    uint64_t number = dihyravo_run(&job, pixel, sizeof pixel, &answer);
    int same = memcmp(pixel, expected, sizeof pixel) == 0;
    test("halfway between opaque and clear", number == 0 && same && answer.channels == 4);
}

/* Beyond the horizon of a plane there is no source: one row of two pixels, both matte. */
static void matte(void)
{
    const double beyond[8] = {1, 0, 0, 0, 1, 0, 0, 1};
    struct dihyravo_job job = plain();
    struct dihyravo_answer answer;
    float band[2];
    job.method = DIHYRAVO_METHOD_PERSPECTIVE_PROJECTION, job.arguments = beyond, job.arguments_length = sizeof beyond;
    job.matte[0] = job.matte[1] = job.matte[2] = 0.25f;
    job.viewport = 1, job.view_width = 2, job.view_height = 1, job.view_y = 1000, job.rows = 1;
    uint64_t number = dihyravo_run(&job, band, sizeof band, &answer);
    /* One channel is the luma of the colour, which may differ in its last bits. */
    int same = fabsf(band[0] - 0.25f) < 1e-6f && fabsf(band[1] - 0.25f) < 1e-6f;
    test("beyond the horizon: the matte, and its count", number == 0 && is(&answer, 2, 1, 0, 1000, 1, 2) && same);
}

static void sizes(void)
{
    const double same[6] = {1, 0, 0, 1, 0, 0};
    struct dihyravo_job job = plain();
    struct dihyravo_answer answer;
    job.rows = 0;
    test("no rows and no band: the size",
         dihyravo_run(&job, NULL, 0, &answer) == 0 && is(&answer, WIDTH, HEIGHT, 0, 0, 1, 0));
    job.viewport = UINT64_MAX, job.view_width = 7, job.view_height = 5, job.view_x = -2, job.view_y = 9;
    job.bestfit = 1, job.policy = DIHYRAVO_POLICY_TRANSPARENT;
    test("a viewport wins over best fit", dihyravo_run(&job, NULL, 0, &answer) == 0 && is(&answer, 7, 5, -2, 9, 4, 0));
    job.viewport = 0, job.policy = DIHYRAVO_POLICY_EDGE;
    job.method = DIHYRAVO_METHOD_AFFINE_PROJECTION, job.arguments = same, job.arguments_length = sizeof same;
    test("best fit of a picture unmoved", dihyravo_run(&job, NULL, 0, &answer) == 0 && is(&answer, 6, 5, -1, -1, 1, 0));
    job.background[3] = 0.5f;
    test("a clear background: four channels", dihyravo_run(&job, NULL, 0, &answer) == 0 && answer.channels == 4);
    job = plain(), job.first_row = HEIGHT, job.rows = 0;
    test("no rows at the end", dihyravo_run(&job, NULL, 0, &answer) == 0);
}

/* Bands of each height, from the last to the first, and the bytes on either side of each. */
static void bands(void)
{
    struct dihyravo_job job = plain();
    struct dihyravo_answer answer;
    unsigned char whole[ROW * HEIGHT], piece[ROW * (HEIGHT + 2)];
    int same = dihyravo_run(&job, whole, sizeof whole, &answer) == 0, kept = 1;
    for (uint64_t rows = 1; rows <= HEIGHT; rows++) {
        for (uint64_t first = HEIGHT - rows + 1; first-- > 0;) {
            size_t length = (size_t)rows * ROW;
            memset(piece, FRESH, sizeof piece);
            job.first_row = first, job.rows = rows;
            same = same && dihyravo_run(&job, piece + ROW, length, &answer) == 0;
            same = same && is(&answer, WIDTH, HEIGHT, 0, 0, 1, 0);
            same = same && memcmp(piece + ROW, whole + first * ROW, length) == 0;
            kept = kept && all_fresh(piece, ROW) && all_fresh(piece + ROW + length, sizeof piece - ROW - length);
        }
    }
    test("bands are the whole picture's rows", same);
    test("bytes around a band are kept", kept);
}

/* Everything at an odd address, beside the answer. */
static void odd_addresses(void)
{
    static unsigned char picture[sizeof grey + 1], arguments[sizeof corners + 1], colour[17], band[sizeof grey + 1];
    struct dihyravo_job job = plain();
    struct dihyravo_answer answer;
    unsigned char whole[sizeof grey];
    uint64_t number = dihyravo_run(&job, whole, sizeof whole, &answer);
    memcpy(picture + 1, grey, sizeof grey);
    memcpy(arguments + 1, corners, sizeof corners);
    memcpy(colour + 1, job.background, 16);
    number += dihyravo_distort(picture + 1, sizeof grey, WIDTH, HEIGHT, 1, job.method, arguments + 1, sizeof corners,
                               job.policy, job.interpolation, colour + 1, colour + 1, 0, 0, 0, 0, 0, 0, 0, HEIGHT,
                               band + 1, sizeof grey, &answer);
    test("buffers at odd addresses", number == 0 && memcmp(band + 1, whole, sizeof whole) == 0);
}

/* The number, and every byte of band and answer as it was. */
static void refused(const char *name, uint64_t number, struct dihyravo_job job, size_t band_length)
{
    static unsigned char band[4096];
    static struct dihyravo_answer answer;
    char line[128];
    memset(band, FRESH, sizeof band);
    memset(&answer, FRESH, sizeof answer);
    uint64_t given = dihyravo_run(&job, band, band_length, &answer);
    int kept = all_fresh(band, sizeof band) && all_fresh(&answer, sizeof answer);
    snprintf(line, sizeof line, "refusal %d (%s): %s", (int)number, dihyravo_word(number), name);
    if (given != number) printf("the number is %d\n", (int)given);
    test(line, given == number && kept);
}

static void refused_1_to_3(void)
{
    struct dihyravo_job job = plain();
    job.width = 0, refused("width 0", 1, job, sizeof grey);
    job.width = DIHYRAVO_LARGEST_SIDE + 1, refused("a width above the largest", 1, job, sizeof grey);
    job = plain(), job.height = DIHYRAVO_LARGEST_SIDE + 1, refused("a height above the largest", 1, job, sizeof grey);
    job = plain(), job.height = UINT64_MAX, refused("a huge height", 1, job, sizeof grey);
    job = plain(), job.channels = 2, refused("2 channels", 1, job, sizeof grey);
    job = plain(), job.picture_length -= 4, refused("a sample short", 2, job, sizeof grey);
    job = plain(), job.picture_length -= 1, refused("a byte short", 2, job, sizeof grey);
    job = plain(), job.picture = NULL, job.picture_length = 0, refused("no picture", 2, job, sizeof grey);
    job = plain(), job.method = 2, refused("ScaleRotateTranslate", 3, job, sizeof grey);
    job.method = 8, refused("Arc", 3, job, sizeof grey);
    job.method = 9, refused("Polar", 3, job, sizeof grey);
    job.method = 10, refused("DePolar", 3, job, sizeof grey);
    job.method = 14, refused("method 14", 3, job, sizeof grey);
    job.method = UINT64_MAX, refused("a huge method", 3, job, sizeof grey);
    job = plain(), job.policy = 14, refused("policy 14", 3, job, sizeof grey);
    job = plain(), job.interpolation = 9, refused("interpolation 9", 3, job, sizeof grey);
}

/* So many arguments, each 1, for a method. */
static struct dihyravo_job with_ones(uint64_t method, size_t count)
{
    static double ones[DIHYRAVO_MOST_ARGUMENTS + 4];
    struct dihyravo_job job = plain();
    for (size_t k = 0; k < sizeof ones / sizeof *ones; k++) ones[k] = 1;
    job.method = method, job.arguments = ones, job.arguments_length = count * sizeof(double);
    return job;
}

static void refused_count(const char *name, uint64_t method, size_t count)
{
    refused(name, 4, with_ones(method, count), sizeof grey);
}

static void refused_4(void)
{
    struct dihyravo_job job = plain();
    refused_count("an argument above the most", DIHYRAVO_METHOD_BARREL, DIHYRAVO_MOST_ARGUMENTS + 1);
    refused_count("AffineProjection of 5", DIHYRAVO_METHOD_AFFINE_PROJECTION, 5);
    refused_count("PerspectiveProjection of 9", DIHYRAVO_METHOD_PERSPECTIVE_PROJECTION, 9);
    refused_count("Barrel of 2", DIHYRAVO_METHOD_BARREL, 2);
    refused_count("BarrelInverse of 2", DIHYRAVO_METHOD_BARREL_INVERSE, 2);
    refused_count("Polynomial without an order", DIHYRAVO_METHOD_POLYNOMIAL, 0);
    refused_count("Affine of 6", DIHYRAVO_METHOD_AFFINE, 6);
    refused_count("BilinearReverse of 0", DIHYRAVO_METHOD_BILINEAR_REVERSE, 0);
    refused_count("Polynomial of an order and 6", DIHYRAVO_METHOD_POLYNOMIAL, 7);
    refused_count("a pair above the most", DIHYRAVO_METHOD_SHEPARDS, 4 * (DIHYRAVO_MOST_PAIRS + 1));
    job.arguments = NULL, job.arguments_length = 0, refused("no pairs", 4, job, sizeof grey);
    job = plain(), job.arguments_length -= 1, refused("arguments that end inside a number", 4, job, sizeof grey);
}

/* Accepted, and the size is this. No rows are asked for. */
static void accepted(const char *name, struct dihyravo_job job, uint64_t width, uint64_t height)
{
    struct dihyravo_answer answer;
    char line[128];
    job.rows = 0;
    uint64_t given = dihyravo_run(&job, NULL, 0, &answer);
    snprintf(line, sizeof line, "accepted: %s", name);
    if (given != 0) printf("the number is %d\n", (int)given);
    int64_t x = job.viewport ? job.view_x : 0, y = job.viewport ? job.view_y : 0;
    test(line, given == 0 && is(&answer, width, height, x, y, 1, 0));
}

/* What is at a limit and not beyond it. */
static void accepted_at_the_limits(void)
{
    static const float side[DIHYRAVO_LARGEST_SIDE] = {0};
    static const double far[4] = {-DIHYRAVO_LARGEST_ARGUMENT, 0, DIHYRAVO_LARGEST_ARGUMENT, 0};
    float samples[WIDTH * HEIGHT];
    struct dihyravo_job job = plain();
    job.picture = side, job.picture_length = sizeof side, job.width = DIHYRAVO_LARGEST_SIDE, job.height = 1;
    accepted("the largest width", job, DIHYRAVO_LARGEST_SIDE, 1);
    job.width = 1, job.height = DIHYRAVO_LARGEST_SIDE, accepted("the largest height", job, 1, DIHYRAVO_LARGEST_SIDE);
    accepted("the most arguments", with_ones(DIHYRAVO_METHOD_BARREL, DIHYRAVO_MOST_ARGUMENTS), WIDTH, HEIGHT);
    accepted("the most pairs", with_ones(DIHYRAVO_METHOD_SHEPARDS, 4 * DIHYRAVO_MOST_PAIRS), WIDTH, HEIGHT);
    job = plain(), job.method = DIHYRAVO_METHOD_AFFINE, job.arguments = far, job.arguments_length = sizeof far;
    accepted("the largest arguments", job, WIDTH, HEIGHT);
    memcpy(samples, grey, sizeof samples);
    samples[0] = DIHYRAVO_LARGEST_SAMPLE, samples[11] = -DIHYRAVO_LARGEST_SAMPLE;
    job = plain(), job.picture = samples, accepted("the largest samples", job, WIDTH, HEIGHT);
    job = plain(), job.background[0] = job.matte[3] = DIHYRAVO_LARGEST_SAMPLE;
    job.background[1] = job.matte[0] = -DIHYRAVO_LARGEST_SAMPLE, accepted("the largest colours", job, WIDTH, HEIGHT);
    job = plain(), job.viewport = 1, job.view_width = job.view_height = DIHYRAVO_LARGEST_SIDE;
    job.view_x = -DIHYRAVO_LARGEST_OFFSET, job.view_y = DIHYRAVO_LARGEST_OFFSET;
    accepted("the largest viewport, farthest off", job, DIHYRAVO_LARGEST_SIDE, DIHYRAVO_LARGEST_SIDE);
}

static void refused_5(void)
{
    struct dihyravo_job job = plain();
    float samples[WIDTH * HEIGHT];
    double arguments[16];
    memcpy(arguments, corners, sizeof arguments);
    job.arguments = arguments;
    arguments[15] = (double)NAN, refused("an argument that is no number", 5, job, sizeof grey);
    arguments[15] = ABOVE_ARGUMENT, refused("an argument above the largest", 5, job, sizeof grey);
    arguments[15] = -ABOVE_ARGUMENT, refused("an argument below the least", 5, job, sizeof grey);
    job = plain(), job.picture = samples;
    memcpy(samples, grey, sizeof samples);
    samples[11] = -INFINITY, refused("an endless sample", 5, job, sizeof grey);
    samples[11] = ABOVE_SAMPLE, refused("a sample above the largest", 5, job, sizeof grey);
    samples[11] = -ABOVE_SAMPLE, refused("a sample below the least", 5, job, sizeof grey);
    job = plain(), job.background[3] = NAN, refused("a background that is no number", 5, job, sizeof grey);
    job = plain(), job.background[0] = -ABOVE_SAMPLE, refused("a background below the least", 5, job, sizeof grey);
    job = plain(), job.matte[0] = ABOVE_SAMPLE, refused("a matte above the largest", 5, job, sizeof grey);
}

static void refused_6_to_8(void)
{
    struct dihyravo_job job = plain();
    double arguments[17] = {6};
    memcpy(arguments + 1, corners, sizeof corners);
    job.method = DIHYRAVO_METHOD_POLYNOMIAL, job.arguments = arguments, job.arguments_length = sizeof arguments;
    refused("order 6", 6, job, sizeof grey);
    arguments[0] = 0.5, refused("order 0.5", 6, job, sizeof grey);
    arguments[0] = 2.5, refused("order 2.5", 6, job, sizeof grey);
    arguments[0] = 1.5 - 0x1p-52, refused("an order a step below 1.5", 6, job, sizeof grey);
    arguments[0] = 1.5 + 0x1p-52, refused("an order a step above 1.5", 6, job, sizeof grey);
    arguments[0] = 2, refused("order 2 of 4 pairs", 7, job, sizeof grey);
    job = plain(), job.arguments_length -= 4 * sizeof(double), refused("Perspective of 3 pairs", 7, job, sizeof grey);
    static const double line[16] = {0, 0, 0, 0, 1, 1, 1, 1, 2, 2, 2, 2, 3, 3, 3, 3}, flat[6] = {1, 2, 2, 4, 0, 0};
    job = plain(), job.arguments = line, refused("four corners on a line", 8, job, sizeof grey);
    job = plain(), job.method = DIHYRAVO_METHOD_AFFINE_PROJECTION;
    job.arguments = flat, job.arguments_length = sizeof flat;
    refused("AffineProjection 1,2,2,4,0,0", 8, job, sizeof grey);
}

static void refused_9_to_11(void)
{
    struct dihyravo_job job = plain();
    job.viewport = 1, job.view_height = HEIGHT, refused("a viewport of width 0", 9, job, sizeof grey);
    job.view_width = DIHYRAVO_LARGEST_SIDE + 1, refused("a viewport above the largest width", 9, job, sizeof grey);
    job.view_width = WIDTH, job.view_height = DIHYRAVO_LARGEST_SIDE + 1;
    refused("a viewport above the largest height", 9, job, sizeof grey);
    job.view_height = HEIGHT, job.view_x = -DIHYRAVO_LARGEST_OFFSET - 1;
    refused("a viewport far to the left", 9, job, sizeof grey);
    job.view_x = 0, job.view_y = DIHYRAVO_LARGEST_OFFSET + 1, refused("a viewport far down", 9, job, sizeof grey);
    job = plain(), job.first_row = 1, refused("rows 1 to 3 of 3", 10, job, sizeof grey);
    job.first_row = UINT64_MAX, refused("rows around the end of numbers", 10, job, sizeof grey);
    job = plain(), refused("a sample less in the band", 11, job, sizeof grey - 4);
    refused("a byte more in the band", 11, job, sizeof grey + 1);
    job.rows = 0, refused("a band for no rows", 11, job, sizeof grey);
    job = plain(), job.policy = DIHYRAVO_POLICY_TRANSPARENT;
    refused("a grey band for four channels", 11, job, sizeof grey);
}

/* Each number of the table before all that come after it. */
static void refused_in_order(void)
{
    static const float bad[WIDTH * HEIGHT] = {NAN};
    static const double order[] = {9, 0, 0, 0, 0};
    struct dihyravo_job job = {.picture = bad, .rows = UINT64_MAX, .viewport = 1};
    refused("all at once", 1, job, 1);
    job.width = WIDTH, job.height = HEIGHT, job.channels = 1, job.method = 99, refused("all from 2 on", 2, job, 1);
    job.picture_length = sizeof bad, refused("all from 3 on", 3, job, 1);
    job.method = DIHYRAVO_METHOD_POLYNOMIAL, refused("all from 4 on", 4, job, 1);
    job.arguments = order, job.arguments_length = sizeof order, refused("all from 5 on", 5, job, 1);
    job.picture = grey, refused("all from 6 on", 6, job, 1);
    static const double few[] = {1, 0, 0, 0, 0}, flat[] = {1, 1, 1, 1, 0, 0}, same[] = {1, 0, 0, 1, 0, 0};
    job.arguments = few, refused("all from 7 on", 7, job, 1);
    job.method = DIHYRAVO_METHOD_AFFINE_PROJECTION, job.arguments = flat, job.arguments_length = sizeof flat;
    refused("all from 8 on", 8, job, 1);
    job.arguments = same, refused("all from 9 on", 9, job, 1);
    job.viewport = 0, refused("all from 10 on", 10, job, 1);
    job.rows = 1, refused("11 alone", 11, job, 1);
}

static void names(void)
{
    static const char *const methods[] = {"Affine", "AffineProjection", "ScaleRotateTranslate", "Perspective",
                                          "PerspectiveProjection", "BilinearReverse", "BilinearForward", "Polynomial",
                                          "Arc", "Polar", "DePolar", "Barrel", "BarrelInverse", "Shepards"};
    static const char *const policies[] = {"Edge", "Background", "Black", "White", "Gray", "Transparent", "Tile",
                                           "Mirror", "HorizontalTile", "VerticalTile", "HorizontalTileEdge",
                                           "VerticalTileEdge", "CheckerTile", "Random"};
    static const char *const interpolations[] = {"Integer", "Nearest", "Average", "Average9", "Average16",
                                                 "Bilinear", "Catrom", "Spline", "Background"};
    int same = 1;
    for (int k = 0; k < 14; k++) same = same && dihyravo_method(methods[k], strlen(methods[k])) == k;
    for (int k = 0; k < 14; k++) same = same && dihyravo_policy(policies[k], strlen(policies[k])) == k;
    for (int k = 0; k < 9; k++)
        same = same && dihyravo_interpolation(interpolations[k], strlen(interpolations[k])) == k;
    test("names in order", same);
    test("names in any case", dihyravo_method("pERSPECTIVE", 11) == DIHYRAVO_METHOD_PERSPECTIVE);
    test("second names", dihyravo_method("srt", 3) == 2 && dihyravo_policy("None", 4) == DIHYRAVO_POLICY_TRANSPARENT &&
                             dihyravo_interpolation("bicubic", 7) == DIHYRAVO_INTERPOLATION_CATROM);
    test("no such name", dihyravo_method("Affine", 7) == -3 && dihyravo_policy("", 0) == -3 &&
                             dihyravo_interpolation(NULL, 0) == -3);
}

static void words(void)
{
    static const char *const words[] = {"accepted", "size", "stock", "code", "count", "number",
                                        "order", "few", "degenerate", "window", "rows", "tray"};
    int same = *dihyravo_word(12) == 0 && *dihyravo_word(UINT64_MAX) == 0;
    for (uint64_t k = 0; k < 12; k++) same = same && strcmp(dihyravo_word(k), words[k]) == 0;
    test("words of the refusals", same);
}

/* Runs a call that fits 21 terms on a stack that was filled before; beside it the same thread without a call. */
static uint64_t stack_number;

static void *on_a_stack(void *call)
{
    static double arguments[1 + 4 * 36] = {5};
    struct dihyravo_job job = plain();
    struct dihyravo_answer answer;
    float band[WIDTH * HEIGHT];
    for (int k = 0; k < 36; k++) {
        double u = k % 6, v = (double)(k / 6), pair[4] = {u / 2, v / 3, u / 2 + u * v / 64, v / 3 - u * u / 64};
        memcpy(arguments + 1 + 4 * k, pair, sizeof pair);
    }
    job.method = DIHYRAVO_METHOD_POLYNOMIAL, job.arguments = arguments, job.arguments_length = sizeof arguments;
    job.interpolation = DIHYRAVO_INTERPOLATION_CATROM;
    if (call) stack_number = dihyravo_run(&job, band, sizeof band, &answer);
    return NULL;
}

static size_t stack_taken(void *call)
{
    static const size_t size = 1 << 18;
    unsigned char *stack = NULL;
    size_t untouched = 0;
    pthread_attr_t attributes;
    pthread_t thread;
    if (posix_memalign((void **)&stack, 4096, size) != 0) return SIZE_MAX;
    memset(stack, FRESH, size);
    int ok = pthread_attr_init(&attributes) == 0 && pthread_attr_setstack(&attributes, stack, size) == 0 &&
             pthread_create(&thread, &attributes, on_a_stack, call) == 0 && pthread_join(thread, NULL) == 0;
    while (untouched < size && stack[untouched] == FRESH) untouched++;
    free(stack);
    return ok ? size - untouched : SIZE_MAX;
}

static void stack(void)
{
    static int yes;
    stack_number = 99;
    size_t without = stack_taken(NULL), with = stack_taken(&yes);
    test("the stack is less than 32 KiB",
         stack_number == 0 && with < SIZE_MAX && with > without && with - without < 32 * 1024);
    printf("the stack: %d bytes\n", (int)(with - without));
}

int main(void)
{
    known_pixels();
    halfway_to_clear();
    matte();
    sizes();
    bands();
    odd_addresses();
    refused_1_to_3();
    refused_4();
    accepted_at_the_limits();
    refused_5();
    refused_6_to_8();
    refused_9_to_11();
    refused_in_order();
    names();
    words();
    stack();
    printf("calls.c: %d passed, %d failed\n", passed, failed);
    return failed != 0;
}
