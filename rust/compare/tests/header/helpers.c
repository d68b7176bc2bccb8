/* What lens.h has beside the engine's calls, held against the engine: names, limits, lengths,
 * top radii, stored pixels and texts; and buffers of length 0, which may be NULL. Compiled as C
 * and as C++. */
#include "lens.h"

#include <math.h>
#include <stdio.h>

enum { LOG = 2, MOST_PLANES = 14 * 141 * 135, MOST_PIXELS = 7 };

static uint64_t planes[MOST_PLANES], pixels[MOST_PIXELS], undo_log[LOG];
static uint64_t scratch[3 * MOST_PLANES / 14], sums[2 * MOST_PIXELS];
static uint16_t values[MOST_PIXELS];
static uint8_t mattes[MOST_PIXELS];

static void print_limits(void)
{
    printf("version %d\n", LENS_VERSION);
    printf("limits %d %d %d %d %d %d %d %d\n", LENS_MAX_SIDE, LENS_MAX_PIXELS, LENS_MAX_REACH,
           LENS_MAX_LOG, LENS_MAX_VALUE, LENS_MAX_OPENING, LENS_MAX_DEPTH, LENS_MAX_PITCH);
    printf("whole %d\n", LENS_WHOLE);
    printf("shapes %d %d %d %d %d %d\n", LENS_BOX, LENS_TENT, LENS_TRIPLE, LENS_DIAMOND,
           LENS_HEXAGON, LENS_OCTAGON);
}

static void print_texts(void)
{
    for (uint32_t number = 0; number < 40; number++)
        printf("number %u %s\n", (unsigned)number, lens_text(number));
}

static void print_lengths(size_t width, size_t height, size_t reach)
{
    printf("lengths %u %u %u %u %u %u\n", (unsigned)lens_plane_cells(width, height, reach),
           (unsigned)lens_planes_len(width, height, reach),
           (unsigned)lens_pixels_len(width, height),
           (unsigned)lens_scratch_len(width, height, reach),
           (unsigned)lens_picture_len(width, height), (unsigned)lens_sums_len(width, height));
}

/* A plate of these sizes takes every length that the header names for it. */
static void print_taken(size_t width, size_t height, size_t reach)
{
    const size_t planes_len = lens_planes_len(width, height, reach);
    const size_t picture_len = lens_picture_len(width, height);
    const size_t scratch_len = lens_scratch_len(width, height, reach);
    lens_answer opened = lens_open(width, height, reach, planes, planes_len, pixels,
                                   lens_pixels_len(width, height), undo_log, LOG);
    lens_answer shown =
        lens_show_kept(opened.state, planes, planes_len, scratch, scratch_len, values,
                       picture_len, mattes, picture_len, sums, lens_sums_len(width, height));
    printf("taken %u %u\n", (unsigned)opened.number, (unsigned)shown.number);
}

static uint32_t put(lens_state state, uint8_t shape, uint8_t radius)
{
    const size_t planes_len = lens_planes_len(state.width, state.height, state.reach);
    return lens_put(state, 0, 0, 1, 1, shape, radius, planes, planes_len, pixels,
                    lens_pixels_len(state.width, state.height), undo_log, LOG)
        .number;
}

/* The top radius of every shape under every reach is taken, and one more is not. */
static void print_tops(void)
{
    for (uint8_t shape = 0; shape <= LENS_OCTAGON; shape++) {
        printf("tops %u", (unsigned)shape);
        for (size_t reach = 0; reach <= LENS_MAX_REACH; reach++) {
            const uint8_t top = lens_top_radius(shape, reach);
            const uint8_t more = (uint8_t)(top + 1);
            lens_state state = lens_open(7, 1, reach, planes, lens_planes_len(7, 1, reach),
                                         pixels, 7, undo_log, LOG)
                                   .state;
            if (put(state, shape, top) != LENS_ACCEPTED ||
                put(state, shape, more) != LENS_REFUSED_RADIUS)
                printf(" wrong");
            printf(" %u", (unsigned)top);
        }
        printf("\n");
    }
    printf("no shape %u\n", (unsigned)lens_top_radius(LENS_OCTAGON + 1, LENS_MAX_REACH));
}

static void print_pixel(uint64_t word)
{
    const lens_pixel pixel = lens_pixel_of(word);
    printf("pixel %u %u %u %u\n", (unsigned)pixel.value, (unsigned)pixel.opacity,
           (unsigned)pixel.shape, (unsigned)pixel.radius);
}

/* A pixel that was put, and one that was not. */
static void print_pixels(void)
{
    const size_t planes_len = lens_planes_len(3, 1, 64);
    lens_state state =
        lens_open(3, 1, 64, planes, planes_len, pixels, 3, undo_log, LOG).state;
    lens_put(state, 1, 0, 2748, 254, LENS_OCTAGON, 61, planes, planes_len, pixels, 3, undo_log,
             LOG);
    print_pixel(pixels[1]);
    print_pixel(pixels[2]);
}

/* Every call with a lawful state and NULL for each buffer. */
static void print_nothing_lent(void)
{
    const lens_state state = { 3, 1, 1, 0 };
    const lens_lens lens = { 250, 500, 20000, 50 };
    const uint32_t numbers[] = {
        lens_open(3, 1, 1, NULL, 0, NULL, 0, NULL, 0).number,
        lens_put(state, 0, 0, 1, 1, 0, 0, NULL, 0, NULL, 0, NULL, 0).number,
        lens_undo(state, NULL, 0, NULL, 0, NULL, 0).number,
        lens_fill(state, lens, 0, NULL, 0, NULL, 0, NULL, 0, NULL, 0, NULL, 0, NULL, 0).number,
        lens_show(state, NULL, 0, NULL, 0, NULL, 0, NULL, 0).number,
        lens_total(state, NULL, 0, NULL, 0).answer.number,
        lens_show_kept(state, NULL, 0, NULL, 0, NULL, 0, NULL, 0, NULL, 0).number,
        lens_put_kept(state, 0, 0, 1, 1, 0, 0, NULL, 0, NULL, 0, NULL, 0, NULL, 0, NULL, 0,
                      NULL, 0)
            .number,
        lens_undo_kept(state, NULL, 0, NULL, 0, NULL, 0, NULL, 0, NULL, 0, NULL, 0).number,
    };
    printf("nothing lent");
    for (size_t i = 0; i < sizeof numbers / sizeof *numbers; i++)
        printf(" %u", (unsigned)numbers[i]);
    printf("\n");
}

/* A plate without a log opens, and takes no put. */
static void print_no_log(void)
{
    const size_t planes_len = lens_planes_len(3, 1, 1);
    lens_answer opened = lens_open(3, 1, 1, planes, planes_len, pixels, 3, NULL, 0);
    lens_answer put_there = lens_put(opened.state, 0, 0, 1, 1, LENS_BOX, 0, planes, planes_len,
                                     pixels, 3, NULL, 0);
    lens_answer undone =
        lens_undo(opened.state, planes, planes_len, pixels, 3, NULL, 0);
    printf("no log %u %u %u\n", (unsigned)opened.number, (unsigned)put_there.number,
           (unsigned)undone.number);
}

int main(void)
{
    print_limits();
    print_texts();
    print_lengths(1920, 1080, 64);
    print_lengths(4096, 513, 0);
    print_lengths((size_t)-1, 2, 0);
    print_lengths(1, 1, 65);
    print_taken(1, 1, 0);
    print_taken(7, 1, 64);
    print_taken(2, 3, 5);
    print_tops();
    print_pixels();
    print_nothing_lent();
    print_no_log();
    /* With math.h's own log beside the header's names. */
    printf("log %.0f\n", log(exp(2.0)));
    return 0;
}
