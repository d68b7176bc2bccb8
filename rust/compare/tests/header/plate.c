/* The plate of the paper's section Records, by the C interface, with what it adds up to; then
 * the same puts with kept pictures. Compiled as C and as C++. Each buffer is as long as it must
 * be and holds what malloc left there, so that a tool which watches memory sees every cell that
 * is touched outside one, and every answer that comes from a cell nobody wrote. */
#include "lens.h"

#include <stdio.h>
#include <stdlib.h>

enum { W = 3, H = 1, R = 1, P = (W + 2 * R + 6) * (H + 2 * R + 6), LOG = 2 };

static uint64_t *planes, *pixels, *undo_log, *scratch, *sums;
static uint16_t *values;
static uint8_t *mattes;

static void *room(size_t size)
{
    void *lent = malloc(size);
    if (lent == NULL)
        exit(EXIT_FAILURE);
    return lent;
}

static void lend(void)
{
    planes = (uint64_t *)room(14 * P * sizeof *planes);
    pixels = (uint64_t *)room(W * H * sizeof *pixels);
    undo_log = (uint64_t *)room(LOG * sizeof *undo_log);
    scratch = (uint64_t *)room(3 * P * sizeof *scratch);
    sums = (uint64_t *)room(2 * W * H * sizeof *sums);
    values = (uint16_t *)room(W * H * sizeof *values);
    mattes = (uint8_t *)room(W * H * sizeof *mattes);
}

static void take_back(void)
{
    free(planes);
    free(pixels);
    free(undo_log);
    free(scratch);
    free(sums);
    free(values);
    free(mattes);
}

static lens_state put(lens_state state, size_t x, uint16_t value, uint8_t radius)
{
    lens_answer answer = lens_put(state, x, 0, value, 255, 0, radius, planes, 14 * P, pixels,
                                  W * H, undo_log, LOG);
    printf("put %u %u count %u\n", (unsigned)answer.number, (unsigned)answer.marks,
           (unsigned)answer.state.count);
    return answer.state;
}

static void print_pictures(const char *call, lens_answer answer)
{
    printf("%s %u:", call, (unsigned)answer.number);
    for (int i = 0; i < W * H; i++)
        printf(" %u/%u", (unsigned)values[i], (unsigned)mattes[i]);
    printf("\n");
}

static void show(lens_state state)
{
    print_pictures("show", lens_show(state, planes, 14 * P, scratch, 3 * P, values, W * H,
                                     mattes, W * H));
}

/* With a scratch of a length of the caller's. */
static void total(lens_state state, size_t scratch_len)
{
    lens_totals totals = lens_total(state, planes, 14 * P, scratch, scratch_len);
    printf("total %u: %.0f %.0f\n", (unsigned)totals.answer.number, (double)totals.matte,
           (double)totals.light);
}

static void show_kept(lens_state state)
{
    print_pictures("show kept", lens_show_kept(state, planes, 14 * P, scratch, 3 * P, values,
                                               W * H, mattes, W * H, sums, 2 * W * H));
}

static lens_state put_kept(lens_state state, size_t x, uint16_t value, uint8_t radius)
{
    lens_answer answer =
        lens_put_kept(state, x, 0, value, 255, 0, radius, planes, 14 * P, pixels, W * H,
                      undo_log, LOG, sums, 2 * W * H, values, W * H, mattes, W * H);
    print_pictures("put kept", answer);
    return answer.state;
}

/* With sums of a length of the caller's. */
static lens_state undo_kept(lens_state state, size_t sums_len)
{
    lens_answer answer =
        lens_undo_kept(state, planes, 14 * P, pixels, W * H, undo_log, LOG, sums, sums_len,
                       values, W * H, mattes, W * H);
    print_pictures("undo kept", answer);
    return answer.state;
}

static lens_state fill(lens_state state, const uint32_t *depths)
{
    lens_lens lens = { 250, 500, 20000, 50 };
    const uint16_t layer[W * H] = { 7, 8, 9 };
    const uint8_t opacities[W * H] = { 255, 255, 255 };
    lens_answer answer = lens_fill(state, lens, 5, layer, W * H, opacities, W * H, depths,
                                   W * H, planes, 14 * P, pixels, W * H, undo_log, LOG);
    printf("fill %u\n", (unsigned)answer.number);
    return answer.state;
}

int main(void)
{
    uint32_t depths[W * H] = { 20000, 20000, 500 };
    lens_state state;
    lend();
    state = lens_open(W, H, R, planes, 14 * P, pixels, W * H, undo_log, LOG).state;
    state = put(state, 1, 100, 1);
    state = put(state, 0, 40, 0);
    state = put(state, 0, 40, 0);
    show(state);
    total(state, 3 * P);
    state = lens_undo(state, planes, 14 * P, pixels, W * H, undo_log, LOG).state;
    show(state);
    total(state, 3 * P);
    total(state, 3 * P - 1);
    state = fill(state, depths);
    depths[2] = 20000;
    state = fill(state, depths);
    show(state);
    state = lens_open(W, H, R, planes, 14 * P, pixels, W * H, undo_log, LOG).state;
    show_kept(state);
    state = put_kept(state, 1, 100, 1);
    state = put_kept(state, 0, 40, 0);
    state = put_kept(state, 0, 40, 0);
    state = undo_kept(state, 2 * W * H - 1);
    state = undo_kept(state, 2 * W * H);
    printf("sums %.0f %.0f\n", (double)sums[0], (double)sums[2 * W * H - 1]);
    take_back();
    return 0;
}
