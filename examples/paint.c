/* A layer with depth seen through a lens, a stroke painted on it and taken back.
 *
 *     paint FOLDER
 *
 * writes the value and the matte, as PGM files, of the layer (before), of the stroke on it
 * (painted) and of the plate once every put is undone (undone), which is the layer again, to
 * the last code value. README.md has the line that builds it. */
#include "lens.h"

#include <stdio.h>
#include <stdlib.h>
#include <string.h>

enum { WIDTH = 192, HEIGHT = 108, PIXELS = WIDTH * HEIGHT, REACH = 16, STEPS = 60 };

/* 12 mm opening, 50 mm focal length, focus at 2 m, pixels of 10 um. */
static const lens_lens LENS = { 120, 500, 20000, 100 };

/* A plate is what its calls are lent, and the state that goes from call to call. */
typedef struct {
    lens_state state;
    size_t planes_len, pixels_len, scratch_len, sums_len;
    uint64_t *planes, *pixels, *undo_log, *scratch, *sums;
    uint16_t *values;
    uint8_t *mattes;
} plate;

/* Zeroed room for count elements; a program that gets none ends. */
static void *room(size_t count, size_t size)
{
    void *lent = calloc(count, size);
    if (lent == NULL) {
        fprintf(stderr, "paint: no memory\n");
        exit(EXIT_FAILURE);
    }
    return lent;
}

/* The state of an accepted call. This program's own calls are never refused. */
static lens_state accepted(const char *call, lens_answer answer)
{
    if (answer.number != LENS_ACCEPTED) {
        fprintf(stderr, "paint: %s: refused (%u): %s\n", call, (unsigned)answer.number,
                lens_text(answer.number));
        exit(EXIT_FAILURE);
    }
    return answer.state;
}

static plate opened(void)
{
    plate p;
    p.planes_len = lens_planes_len(WIDTH, HEIGHT, REACH);
    p.pixels_len = lens_pixels_len(WIDTH, HEIGHT);
    p.scratch_len = lens_scratch_len(WIDTH, HEIGHT, REACH);
    p.sums_len = lens_sums_len(WIDTH, HEIGHT);
    p.planes = room(p.planes_len, sizeof *p.planes);
    p.pixels = room(p.pixels_len, sizeof *p.pixels);
    p.undo_log = room(STEPS, sizeof *p.undo_log);
    p.scratch = room(p.scratch_len, sizeof *p.scratch);
    p.sums = room(p.sums_len, sizeof *p.sums);
    p.values = room(PIXELS, sizeof *p.values);
    p.mattes = room(PIXELS, sizeof *p.mattes);
    p.state = accepted("open", lens_open(WIDTH, HEIGHT, REACH, p.planes, p.planes_len,
                                         p.pixels, p.pixels_len, p.undo_log, STEPS));
    return p;
}

static void closed(plate *p)
{
    free(p->planes);
    free(p->pixels);
    free(p->undo_log);
    free(p->scratch);
    free(p->sums);
    free(p->values);
    free(p->mattes);
}

/* A board of squares, opaque but for every third row of them, that leans from 1.2 m on the
 * left to 3.1 m on the right. */
static void fill(plate *p)
{
    uint16_t *values = room(PIXELS, sizeof *values);
    uint8_t *opacities = room(PIXELS, sizeof *opacities);
    uint32_t *depths = room(PIXELS, sizeof *depths);
    for (size_t y = 0; y < HEIGHT; y++) {
        for (size_t x = 0; x < WIDTH; x++) {
            const size_t at = y * WIDTH + x;
            values[at] = (x / 12 + y / 12) % 2 == 0 ? 3600 : 400;
            opacities[at] = y / 12 % 3 == 2 ? 0 : 255;
            depths[at] = 12000 + 100 * (uint32_t)x;
        }
    }
    p->state = accepted("fill", lens_fill(p->state, LENS, LENS_OCTAGON, values, PIXELS, opacities,
                                          PIXELS, depths, PIXELS, p->planes, p->planes_len,
                                          p->pixels, p->pixels_len, p->undo_log, STEPS));
    free(values);
    free(opacities);
    free(depths);
}

/* A whole show, which also keeps the sums for the puts and undos that mend. */
static void show(plate *p)
{
    p->state = accepted("show", lens_show_kept(p->state, p->planes, p->planes_len, p->scratch,
                                               p->scratch_len, p->values, PIXELS, p->mattes,
                                               PIXELS, p->sums, p->sums_len));
}

/* One put, with values and mattes mended where the old or the new kernel reaches. */
static lens_answer put(plate *p, size_t x, size_t y, uint8_t radius)
{
    return lens_put_kept(p->state, x, y, LENS_MAX_VALUE, 255, LENS_HEXAGON, radius, p->planes,
                         p->planes_len, p->pixels, p->pixels_len, p->undo_log, STEPS, p->sums,
                         p->sums_len, p->values, PIXELS, p->mattes, PIXELS);
}

static lens_answer undo(plate *p)
{
    return lens_undo_kept(p->state, p->planes, p->planes_len, p->pixels, p->pixels_len,
                          p->undo_log, STEPS, p->sums, p->sums_len, p->values, PIXELS,
                          p->mattes, PIXELS);
}

/* Writes one picture, in bytes or, where depth is 2, in pairs of them with the higher first. */
static void write_pgm(const char *folder, const char *name, unsigned top, unsigned depth,
                      const uint8_t *bytes)
{
    char path[1024];
    const size_t length = (size_t)PIXELS * depth;
    const int n = snprintf(path, sizeof path, "%s/%s.pgm", folder, name);
    FILE *file = n > 0 && (size_t)n < sizeof path ? fopen(path, "wb") : NULL;
    int well = file != NULL && fprintf(file, "P5\n%d %d\n%u\n", WIDTH, HEIGHT, top) > 0;
    well = well && fwrite(bytes, 1, length, file) == length;
    if (file != NULL && fclose(file) != 0)
        well = 0;
    if (!well) {
        fprintf(stderr, "paint: cannot write %s\n", path);
        exit(EXIT_FAILURE);
    }
}

static void write_pictures(const plate *p, const char *folder, const char *when)
{
    char name[64];
    static uint8_t pairs[2 * PIXELS];
    for (size_t at = 0; at < PIXELS; at++) {
        pairs[2 * at] = (uint8_t)(p->values[at] >> 8);
        pairs[2 * at + 1] = (uint8_t)(p->values[at] & 255);
    }
    snprintf(name, sizeof name, "%s-value", when);
    write_pgm(folder, name, LENS_MAX_VALUE, 2, pairs);
    snprintf(name, sizeof name, "%s-matte", when);
    write_pgm(folder, name, 255, 1, p->mattes);
}

/* A diagonal stroke, wider and wider, until the log is full. */
static void paint(plate *p)
{
    unsigned marks = 0;
    for (size_t i = 0; i < STEPS; i++) {
        const lens_answer answer = put(p, 60 + i, 20 + i, (uint8_t)(i / 12));
        marks += (unsigned)answer.marks;
        p->state = accepted("put", answer);
    }
    printf("painted: %d puts, %u marks moved\n", (int)STEPS, marks);
}

/* Calls that are refused: they tell why, and change nothing. */
static void refused(plate *p)
{
    const lens_answer full = put(p, 0, 0, 0), outside = put(p, WIDTH, 0, 0);
    printf("put: refused (%u): %s\n", (unsigned)full.number, lens_text(full.number));
    printf("put: refused (%u): %s\n", (unsigned)outside.number, lens_text(outside.number));
}

static int same(const plate *p, const uint16_t *values, const uint8_t *mattes)
{
    return memcmp(p->values, values, PIXELS * sizeof *values) == 0 &&
           memcmp(p->mattes, mattes, PIXELS * sizeof *mattes) == 0;
}

int main(int count, char **words)
{
    static uint16_t values[PIXELS];
    static uint8_t mattes[PIXELS];
    plate p;
    int as_before;
    if (count != 2) {
        fprintf(stderr, "usage: paint FOLDER\n");
        return EXIT_FAILURE;
    }
    p = opened();
    fill(&p);
    show(&p);
    write_pictures(&p, words[1], "before");
    memcpy(values, p.values, sizeof values);
    memcpy(mattes, p.mattes, sizeof mattes);
    paint(&p);
    refused(&p);
    write_pictures(&p, words[1], "painted");
    while (p.state.count > 0)
        p.state = accepted("undo", undo(&p));
    write_pictures(&p, words[1], "undone");
    as_before = same(&p, values, mattes);
    printf("undone: the pictures are %s\n", as_before ? "as before" : "not as before");
    closed(&p);
    return as_before ? EXIT_SUCCESS : EXIT_FAILURE;
}
