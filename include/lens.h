/* lens.h: a sharp layer seen through a lens, each pixel spread into a kernel.
 *
 * The engine is proved (docs/PROOF.md). It allocates nothing and keeps nothing: the caller
 * lends every buffer and carries the state from one call to the next. Any state, any
 * arguments and any contents of the buffers are safe. A call that refuses what it is given
 * answers with a number and changes nothing.
 *
 * What the caller owes:
 *
 *   Lengths    A length counts elements, and is the buffer's true length. One that is wrong
 *              for the plate is refused (2); one that is longer than the buffer is not safe,
 *              and nothing here can notice. A buffer of length 0 may be NULL.
 *   Overlap    Buffers of one call do not overlap.
 *   Threads    The engine has no state of its own, so calls on different plates that share no
 *              buffer may run at once. On one plate they come one after the other; only shows
 *              and totals, which read the planes and write what they are lent besides, may run
 *              at once, each with a scratch, pictures and sums of its own.
 *   Together   Planes, pixels, log and state belong together and change through the calls
 *              alone. Before it changes anything, a put looks at the one stored pixel at its
 *              place, and an undo at the last entry of the log and the pixel at its place; if
 *              that is no pixel of this plate, they refuse (10); damage that makes another
 *              pixel of it is not noticed. Nothing else is looked at: no call notices a damaged
 *              cell of the planes, or other damaged pixels, and a show reads the planes alone,
 *              so it shows what they hold. To start over, open anew.
 *
 * A plate has width W and height H, 1 to 4,096 each, W x H at most 2,097,152, and reach R,
 * 0 to 64: how far a kernel may reach. P = (W + 2R + 6) x (H + 2R + 6), the cells of a plane
 * with its margin. Lengths wanted, and the function below that gives each:
 *
 *     planes      14 x P       lens_planes_len    the marks of all pixels
 *     pixels      W x H        lens_pixels_len    the pixels, place y x W + x; lens_pixel_of
 *                                                 reads one
 *     undo_log    0 to 65,535                     one entry for each put that can be undone
 *     scratch     3 x P        lens_scratch_len   any contents; left all zero by an accepted
 *                                                 show or total
 *     values, opacities, depths, mattes
 *                 W x H each   lens_picture_len   row by row
 *     sums        2 x W x H    lens_sums_len      finished sums: all light by place, then
 *                                                 all matte
 *
 * A pixel has a value 0 to 4,095, an opacity 0 to 255, a shape and a radius. The radius is
 * at most the shape's top, and its kernel must not reach farther than R (lens_top_radius):
 *
 *     shape       0 box    1 tent    2 triple    3 diamond    4 hexagon    5 octagon
 *     top radius  64       8         3           64           64           64
 *     reaches     r        2 r       3 r         r            r            r
 *     marks       8        13        20          12           16           16
 *
 * The value is not multiplied by the opacity. Light adds up linearly: values in proportion
 * to light blur as they do in a lens; log or display codes are averaged as codes, which
 * makes blurred highlights dimmer.
 *
 * Every kernel adds up to the whole exactly: what rounding the share of a tap down loses
 * goes to its centre. So a flat layer, one pixel everywhere, keeps its value and its opacity
 * to the code value where the opacity is not 0; with opacity 0 both pictures are 0. Only
 * nearer to the border than its kernel reaches does the matte fall off.
 *
 * A layer of opacity 255 whose radii differ has no flat matte: kernels of different radii
 * overlap in some cells, and others get too little. Octagons of radius 0 to 16, one more
 * every 8 columns, have matte sums of 0.80 to 1.20 times LENS_WHOLE x 255, so mattes of 204
 * to 255, which is the most a matte can be; at an edge from radius 0 to 64, 0.505 to 1.495
 * times, 129 to 255. The value is an average and stays right. For an opaque layer use it with
 * a matte of your own; lens_show_kept gives the sums.
 */
#ifndef LENS_H
#define LENS_H

#include <stddef.h>
#include <stdint.h>

#ifdef __cplusplus
extern "C" {
#endif

/* The version of this interface, 10,000 x major + 100 x minor + patch. The header and the
 * archive are of one version: take both from one place. */
#define LENS_VERSION_MAJOR 0
#define LENS_VERSION_MINOR 6
#define LENS_VERSION_PATCH 0
#define LENS_VERSION \
    (10000 * LENS_VERSION_MAJOR + 100 * LENS_VERSION_MINOR + LENS_VERSION_PATCH)

/* The limits; what is above one is refused. */
#define LENS_MAX_SIDE 4096        /* width, height */
#define LENS_MAX_PIXELS 2097152   /* width x height */
#define LENS_MAX_REACH 64
#define LENS_MAX_LOG 65535        /* entries of the undo log */
#define LENS_MAX_VALUE 4095
#define LENS_MAX_OPENING 4000     /* opening and focal length, 0.1 mm */
#define LENS_MAX_DEPTH 10000000   /* depth and focus, 0.1 mm */
#define LENS_MAX_PITCH 1000       /* 0.1 um */

#define LENS_PLANES 14            /* planes that marks are laid in */
#define LENS_SCRATCH_PLANES 3
#define LENS_MARGIN 3             /* cells beyond the reach on each side of a plane */

/* What a kernel's weights add up to: a pixel of opacity a gives all cells together a finished
 * matte of a x LENS_WHOLE. */
#define LENS_WHOLE 8388608

/* The shapes' numbers. */
enum lens_shape {
    LENS_BOX = 0,
    LENS_TENT = 1,    /* two boxes convolved */
    LENS_TRIPLE = 2,  /* three boxes convolved */
    LENS_DIAMOND = 3,
    LENS_HEXAGON = 4,
    LENS_OCTAGON = 5
};

/* The numbers that a call answers with: the first that applies, in this order. Numbers that are
 * not here are no call's; the record program stops with some of them. lens_text has a sentence
 * for each. */
enum lens_number {
    LENS_ACCEPTED = 0,
    LENS_REFUSED_SIZES = 1,         /* W, H, W x H or R outside */
    LENS_REFUSED_LENGTHS = 2,       /* a lent length is wrong for the plate */
    LENS_REFUSED_LOG_COUNT = 3,     /* the state's count is above the log's length */
    LENS_REFUSED_PLACE = 4,         /* x or y outside */
    LENS_REFUSED_VALUE = 5,         /* a value above 4,095 */
    LENS_REFUSED_SHAPE = 6,         /* a shape above 5 */
    LENS_REFUSED_RADIUS = 7,        /* a radius above lens_top_radius */
    LENS_REFUSED_LOG_FULL = 8,      /* put: no entry of the log is free */
    LENS_REFUSED_LOG_EMPTY = 9,     /* undo: no entry of the log is taken */
    LENS_REFUSED_STORED_WORD = 10,  /* a stored pixel or log entry is damaged */
    LENS_REFUSED_LENS = 11,         /* opening, focal, focus or pitch outside */
    LENS_REFUSED_DEPTH = 12,        /* a depth above 10,000,000 */
    LENS_REFUSED_DEPTH_INSIDE = 17  /* a depth that is not 0 and at most the focal length */
};

/* The plate's sizes, and how many entries of the log are taken. */
typedef struct { size_t width, height, reach, count; } lens_state;

/* Opening and focal length 1 to 4,000, focus above focal and at most 10,000,000, all in
 * 0.1 mm; the pitch of a pixel, 1 to 1,000, in 0.1 um. */
typedef struct { uint32_t opening, focal, focus, pitch; } lens_lens;

/* number: 0, accepted, or the refusal's (enum lens_number).
 * marks: how many marks a put or an undo moved, in either form, 16 to 40, those of both
 * kernels; 0 for other calls and for refused ones.
 * state: the state for the next call; unchanged by a refused one, all zero from a refused
 * open. */
typedef struct { uint32_t number, marks; lens_state state; } lens_answer;

/* What lens_total answers: both sums are 0 in a refused call. */
typedef struct { lens_answer answer; uint64_t matte, light; } lens_totals;

/* Makes every pixel empty and clears planes, pixels and log. Refuses 1, 2. */
lens_answer lens_open(size_t width, size_t height, size_t reach,
                      uint64_t *planes, size_t planes_len,
                      uint64_t *pixels, size_t pixels_len,
                      uint64_t *undo_log, size_t undo_log_len);

/* Sets the pixel at x, y, and logs the old one. Refuses 1 to 8, 10. */
lens_answer lens_put(lens_state state, size_t x, size_t y,
                     uint16_t value, uint8_t opacity, uint8_t shape, uint8_t radius,
                     uint64_t *planes, size_t planes_len,
                     uint64_t *pixels, size_t pixels_len,
                     uint64_t *undo_log, size_t undo_log_len);

/* Takes the last put that is in the log back. Refuses 1 to 3, 9, 10. */
lens_answer lens_undo(lens_state state,
                      uint64_t *planes, size_t planes_len,
                      uint64_t *pixels, size_t pixels_len,
                      uint64_t *undo_log, size_t undo_log_len);

/* Replaces every pixel, with one shape for all and each radius by the thin lens formula from
 * the pixel's depth, in 0.1 mm, 0 being infinity and every other one above the focal length:
 *
 *     radius = 500 x opening x focal x |depth - focus| / (pitch x depth x (focus - focal))
 *     at infinity  500 x opening x focal / (pitch x (focus - focal))
 *
 * to the nearest, a half upwards; one too great is made the greatest that shape and R allow.
 * Every value and every depth is looked at, those of pixels of opacity 0 too: 5, 12 and 17 can
 * come from them. Clears the log. Refuses 1 to 3, 5, 6, 11, 12, 17. */
lens_answer lens_fill(lens_state state, lens_lens lens, uint8_t shape,
                      const uint16_t *values, size_t values_len,
                      const uint8_t *opacities, size_t opacities_len,
                      const uint32_t *depths, size_t depths_len,
                      uint64_t *planes, size_t planes_len,
                      uint64_t *pixels, size_t pixels_len,
                      uint64_t *undo_log, size_t undo_log_len);

/* Writes the two pictures of the pixels that stand there now: values 0 to 4,095, mattes 0
 * to 255, each to the nearest. A value is light over matte, so it is not multiplied by its
 * matte, and 0 where no pixel adds to the matte. A value half way between two goes to the
 * even one, a matte upwards. Leaves scratch all zero. Refuses 1, 2. */
lens_answer lens_show(lens_state state,
                      const uint64_t *planes, size_t planes_len,
                      uint64_t *scratch, size_t scratch_len,
                      uint16_t *values, size_t values_len,
                      uint8_t *mattes, size_t mattes_len);

/* Adds up a plate: the sums of finished matte and of finished light, which show rounds its
 * pictures from, over all cells of the padded planes, the P of them, not only the image's;
 * wrapped to 64 bits.
 *
 * Light is neither made nor lost. On a plate that was opened and changed only by the calls
 * here, matte is 8,388,608 times the sum of all opacities, and light 8,388,608 times the sum
 * of opacity x value, wherever the kernels reach; and neither wraps. Any contents of the
 * planes are safe. Leaves scratch all zero. Refuses 1, 2. */
lens_totals lens_total(lens_state state,
                       const uint64_t *planes, size_t planes_len,
                       uint64_t *scratch, size_t scratch_len);

/* Refresh under the brush: show, put and undo once more, for a painter who looks at the
 * pictures after every put. The caller keeps sums and pictures from one of these calls to
 * the next.
 *
 * For kept sums and pictures that are those of the plate before the call, the mended ones
 * are those of a full show after it. Open, lens_put, lens_undo and lens_fill do not mend:
 * after them show anew. */

/* lens_show that also writes the finished sums that the pictures are rounded from, whatever
 * sums held: exact whole numbers, by place all light, then all matte. A value is
 * light / matte, a matte its sum / LENS_WHOLE; the sum is not held to 255 x LENS_WHOLE.
 * Refuses 1, 2. */
lens_answer lens_show_kept(lens_state state,
                           const uint64_t *planes, size_t planes_len,
                           uint64_t *scratch, size_t scratch_len,
                           uint16_t *values, size_t values_len,
                           uint8_t *mattes, size_t mattes_len,
                           uint64_t *sums, size_t sums_len);

/* lens_put that also mends the cells where the old or the new kernel has a tap, whatever
 * the opacity: of sums, by taking off what the old pixel gave the cell and adding what the
 * new one gives, wrapped; of values and mattes, by rounding that. No other cell of sums,
 * values and mattes is written. Any contents are safe. Refuses 1 to 8, 10. */
lens_answer lens_put_kept(lens_state state, size_t x, size_t y,
                          uint16_t value, uint8_t opacity, uint8_t shape, uint8_t radius,
                          uint64_t *planes, size_t planes_len,
                          uint64_t *pixels, size_t pixels_len,
                          uint64_t *undo_log, size_t undo_log_len,
                          uint64_t *sums, size_t sums_len,
                          uint16_t *values, size_t values_len,
                          uint8_t *mattes, size_t mattes_len);

/* lens_undo that also mends, in the same way: the pixel that stands there is the old one,
 * the one that comes back the new one. Refuses 1 to 3, 9, 10. */
lens_answer lens_undo_kept(lens_state state,
                           uint64_t *planes, size_t planes_len,
                           uint64_t *pixels, size_t pixels_len,
                           uint64_t *undo_log, size_t undo_log_len,
                           uint64_t *sums, size_t sums_len,
                           uint16_t *values, size_t values_len,
                           uint8_t *mattes, size_t mattes_len);

/* What follows is not the engine's but this header's own, for the caller's convenience. */

/* Whether open takes these sizes: 1 or 0. */
static inline int lens_sizes_fit(size_t width, size_t height, size_t reach)
{
    return width >= 1 && width <= LENS_MAX_SIDE && height >= 1 && height <= LENS_MAX_SIDE &&
           width * height <= LENS_MAX_PIXELS && reach <= LENS_MAX_REACH;
}

/* P, the cells of a plane with its margin. This and each length below is 0 where open would
 * refuse the sizes given. */
static inline size_t lens_plane_cells(size_t width, size_t height, size_t reach)
{
    const size_t around = 2 * (reach + LENS_MARGIN);
    return lens_sizes_fit(width, height, reach) ? (width + around) * (height + around) : 0;
}

static inline size_t lens_planes_len(size_t width, size_t height, size_t reach)
{
    return LENS_PLANES * lens_plane_cells(width, height, reach);
}

static inline size_t lens_scratch_len(size_t width, size_t height, size_t reach)
{
    return LENS_SCRATCH_PLANES * lens_plane_cells(width, height, reach);
}

/* Of values, of mattes, of opacities, of depths. */
static inline size_t lens_picture_len(size_t width, size_t height)
{
    return lens_sizes_fit(width, height, 0) ? width * height : 0;
}

static inline size_t lens_pixels_len(size_t width, size_t height)
{
    return lens_picture_len(width, height);
}

static inline size_t lens_sums_len(size_t width, size_t height)
{
    return 2 * lens_picture_len(width, height);
}

/* The greatest radius that a put takes of a shape on a plate of this reach; 0 for a shape
 * above 5. */
static inline uint8_t lens_top_radius(uint8_t shape, size_t reach)
{
    static const uint8_t top[] = { 64, 8, 3, 64, 64, 64 }, times[] = { 1, 2, 3, 1, 1, 1 };
    uint8_t radius = shape <= LENS_OCTAGON ? top[shape] : 0;
    while (radius > 0 && times[shape] * radius > reach)
        radius--;
    return radius;
}

/* A pixel of the layer. */
typedef struct { uint16_t value; uint8_t opacity, shape, radius; } lens_pixel;

/* The pixel of a stored word, pixels[y x W + x]; word 0 is the empty pixel. A fill's pixels have
 * the radius that the lens gave them. */
static inline lens_pixel lens_pixel_of(uint64_t word)
{
    lens_pixel pixel;
    pixel.value = word & 4095;
    pixel.opacity = word >> 12 & 255;
    pixel.shape = word >> 20 & 15;
    pixel.radius = word >> 24 & 255;
    return pixel;
}

/* What a number says, in a sentence without its full stop. */
static inline const char *lens_text(uint32_t number)
{
    switch (number) {
    case LENS_ACCEPTED:
        return "accepted";
    case LENS_REFUSED_SIZES:
        return "width and height must be 1 to 4,096, their product at most 2,097,152, "
               "the reach at most 64";
    case LENS_REFUSED_LENGTHS:
        return "a buffer does not have the length that the plate's sizes ask for, "
               "or the undo log is longer than 65,535 entries";
    case LENS_REFUSED_LOG_COUNT:
        return "the state counts more entries than the undo log has";
    case LENS_REFUSED_PLACE:
        return "the place lies outside the plate";
    case LENS_REFUSED_VALUE:
        return "a value is above 4,095";
    case LENS_REFUSED_SHAPE:
        return "there are only the shapes 0 to 5";
    case LENS_REFUSED_RADIUS:
        return "the radius is above the shape's greatest, or its kernel would reach "
               "farther than the plate's reach";
    case LENS_REFUSED_LOG_FULL:
        return "the undo log is full";
    case LENS_REFUSED_LOG_EMPTY:
        return "there is nothing to undo";
    case LENS_REFUSED_STORED_WORD:
        return "the stored pixel or the last entry of the undo log is damaged";
    case LENS_REFUSED_LENS:
        return "opening and focal length must be 1 to 4,000, the focus above the focal "
               "length and at most 10,000,000, the pitch 1 to 1,000";
    case LENS_REFUSED_DEPTH:
        return "a depth is above 10,000,000";
    case LENS_REFUSED_DEPTH_INSIDE:
        return "a depth lies inside the lens, above 0 and at most its focal length; give "
               "depths in 0.1 mm, as the lens has, and 0 for infinity";
    default:
        return "a number that this header has no name for: the archive is of another version";
    }
}

#ifdef __cplusplus
}
#endif

#endif
