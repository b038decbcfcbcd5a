/*
 * dihyravo.h: the C interface of libdihyravo.a, which squares up photographs. It fits a mapping to picked points, warps
 * a picture and hands out the rows in bands. Link with libdihyravo.a and nothing else: of the C library it needs
 * memcpy, memmove and memset alone.
 *
 * RULES OF EVERY CALL
 *
 * Any numbers may be given. A call that can't be done is refused by a number and changes nothing. What a caller owes is
 * this:
 *
 * - A pointer is to as many bytes as the length beside it says, or as the parameter's type says. Where the length is 0
 *   it isn't followed and may be null. Lengths are in bytes. Picture, arguments, colours, band and names may lie at any
 *   address; an answer lies as its struct must.
 * - Band and answer overlap nothing else that is lent, and not each other. All the rest is only read, and may overlap.
 * - While a call runs, nobody else writes what it was lent, and nobody else reads its band and answer.
 * - The processor's floats are as a program finds them at its start: rounded to nearest, subnormal numbers kept, no
 *   traps.
 *
 * A call always ends. It has no state, allocates no memory, and touches no file; calls may run in several threads at a
 * time. It takes less than 32 KiB of stack.
 *
 * PICTURES AND NUMBERS
 *
 * A sample is an IEEE float of 4 bytes, an argument one of 8 bytes, both little-endian: on a little-endian machine a
 * float and a double as they are. A picture's samples lie row after row from the top, pixel after pixel from the left,
 * the channels of a pixel together: 1 channel (grey), 3 (red, green, blue) or 4 (and alpha, not premultiplied). 0 is
 * black, 1 is white or opaque; other numbers are allowed up to the limit of refusal 5. A colour is red, green, blue and
 * alpha, also for a grey picture.
 *
 * Pixel i, j covers i to i + 1 and j to j + 1, so its centre is at i + 0.5, j + 0.5. A pair is u, v on the picture and
 * x, y on the output.
 */
#ifndef DIHYRAVO_H
#define DIHYRAVO_H

#include <stddef.h>
#include <stdint.h>

#ifdef __cplusplus
extern "C" {
#endif

/* Limits. */
#define DIHYRAVO_LARGEST_SIDE 4096         /* of width and height, of picture and output */
#define DIHYRAVO_MOST_ARGUMENTS 257
#define DIHYRAVO_MOST_PAIRS 64
#define DIHYRAVO_LARGEST_ARGUMENT 1048576.0 /* in magnitude */
#define DIHYRAVO_LARGEST_SAMPLE 65536.0f    /* in magnitude, of colours too */
#define DIHYRAVO_LARGEST_OFFSET 1048576     /* in magnitude */

/* Methods, by code. 2, 8, 9 and 10 (ScaleRotateTranslate, Arc, Polar, DePolar) have names but are absent: refusal 3. */
enum dihyravo_method_code {
    DIHYRAVO_METHOD_AFFINE = 0,                 /* pairs u,v,x,y: 1 shifts, 2 fit a similarity, 3 or more by least
                                                   squares */
    DIHYRAVO_METHOD_AFFINE_PROJECTION = 1,      /* sx,ry,rx,sy,tx,ty: x = sx u + rx v + tx, y = ry u + sy v + ty */
    DIHYRAVO_METHOD_PERSPECTIVE = 3,            /* 4 pairs or more */
    DIHYRAVO_METHOD_PERSPECTIVE_PROJECTION = 4, /* a..h: x = (a u + b v + c)/(g u + h v + 1),
                                                   y = (d u + e v + f)/(g u + h v + 1) */
    DIHYRAVO_METHOD_BILINEAR_REVERSE = 5,       /* 4 pairs or more; u and v are bilinear in x and y */
    DIHYRAVO_METHOD_BILINEAR_FORWARD = 6,       /* 4 pairs or more; x and y are bilinear in u and v */
    DIHYRAVO_METHOD_POLYNOMIAL = 7,             /* the order, 1, 1.5, 2, 3, 4 or 5, then at least 3, 4, 6, 10,
                                                   15 or 21 pairs, by the order */
    DIHYRAVO_METHOD_BARREL = 11,                /* A,B,C[,D[,X,Y]]: the radius times A r^3 + B r^2 + C r + D, around
                                                   X,Y; r is the output's radius, 1 at half the picture's shorter
                                                   side. Left out, D is 1 - (A + B + C) and X,Y the picture's
                                                   middle. More arguments are not used */
    DIHYRAVO_METHOD_BARREL_INVERSE = 12,        /* the same arguments; the radius over it */
    DIHYRAVO_METHOD_SHEPARDS = 13               /* pairs; each pulls by the inverse of its squared distance */
};

/* Virtual pixel policies, by code: what is read outside the picture. */
enum dihyravo_policy_code {
    DIHYRAVO_POLICY_EDGE = 0,        /* the nearest edge pixel */
    DIHYRAVO_POLICY_BACKGROUND = 1,  /* the background colour */
    DIHYRAVO_POLICY_BLACK = 2,
    DIHYRAVO_POLICY_WHITE = 3,
    DIHYRAVO_POLICY_GRAY = 4,
    DIHYRAVO_POLICY_TRANSPARENT = 5, /* transparent black; the output has 4 channels */
    DIHYRAVO_POLICY_TILE = 6,
    DIHYRAVO_POLICY_MIRROR = 7,
    DIHYRAVO_POLICY_HORIZONTAL_TILE = 8,       /* background above and below */
    DIHYRAVO_POLICY_VERTICAL_TILE = 9,         /* background left and right */
    DIHYRAVO_POLICY_HORIZONTAL_TILE_EDGE = 10, /* the nearest edge pixel above and below */
    DIHYRAVO_POLICY_VERTICAL_TILE_EDGE = 11,   /* the nearest edge pixel left and right */
    DIHYRAVO_POLICY_CHECKER_TILE = 12,         /* a checkerboard of picture and background */
    DIHYRAVO_POLICY_RANDOM = 13                /* a pixel of the picture that depends on the place alone */
};

/* Interpolations, by code: how the picture is read between its pixels. */
enum dihyravo_interpolation_code {
    DIHYRAVO_INTERPOLATION_INTEGER = 0, /* the pixel that holds the point */
    DIHYRAVO_INTERPOLATION_NEAREST = 1, /* the pixel whose centre is nearest */
    DIHYRAVO_INTERPOLATION_AVERAGE = 2,   /* the mean of 2 by 2 */
    DIHYRAVO_INTERPOLATION_AVERAGE9 = 3,  /* of 3 by 3 */
    DIHYRAVO_INTERPOLATION_AVERAGE16 = 4, /* of 4 by 4 */
    DIHYRAVO_INTERPOLATION_BILINEAR = 5,
    DIHYRAVO_INTERPOLATION_CATROM = 6,
    DIHYRAVO_INTERPOLATION_SPLINE = 7,
    DIHYRAVO_INTERPOLATION_BACKGROUND = 8 /* the background colour */
};

/*
 * The refusal table. Tests run in this order; the first that applies is the answer, and where none applies the call is
 * accepted.
 */
enum dihyravo_refusal {
    DIHYRAVO_ACCEPTED = 0,
    DIHYRAVO_REFUSAL_SIZE = 1,       /* width or height is 0 or above 4,096, or channels is not 1, 3 or 4 */
    DIHYRAVO_REFUSAL_STOCK = 2,      /* the picture's length is not width * height * channels floats */
    DIHYRAVO_REFUSAL_CODE = 3,       /* method, policy or interpolation is unknown or absent */
    DIHYRAVO_REFUSAL_COUNT = 4,      /* the arguments end inside a number, or are more than 257; AffineProjection not 6;
                                        PerspectiveProjection not 8; both Barrels under 3; Polynomial with no order; in
                                        a pair method, values (after the order) under 4, not in fours, or over
                                        64 pairs */
    DIHYRAVO_REFUSAL_NUMBER = 5,     /* an argument is not finite or above 1,048,576 in magnitude; a sample, background
                                        or matte component likewise above 65,536 */
    DIHYRAVO_REFUSAL_ORDER = 6,      /* the order of Polynomial is not exactly 1, 1.5, 2, 3, 4 or 5 */
    DIHYRAVO_REFUSAL_FEW = 7,        /* under 4 pairs for Perspective and both Bilinears; under the term count for
                                        Polynomial */
    DIHYRAVO_REFUSAL_DEGENERATE = 8, /* the fit's solution or inversion gives none */
    DIHYRAVO_REFUSAL_WINDOW = 9,     /* output width or height is 0 or above 4,096, or an offset is beyond 1,048,576 in
                                        magnitude, after best fit if used; or an edge of the best fit is not finite */
    DIHYRAVO_REFUSAL_ROWS = 10,      /* first row plus row count is above the output's height */
    DIHYRAVO_REFUSAL_TRAY = 11       /* the band's length is not rows * output width * output channels floats */
};

/* What an accepted call answers: 48 bytes, six little-endian numbers, so on a little-endian machine this struct. */
struct dihyravo_answer {
    uint64_t width, height; /* the output's size */
    int64_t x, y;           /* where its upper left corner lies */
    uint64_t channels;      /* 4 if the picture has 4, the policy is Transparent or the background's alpha is below 1;
                               else the picture's */
    uint64_t matte_pixels;  /* the band's pixels that have no source point that can be used, and so show the matte
                               colour */
};

/*
 * The distort call: rows first_row to first_row + rows - 1 of the output, into band. Returns 0 for accepted, else the
 * refusal's number. A refusal leaves every byte of band and answer as it was. An accepted call writes the whole band
 * and the whole answer.
 *
 * picture, arguments: see above; picture_length = width * height * channels * 4, arguments_length = 8 for each
 *   argument.
 * background: 16 bytes, four floats; read by some policies and interpolations. matte: 16 bytes, four floats; the colour
 *   of pixels that have no source point or none that can be used (a coordinate that is no number or beyond 2^30).
 * bestfit: 0 is no, anything else yes: the output is sized to the distorted picture, for the affine and the perspective
 *   methods.
 * viewport: 0 is no, anything else yes: the output is view_width by view_height at view_x, view_y, whatever bestfit
 *   says; if no, these four are not read. With neither, the output has the picture's size and lies at 0, 0.
 * band_length = rows * output width * output channels * 4.
 *
 * Zero rows with a band of length 0 is accepted where everything else is fit: this is the way to ask for the output's
 * size. Bands of any heights, in any order, at the same time in several threads if wanted, together are the whole
 * output, byte for byte, and their matte counts add up. Each call looks at every sample of the picture (refusal 5), so
 * small bands are slow.
 */
uint64_t dihyravo_distort(const void *picture, size_t picture_length, uint64_t width, uint64_t height,
                          uint64_t channels, uint64_t method, const void *arguments, size_t arguments_length,
                          uint64_t policy, uint64_t interpolation, const void *background, const void *matte,
                          uint64_t bestfit, uint64_t viewport, uint64_t view_width, uint64_t view_height,
                          int64_t view_x, int64_t view_y, uint64_t first_row, uint64_t rows, void *band,
                          size_t band_length, struct dihyravo_answer *answer);

/*
 * The code of a name, or -3 (refusal 3) where it is no name. A name is length bytes of ASCII, without a zero at its
 * end; case is ignored. The names are those of the constants above without underscores, and ImageMagick's second names:
 * Bilinear for BilinearForward, SRT; Undefined, Grey, None; NearestNeighbor, Average4, Bicubic. An absent method's name
 * gives its code.
 */
int64_t dihyravo_method(const void *name, size_t length);
int64_t dihyravo_policy(const void *name, size_t length);
int64_t dihyravo_interpolation(const void *name, size_t length);

/*
 * The same call with its numbers in a struct, so that they can be named where they are given. Those left out are 0: the
 * method Affine, the policy Edge, the interpolation Integer, no best fit, no viewport, no rows, and colours of
 * transparent black. Give the background an alpha of 1, or the output has 4 channels.
 */
struct dihyravo_job {
    const void *picture;
    size_t picture_length;
    uint64_t width, height, channels;
    uint64_t method;
    const void *arguments;
    size_t arguments_length;
    uint64_t policy, interpolation;
    float background[4], matte[4];
    uint64_t bestfit;
    uint64_t viewport, view_width, view_height;
    int64_t view_x, view_y;
    uint64_t first_row, rows;
};

static inline uint64_t dihyravo_run(const struct dihyravo_job *job, void *band, size_t band_length,
                                    struct dihyravo_answer *answer)
{
    return dihyravo_distort(job->picture, job->picture_length, job->width, job->height, job->channels, job->method,
                            job->arguments, job->arguments_length, job->policy, job->interpolation, job->background,
                            job->matte, job->bestfit, job->viewport, job->view_width, job->view_height, job->view_x,
                            job->view_y, job->first_row, job->rows, band, band_length, answer);
}

/* A refusal's word; "accepted" for 0 and "" for a number that is none. */
static inline const char *dihyravo_word(uint64_t number)
{
    static const char *const words[] = {"accepted", "size", "stock", "code", "count", "number",
                                        "order", "few", "degenerate", "window", "rows", "tray"};
    return number < sizeof words / sizeof *words ? words[number] : "";
}

#ifdef __cplusplus
}
#endif

#endif
