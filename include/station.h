/* The proved reader and writer of PDF mesh streams (ISO 32000-1, shading types 4 to 7), with what turns Coons patches into
 * tensor-product patches.
 *
 * Link with libstation.a, which pkg-config knows as `station`. Each function answers for every input, ends, allocates
 * nothing and keeps nothing between calls, so any number of threads may call it.
 *
 * What the caller keeps, and all that is asked:
 *   - A pointer is valid for its length, counted in elements, while the call lasts. With length 0 it may be null.
 *   - The output overlaps no input, and nobody else reads or writes it during the call.
 *
 * A caller who doesn't know how large the answer is asks with no output, lends exactly what is needed, and calls again.
 * To ask costs no more than to count, and the second call is never refused for room:
 *
 *     mesh_answer answer = mesh_parse_type6(data, data_len, 16, 8, 8, decode, decode_len, n, NULL, 0);
 *     if (answer.refused == MESH_ROOM) {
 *         out = malloc(answer.count * sizeof *out);
 *         if (out != NULL)
 *             answer = mesh_parse_type6(data, data_len, 16, 8, 8, decode, decode_len, n, out, answer.count);
 *     }
 *
 * A mesh of nothing needs no place, and isn't refused when asked for.
 *
 * Widths are in bits: `coord` of a coordinate, `comp` of a colour component, `flag` of an edge flag. `n` is how many
 * components a colour has. `decode` is the Decode array: min and max of x, of y and of each component; a missing entry
 * of a component is 0 or 1. Lengths, widths and counts may be any number.
 *
 * A mesh is written to `out` as rows of doubles. A colour is 8 + n numbers: r, g, b, a mark, c, m, y, k, then the n
 * components as they were read. The mark is 1 where n is 4, and 0 otherwise, with 0 for the four inks. A vertex is x, y
 * and its colour; a triangle is three vertices. A patch is 12 points (Type 6) or 16 points (Type 7), x and y of each,
 * then four colours. What stands in `out` after the answer is left as it was.
 *
 * The functions at the end take rows apart, so that no doubles need be counted. The colour of vertex k of triangle i:
 *
 *     const double *colour = mesh_triangle_colour(out, n, i, k);
 *     printf("red %g, first component %g\n", colour[MESH_AT_R], colour[MESH_AT_COMPONENTS]);
 */
#ifndef STATION_H
#define STATION_H

#include <stddef.h>
#include <stdint.h>

#ifdef __cplusplus
extern "C" {
#endif

/* What a call answers. `refused` is 0, or the number of the refusal; then nothing lent has changed. `count` is how many
 * triangles, patches, raw numbers or bytes were written. Where `refused` is MESH_ROOM, `count` is how many places of `out`
 * the whole answer needs, and for every other refusal it is 0. */
typedef struct mesh_answer {
    uint64_t refused;
    uint64_t count;
} mesh_answer;

/* The refusals. Each is given exactly when its condition holds; where several hold, in the order 1, 2, 3, 6, 5, 4. */
enum {
    MESH_LAYOUT = 1,     /* a width that the type uses is outside 1 to 32, or Decode has under four entries */
    MESH_COMPONENTS = 2, /* a colour has more than 32 components */
    MESH_LENGTH = 3,     /* the input has over 16,777,216 bytes or 1,048,576 numbers (Decode isn't counted) */
    MESH_ROOM = 4,       /* the whole answer needs more places than `out` has: `count` says how many */
    MESH_RECORD = 5,     /* writers: a number doesn't fit its width; writers and mesh_coons_to_tensor_raw: the list ends
                            inside a record, or a patch's flag is above 3 or the first one isn't 0;
                            mesh_coons_to_tensor: the list isn't whole patches */
    MESH_THIN = 6,       /* writers of Types 4 and 5: a vertex takes under 8 bits */
    MESH_FILE = 7        /* the dump program alone: not a mesh file */
};

/* ---- Meshes from bytes, as the original Rust reads them. A flag is the whole number: in Type 4 one of 3 or more drops its
 * vertex, in Types 6 and 7 one above 3 ends the mesh. */

/* Reads a free-form triangle mesh (Type 4). */
mesh_answer mesh_parse_type4(const uint8_t *data, size_t data_len, size_t coord, size_t comp,
    size_t flag, const double *decode, size_t decode_len, size_t n, double *out, size_t out_len);

/* Reads a lattice-form triangle mesh (Type 5), whose rows have `row` vertices. */
mesh_answer mesh_parse_type5(const uint8_t *data, size_t data_len, size_t coord, size_t comp,
    const double *decode, size_t decode_len, size_t n, size_t row, double *out, size_t out_len);

/* Reads a Coons patch mesh (Type 6). */
mesh_answer mesh_parse_type6(const uint8_t *data, size_t data_len, size_t coord, size_t comp,
    size_t flag, const double *decode, size_t decode_len, size_t n, double *out, size_t out_len);

/* Reads a tensor-product patch mesh (Type 7). */
mesh_answer mesh_parse_type7(const uint8_t *data, size_t data_len, size_t coord, size_t comp,
    size_t flag, const double *decode, size_t decode_len, size_t n, double *out, size_t out_len);

/* ---- Meshes from bytes, as ISO 32000-1 says, but for what docs/DIFFERENCES.md lists. A flag is its two low bits, whatever
 * stands in the others: 4 is read as 0, and in Type 4 a flag that comes to 3 drops its vertex. With flags below 4 the meshes
 * are those above, and with flags of 1 or 2 bits always. */

/* Reads a free-form triangle mesh (Type 4). */
mesh_answer mesh_published_type4(const uint8_t *data, size_t data_len, size_t coord, size_t comp,
    size_t flag, const double *decode, size_t decode_len, size_t n, double *out, size_t out_len);

/* Reads a lattice-form triangle mesh (Type 5), whose rows have `row` vertices. */
mesh_answer mesh_published_type5(const uint8_t *data, size_t data_len, size_t coord, size_t comp,
    const double *decode, size_t decode_len, size_t n, size_t row, double *out, size_t out_len);

/* Reads a Coons patch mesh (Type 6). */
mesh_answer mesh_published_type6(const uint8_t *data, size_t data_len, size_t coord, size_t comp,
    size_t flag, const double *decode, size_t decode_len, size_t n, double *out, size_t out_len);

/* Reads a tensor-product patch mesh (Type 7). */
mesh_answer mesh_published_type7(const uint8_t *data, size_t data_len, size_t coord, size_t comp,
    size_t flag, const double *decode, size_t decode_len, size_t n, double *out, size_t out_len);

/* ---- Meshes from a list of numbers, flags among them, as the original Rust builds them */

/* Builds a free-form triangle mesh (Type 4). It and the reading of bytes part only where a triangle comes by flag 2 right
 * after one that came by flag 2. */
mesh_answer mesh_build_type4(const double *values, size_t values_len, size_t n, double *out,
    size_t out_len);

/* Builds a lattice-form triangle mesh (Type 5), whose rows have `row` vertices. */
mesh_answer mesh_build_type5(const double *values, size_t values_len, size_t n, size_t row,
    double *out, size_t out_len);

/* Builds a Coons patch mesh (Type 6). */
mesh_answer mesh_build_type6(const double *values, size_t values_len, size_t n, double *out,
    size_t out_len);

/* Builds a tensor-product patch mesh (Type 7). Its sides differ from those of the reading of bytes. */
mesh_answer mesh_build_type7(const double *values, size_t values_len, size_t n, double *out,
    size_t out_len);

/* ---- Meshes from a list of numbers, by the flag rules of ISO 32000-1 */

/* Builds a free-form triangle mesh (Type 4). */
mesh_answer mesh_build_published_type4(const double *values, size_t values_len, size_t n,
    double *out, size_t out_len);

/* Builds a lattice-form triangle mesh (Type 5), whose rows have `row` vertices. */
mesh_answer mesh_build_published_type5(const double *values, size_t values_len, size_t n,
    size_t row, double *out, size_t out_len);

/* Builds a Coons patch mesh (Type 6). */
mesh_answer mesh_build_published_type6(const double *values, size_t values_len, size_t n,
    double *out, size_t out_len);

/* Builds a tensor-product patch mesh (Type 7). */
mesh_answer mesh_build_published_type7(const double *values, size_t values_len, size_t n,
    double *out, size_t out_len);

/* ---- Raw numbers from bytes: those of complete records, before Decode */

/* Type 4: a flag, x, y and components for each vertex. */
mesh_answer mesh_raw_read_type4(const uint8_t *data, size_t data_len, size_t coord, size_t comp,
    size_t flag, size_t n, uint32_t *out, size_t out_len);

/* Type 5: x, y and components for each vertex. */
mesh_answer mesh_raw_read_type5(const uint8_t *data, size_t data_len, size_t coord, size_t comp,
    size_t n, uint32_t *out, size_t out_len);

/* Type 6: a flag, points and colours for each patch. */
mesh_answer mesh_raw_read_type6(const uint8_t *data, size_t data_len, size_t coord, size_t comp,
    size_t flag, size_t n, uint32_t *out, size_t out_len);

/* Type 7: a flag, points and colours for each patch. */
mesh_answer mesh_raw_read_type7(const uint8_t *data, size_t data_len, size_t coord, size_t comp,
    size_t flag, size_t n, uint32_t *out, size_t out_len);

/* ---- Bytes from raw numbers: read back, they give the same numbers. The last byte is filled with zeros */

/* Type 4: a flag, x, y and components for each vertex. */
mesh_answer mesh_raw_write_type4(const uint32_t *numbers, size_t numbers_len, size_t coord,
    size_t comp, size_t flag, size_t n, uint8_t *out, size_t out_len);

/* Type 5: x, y and components for each vertex. */
mesh_answer mesh_raw_write_type5(const uint32_t *numbers, size_t numbers_len, size_t coord,
    size_t comp, size_t n, uint8_t *out, size_t out_len);

/* Type 6: a flag, points and colours for each patch. */
mesh_answer mesh_raw_write_type6(const uint32_t *numbers, size_t numbers_len, size_t coord,
    size_t comp, size_t flag, size_t n, uint8_t *out, size_t out_len);

/* Type 7: a flag, points and colours for each patch. */
mesh_answer mesh_raw_write_type7(const uint32_t *numbers, size_t numbers_len, size_t coord,
    size_t comp, size_t flag, size_t n, uint8_t *out, size_t out_len);

/* ---- Coons patches (Type 6) as tensor-product patches (Type 7), by the four formulas of 8.7.4.5.8. The 16 points come
 * out in stream order: the border p00 p01 p02 p03 p13 p23 p33 p32 p31 p30 p20 p10, then p11 p12 p22 p21. Refusals, in this
 * order: COMPONENTS, LENGTH, RECORD, ROOM */

/* From raw numbers, as mesh_raw_read_type6 writes them. Sides that flags 1 to 3 take over are filled in first. Each patch
 * becomes 32 + 4 * n numbers, without a flag: x and y of the 16 points, each exactly nine times the coordinate, then the
 * four colours of n raw components as they are. */
mesh_answer mesh_coons_to_tensor_raw(const uint32_t *numbers, size_t numbers_len, size_t n,
    int64_t *out, size_t out_len);

/* From patches as the readers and builders of Type 6 write them, to patches as those of Type 7 do: 24 + 4 * (8 + n) doubles
 * become 32 + 4 * (8 + n). The border and the colours are copied. Each inner coordinate is
 *     ((((-4 * a + 6 * (b + c)) - 2 * (d + e)) + 3 * (f + g)) - h) / 9
 * with every operation rounded by itself, in this order, where a to h are, for
 *     p11: p00 p01 p10 p03 p30 p31 p13 p33      p12: p03 p02 p13 p00 p33 p32 p10 p30
 *     p22: p33 p32 p23 p30 p03 p02 p20 p00      p21: p30 p31 p20 p33 p00 p01 p23 p03 */
mesh_answer mesh_coons_to_tensor(const double *values, size_t values_len, size_t n, double *out,
    size_t out_len);

/* ---- Taking an answer apart. Triangles, patches, vertices, points and colours are counted from 0. What is asked for is
 * there where `out` holds the answer of a call with the same n, and i is under its `count` */

/* Where the numbers of a colour stand. */
enum {
    MESH_AT_R = 0,
    MESH_AT_G = 1,
    MESH_AT_B = 2,
    MESH_AT_MARK = 3, /* 1 where n is 4, so that the four inks are there */
    MESH_AT_C = 4,
    MESH_AT_M = 5,
    MESH_AT_Y = 6,
    MESH_AT_K = 7,
    MESH_AT_COMPONENTS = 8 /* the first of the n components */
};

/* How many doubles a colour, a vertex, a triangle and a patch take. */
static inline size_t mesh_colour_size(size_t n)
{
    return MESH_AT_COMPONENTS + n;
}

static inline size_t mesh_vertex_size(size_t n)
{
    return 2 + mesh_colour_size(n);
}

static inline size_t mesh_triangle_size(size_t n)
{
    return 3 * mesh_vertex_size(n);
}

static inline size_t mesh_coons_size(size_t n)
{
    return 12 * 2 + 4 * mesh_colour_size(n);
}

static inline size_t mesh_tensor_size(size_t n)
{
    return 16 * 2 + 4 * mesh_colour_size(n);
}

/* Vertex k (0 to 2) of triangle i: x and y, then its colour. */
static inline const double *mesh_triangle_vertex(const double *out, size_t n, size_t i, size_t k)
{
    return out + i * mesh_triangle_size(n) + k * mesh_vertex_size(n);
}

/* The colour of vertex k of triangle i. */
static inline const double *mesh_triangle_colour(const double *out, size_t n, size_t i, size_t k)
{
    return mesh_triangle_vertex(out, n, i, k) + 2;
}

/* Point k (0 to 11) of Coons patch i: x and y. */
static inline const double *mesh_coons_point(const double *out, size_t n, size_t i, size_t k)
{
    return out + i * mesh_coons_size(n) + 2 * k;
}

/* Colour k (0 to 3) of Coons patch i. By ISO 32000-1 it belongs to point 3 * k. */
static inline const double *mesh_coons_colour(const double *out, size_t n, size_t i, size_t k)
{
    return out + i * mesh_coons_size(n) + 12 * 2 + k * mesh_colour_size(n);
}

/* Point k (0 to 15) of tensor-product patch i: x and y. */
static inline const double *mesh_tensor_point(const double *out, size_t n, size_t i, size_t k)
{
    return out + i * mesh_tensor_size(n) + 2 * k;
}

/* Colour k (0 to 3) of tensor-product patch i. By ISO 32000-1 it belongs to point 3 * k. */
static inline const double *mesh_tensor_colour(const double *out, size_t n, size_t i, size_t k)
{
    return out + i * mesh_tensor_size(n) + 16 * 2 + k * mesh_colour_size(n);
}

/* The same of what mesh_coons_to_tensor_raw writes, where a colour is its n components alone. */
static inline size_t mesh_raw_tensor_size(size_t n)
{
    return 16 * 2 + 4 * n;
}

static inline const int64_t *mesh_raw_tensor_point(const int64_t *out, size_t n, size_t i, size_t k)
{
    return out + i * mesh_raw_tensor_size(n) + 2 * k;
}

static inline const int64_t *mesh_raw_tensor_colour(const int64_t *out, size_t n, size_t i, size_t k)
{
    return out + i * mesh_raw_tensor_size(n) + 16 * 2 + k * n;
}

/* What to tell a user of a refusal. */
static inline const char *mesh_refusal_text(uint64_t refused)
{
    switch (refused) {
    case 0:
        return "nothing was refused";
    case MESH_LAYOUT:
        return "a width of the mesh is outside 1 to 32 bits, or Decode has under four entries: the mesh can't be read";
    case MESH_COMPONENTS:
        return "a colour has more than 32 components";
    case MESH_LENGTH:
        return "the input has over 16,777,216 bytes, or the list over 1,048,576 numbers";
    case MESH_ROOM:
        return "the whole answer needs more places than the lent output has";
    case MESH_RECORD:
        return "the list can't be written or turned into tensor patches: a number doesn't fit its width, the list ends "
               "inside a record or a patch, or a patch's flag is above 3 or the first one isn't 0";
    case MESH_THIN:
        return "a vertex to be written takes under 8 bits, so the fill bits of the last byte could be read back as one "
               "more";
    case MESH_FILE:
        return "the mesh file is too long, too short, of another mark or version, or not of type 4 to 7";
    default:
        return "no refusal has this number";
    }
}

#ifdef __cplusplus
}
#endif

#endif
