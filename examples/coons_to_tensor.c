/* Reads a Coons patch mesh (Type 6) and hands its patches on as tensor-product patches (Type 7), for a renderer that knows these alone.
 * Then the same on raw numbers, where nothing is rounded, and two calls that are refused.
 *
 *     cc $(pkg-config --cflags station) coons_to_tensor.c $(pkg-config --libs station) -o coons_to_tensor
 */
#include <inttypes.h>
#include <station.h>
#include <stdbool.h>
#include <stdio.h>
#include <stdlib.h>
#include <string.h>

/* The points and the corner colours in the order of the tensor stream. */
static const char *const points[] = {
    "p00", "p01", "p02", "p03", "p13", "p23", "p33", "p32", "p31", "p30", "p20", "p10", "p11", "p12", "p22", "p21",
};
static const char *const corners[] = {"c00", "c03", "c33", "c30"};

/* A patch, then one whose flag 2 joins it to the side p33 p32 p31 p30. */
static const uint8_t data[] = {
    0, 30, 30, 20, 60, 40, 90, 30, 120, 60, 130, 90, 110, 120, 120, 130, 90, 110, 60, 120, 30, 90, 20, 60, 40,
    255, 0, 0, 0, 255, 0, 0, 0, 255, 255, 255, 255,
    2, 150, 40, 180, 20, 210, 30, 220, 60, 200, 90, 210, 120, 180, 130, 150, 110,
    255, 255, 0, 0, 0, 0,
};
static const double decode[] = {0, 255, 0, 255, 0, 1, 0, 1, 0, 1};
static const size_t n = 3;

/* Lends as many places, of this size, as a call needs that was asked with no output. */
static void *lend(mesh_answer asked, size_t size)
{
    void *out = asked.refused == MESH_ROOM ? malloc(asked.count * size) : NULL;
    if (out == NULL) {
        printf("refused %" PRIu64 ", %s\n", asked.refused, mesh_refusal_text(asked.refused));
        exit(1);
    }
    return out;
}

static void draw(const double *tensor, size_t i)
{
    for (size_t k = 0; k < 16; k++) {
        const double *point = mesh_tensor_point(tensor, n, i, k);
        printf("%s %.3f %.3f\n", points[k], point[0], point[1]);
    }
    for (size_t k = 0; k < 4; k++) {
        const double *colour = mesh_tensor_colour(tensor, n, i, k);
        printf("%s r %g g %g b %g\n", corners[k], colour[MESH_AT_R], colour[MESH_AT_G], colour[MESH_AT_B]);
    }
}

/* Whether the border and the colours are still those of the Coons patch. */
static bool kept(const double *coons, const double *tensor, size_t i)
{
    for (size_t k = 0; k < 12; k++) {
        if (memcmp(mesh_coons_point(coons, n, i, k), mesh_tensor_point(tensor, n, i, k), 2 * sizeof *coons) != 0)
            return false;
    }
    for (size_t k = 0; k < 4; k++) {
        const size_t bytes = mesh_colour_size(n) * sizeof *coons;
        if (memcmp(mesh_coons_colour(coons, n, i, k), mesh_tensor_colour(tensor, n, i, k), bytes) != 0)
            return false;
    }
    return true;
}

int main(void)
{
    /* each call is asked first, with no output: every refusal but ROOM comes then, so that the second call isn't refused */
    mesh_answer asked = mesh_parse_type6(data, sizeof data, 8, 8, 8, decode, 10, n, NULL, 0);
    const size_t coons_len = asked.count;
    double *coons = (double *)lend(asked, sizeof *coons);
    mesh_parse_type6(data, sizeof data, 8, 8, 8, decode, 10, n, coons, coons_len);

    asked = mesh_coons_to_tensor(coons, coons_len, n, NULL, 0);
    const size_t tensor_len = asked.count;
    double *tensor = (double *)lend(asked, sizeof *tensor);
    const size_t count = mesh_coons_to_tensor(coons, coons_len, n, tensor, tensor_len).count;
    for (size_t i = 0; i < count; i++) {
        printf("patch %zu of %zu\n", i + 1, count);
        draw(tensor, i);
        printf("border and colours: %s\n", kept(coons, tensor, i) ? "those of the Coons patch" : "changed");
    }

    /* on raw numbers each point is nine times what it was above, exactly: this Decode leaves coordinates as they are */
    asked = mesh_raw_read_type6(data, sizeof data, 8, 8, 8, n, NULL, 0);
    const size_t numbers_len = asked.count;
    uint32_t *numbers = (uint32_t *)lend(asked, sizeof *numbers);
    mesh_raw_read_type6(data, sizeof data, 8, 8, 8, n, numbers, numbers_len);

    asked = mesh_coons_to_tensor_raw(numbers, numbers_len, n, NULL, 0);
    int64_t *raw = (int64_t *)lend(asked, sizeof *raw);
    mesh_coons_to_tensor_raw(numbers, numbers_len, n, raw, asked.count);
    for (size_t k = 12; k < 16; k++) {
        const int64_t *point = mesh_raw_tensor_point(raw, n, 1, k);
        printf("nine times %s of patch 2: %" PRId64 " %" PRId64 "\n", points[k], point[0], point[1]);
    }
    const int64_t *colour = mesh_raw_tensor_colour(raw, n, 1, 2);
    printf("raw %s of patch 2: %" PRId64 " %" PRId64 " %" PRId64 "\n", corners[2], colour[0], colour[1], colour[2]);

    mesh_answer answer = mesh_coons_to_tensor(coons, coons_len, n, tensor, tensor_len - 1);
    printf("with one place less: refused %" PRIu64 ", needed %" PRIu64 "\n", answer.refused, answer.count);
    answer = mesh_coons_to_tensor(coons, mesh_coons_size(n) / 2, n, tensor, tensor_len);
    printf("with half a patch: refused %" PRIu64 ", needed %" PRIu64 "\n", answer.refused, answer.count);

    free(raw);
    free(numbers);
    free(tensor);
    free(coons);
    return 0;
}
