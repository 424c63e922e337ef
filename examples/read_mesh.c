/* Asks how many doubles a small mesh takes, lends so many, reads it and prints its triangles. Then two calls that are refused, and why.
 *
 *     cc $(pkg-config --cflags station) read_mesh.c $(pkg-config --libs station) -o read_mesh
 */
#include <inttypes.h>
#include <station.h>
#include <stdio.h>
#include <stdlib.h>

/* Type 4, one grey component: a triangle, then a vertex whose flag 1 joins it to the last two. */
static const uint8_t data[] = {
    0, 0, 0, 0, 0, 100, 0, 128, 0, 0, 100, 255, 1, 100, 100, 64,
};
static const double decode[] = {0, 255, 0, 255, 0, 1};
static const size_t n = 1;

static mesh_answer read_mesh(double *out, size_t room)
{
    return mesh_parse_type4(data, sizeof data, 8, 8, 8, decode, 6, n, out, room);
}

static void print_triangles(const double *out, size_t count)
{
    printf("%zu triangles\n", count);
    for (size_t i = 0; i < count; i++) {
        for (size_t k = 0; k < 3; k++) {
            const double *vertex = mesh_triangle_vertex(out, n, i, k);
            const double *colour = mesh_triangle_colour(out, n, i, k);
            printf("x %g y %g grey %.3f\n", vertex[0], vertex[1], colour[MESH_AT_COMPONENTS]);
        }
    }
}

static void print_refusal(const char *call, mesh_answer answer)
{
    printf("%s: refused %" PRIu64 ", %s\n", call, answer.refused, mesh_refusal_text(answer.refused));
}

int main(void)
{
    mesh_answer answer = read_mesh(NULL, 0);
    if (answer.refused != MESH_ROOM) { /* a mesh of nothing isn't refused, and has nothing to print */
        print_refusal("asking", answer);
        return 1;
    }
    const size_t room = answer.count;
    printf("the mesh takes %zu doubles\n", room);
    double *out = (double *)malloc(room * sizeof *out);
    if (out == NULL)
        return 1;
    answer = read_mesh(out, room);
    if (answer.refused == 0)
        print_triangles(out, answer.count);

    print_refusal("with one place less", read_mesh(out, room - 1));
    print_refusal("with no Decode", mesh_parse_type4(data, sizeof data, 8, 8, 8, NULL, 0, n, NULL, 0));
    free(out);
    return 0;
}
