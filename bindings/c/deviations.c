/* Matches the points of a scan with those of a reference cloud and writes for each its target and its deviation, then the number of pairs and
 * the mean squared error. C11 and C++17. */
#include "ongdhuse.h"

#include <stdio.h>

enum { SOURCE_POINTS = 5, TARGET_POINTS = 4 };

/* The distance of two points, as the library computes it. */
static float deviation(const float *p, const float *q)
{
    const float dx = q[0] - p[0];
    const float dy = q[1] - p[1];
    const float dz = q[2] - p[2];
    return ongdhuse_sqrt_f32((dx * dx + dy * dy) + dz * dz);
}

static int refused(const char *what, uint32_t number)
{
    if (number != 0) {
        printf("%s: refused %u\n", what, (unsigned)number);
    }
    return number != 0;
}

int main(void)
{
    static const float source[3 * SOURCE_POINTS] = {1, 1, 0, 0.5f, 0, 0, 0, 4.75f, 0.25f, 2, 0, -0.125f, 9, 9, 9};
    static const float target[3 * TARGET_POINTS] = {1, 0, 0, 0, 0, 0, 2, 0, 0, 0, 5, 0};
    const float limit = 1;
    float coords[3 * TARGET_POINTS];
    uint32_t indices[TARGET_POINTS];
    uint32_t matches[SOURCE_POINTS];
    double sums[16];
    uint32_t slots = 0;
    uint32_t pairs = 0;
    size_t i;

    if (refused("build", ongdhuse_build(target, 3 * TARGET_POINTS, coords, 3 * TARGET_POINTS, indices, TARGET_POINTS, &slots))) {
        return 1;
    }
    for (i = 0; i < SOURCE_POINTS; i++) {
        matches[i] = ONGDHUSE_NONE;
    }
    if (refused("matching", ongdhuse_find_correspondences_seeded(source, 3 * SOURCE_POINTS, target, 3 * TARGET_POINTS, coords, (size_t)3 * slots,
                                                                 indices, slots, 1, limit, matches, SOURCE_POINTS))) {
        return 1;
    }
    for (i = 0; i < SOURCE_POINTS; i++) {
        const float *p = source + 3 * i;
        const size_t start = ongdhuse_target_point(target, 3 * TARGET_POINTS, matches[i]);
        printf("%u (%g, %g, %g)", (unsigned)i, p[0], p[1], p[2]);
        if (start < 3 * TARGET_POINTS) {
            const float *q = target + start;
            printf(" belongs to %u (%g, %g, %g), deviation %.6f\n", (unsigned)matches[i], q[0], q[1], q[2], deviation(p, q));
        } else {
            printf(" has no match within %g\n", limit);
        }
    }
    if (refused("sums", ongdhuse_collect(source, 3 * SOURCE_POINTS, target, 3 * TARGET_POINTS, matches, SOURCE_POINTS, sums, 16, &pairs))) {
        return 1;
    }
    printf("pairs %u\n", (unsigned)pairs);
    printf("mse %.9g\n", ongdhuse_mse(pairs, sums[15]));
    return 0;
}
