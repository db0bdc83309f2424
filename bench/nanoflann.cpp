// nanoflann behind C functions, with the clock and the counter that every side is measured by.
// L2_Simple computes ((0 + dx*dx) + dy*dy) + dz*dz in float, which is the distance of the other two.
#include <nanoflann.hpp>
#include <valgrind/callgrind.h>

#include <algorithm>
#include <array>
#include <cmath>
#include <cstdint>
#include <ctime>
#include <limits>
#include <utility>
#include <vector>

namespace {

struct Points {
    const float *at;
    size_t count;
    size_t kdtree_get_point_count() const { return count; }
    float kdtree_get_pt(size_t i, size_t axis) const { return at[3 * i + axis]; }
    template <class Box> bool kdtree_get_bbox(Box &) const { return false; }
};

using Index = nanoflann::KDTreeSingleIndexAdaptor<nanoflann::L2_Simple_Adaptor<float, Points>, Points, 3, uint32_t>;

struct Tree {
    Points points;
    Index index;
    std::vector<std::pair<uint32_t, float>> found;
    Tree(const float *cloud, size_t count) : points{cloud, count}, index(3, points) { index.buildIndex(); }
};

// sum of p, sum of q, the nine sums of p_i * q_j, sum of squared errors
using Sums = std::array<double, 16>;

void add_pair(Sums &s, const float *source, const float *target)
{
    const double p[3] = {source[0], source[1], source[2]};
    const double q[3] = {target[0], target[1], target[2]};
    for (int i = 0; i < 3; i++) {
        s[i] += p[i];
        s[3 + i] += q[i];
        for (int j = 0; j < 3; j++) {
            s[6 + 3 * i + j] += p[i] * q[j];
        }
    }
    const double e[3] = {p[0] - q[0], p[1] - q[1], p[2] - q[2]};
    s[15] += (e[0] * e[0] + e[1] * e[1]) + e[2] * e[2];
}

} // namespace

extern "C" {

Tree *nanoflann_build(const float *cloud, size_t count) { return new Tree(cloud, count); }

void nanoflann_drop(Tree *tree) { delete tree; }

double nanoflann_k_nearest(const Tree *tree, const float *queries, size_t count, size_t k)
{
    std::vector<uint32_t> indices(k);
    std::vector<float> squares(k);
    double sum = 0;
    for (size_t i = 0; i < count; i++) {
        const size_t n = tree->index.knnSearch(queries + 3 * i, k, indices.data(), squares.data());
        for (size_t j = 0; j < n; j++) {
            sum += squares[j];
        }
    }
    return sum;
}

// nanoflann takes squared distances strictly below its radius, so it is given the next number above the square.
double nanoflann_radius(Tree *tree, const float *queries, size_t count, float radius)
{
    const float bound = std::nextafter(radius * radius, std::numeric_limits<float>::infinity());
    double sum = 0;
    for (size_t i = 0; i < count; i++) {
        tree->index.radiusSearch(queries + 3 * i, bound, tree->found, nanoflann::SearchParams());
        for (auto &entry : tree->found) {
            entry.second = std::sqrt(entry.second);
            sum += entry.second;
        }
    }
    return sum;
}

// Matches every source point, then sums the pairs in runs of 512.
double nanoflann_match(const Tree *tree, const float *source, size_t count, uint32_t *matches, double *out)
{
    const size_t run = 512;
    Sums total{};
    for (size_t start = 0; start < count; start += run) {
        Sums sums{};
        for (size_t i = start; i < std::min(start + run, count); i++) {
            float square;
            tree->index.knnSearch(source + 3 * i, 1, matches + i, &square);
            add_pair(sums, source + 3 * i, tree->points.at + 3 * static_cast<size_t>(matches[i]));
        }
        for (size_t j = 0; j < total.size(); j++) {
            total[j] += sums[j];
        }
    }
    std::copy(total.begin(), total.end(), out);
    return total[15];
}

// Nanoseconds that this process has had of the processor.
uint64_t processor_time()
{
    timespec t;
    clock_gettime(CLOCK_PROCESS_CPUTIME_ID, &t);
    return static_cast<uint64_t>(t.tv_sec) * 1000000000u + static_cast<uint64_t>(t.tv_nsec);
}

void count_from()
{
    CALLGRIND_START_INSTRUMENTATION;
    CALLGRIND_ZERO_STATS;
}

void count_to(const char *label)
{
    CALLGRIND_DUMP_STATS_AT(label);
    CALLGRIND_STOP_INSTRUMENTATION;
}
}
