/* Ongdhuse: which reference point each scanned point belongs to.
 *
 * Every function is total: any numbers (NaN and infinities too) and any lengths may be passed. A list is a pointer and
 * the number of its elements; the pointer must be valid for that many (of an empty list it may be any pointer that is not
 * NULL and is aligned). No other pointer may be NULL. What is written, a list or a number, must not overlap anything else
 * of the same call.
 * The program is proved for every such call: it ends, reads and writes nothing else, and answers as documented.
 *
 * A function that can refuse returns 0, or the number of the refusal, and then has changed nothing:
 *   1  a cloud's length is no multiple of 3; a tree's coordinates are not 3 times its indices; the match list is not one
 *      entry per source point
 *   2  a cloud, tree or match list has over 1,048,576 points or entries
 *   3  a lent output is too short
 *   4  matching with an empty source or target
 *   5  a seed or match entry that is not ONGDHUSE_NONE, or an index held in the tree, is not below the target count
 * They are tested in the order 1, 2, 4, 3, 5. On success a function writes what is named and nothing beyond it. Each NaN
 * counts as the same number: which of its bits are set is left open.
 *
 * A cloud is a flat list of numbers, three to a point. A tree is two lists: coordinates, three to a slot, and indices.
 */
#ifndef ONGDHUSE_H
#define ONGDHUSE_H

#include <stddef.h>
#include <stdint.h>

#ifdef __cplusplus
extern "C" {
#endif

/* A match entry of this value means no match, and as a seed no seed. */
#define ONGDHUSE_NONE UINT32_C(4294967295)
/* The most points of a cloud, slots of a tree or entries of a match list. */
#define ONGDHUSE_MOST_POINTS 1048576

/* Builds the tree of a cloud of n points. Needs room for 3n coordinates and n indices. Writes m slots, m being the number
 * of points with three finite coordinates, and m itself to *slots. Refuses with 1, 2, 3. */
uint32_t ongdhuse_build(const float *cloud, size_t cloud_len, float *coords, size_t coords_len, uint32_t *indices,
                        size_t indices_len, uint32_t *slots);

/* Whether the slots are the tree of the cloud, float bits compared: *yes becomes 1 or 0. Refuses with 1, 2. */
uint32_t ongdhuse_is_tree_of(const float *cloud, size_t cloud_len, const float *coords, size_t coords_len,
                             const uint32_t *indices, size_t indices_len, uint32_t *yes);

/* The nearest point strictly below the squared bound, starting from a seed if seeded is not 0. *found becomes 1 and
 * *index and *distance_sq are written, or *found becomes 0 and they keep their values. Refuses with 1, 2. */
uint32_t ongdhuse_find_nearest_bounded(const float *coords, size_t coords_len, const uint32_t *indices,
                                       size_t indices_len, float x, float y, float z, float bound_sq, uint32_t seeded,
                                       uint32_t seed_index, float seed_distance_sq, uint32_t *found, uint32_t *index,
                                       float *distance_sq);

/* The same without bound or seed. Refuses with 1, 2. */
uint32_t ongdhuse_find_nearest(const float *coords, size_t coords_len, const uint32_t *indices, size_t indices_len,
                               float x, float y, float z, uint32_t *found, uint32_t *index, float *distance_sq);

/* The k nearest points, nearest first, with squared distances. Needs room for min(k, slots) entries in each list; *count
 * becomes how many were written. Refuses with 1, 2, 3. */
uint32_t ongdhuse_find_k_nearest_into(const float *coords, size_t coords_len, const uint32_t *indices,
                                      size_t indices_len, float x, float y, float z, uint32_t k, uint32_t *out_indices,
                                      size_t out_indices_len, float *out_distances, size_t out_distances_len,
                                      uint32_t *count);

/* The same with distances, the roots of the squares. Refuses with 1, 2, 3. */
uint32_t ongdhuse_find_k_nearest(const float *coords, size_t coords_len, const uint32_t *indices, size_t indices_len,
                                 float x, float y, float z, uint32_t k, uint32_t *out_indices, size_t out_indices_len,
                                 float *out_distances, size_t out_distances_len, uint32_t *count);

/* Every point within a radius, nearest first, with distances. Needs room for as many entries as the tree has slots in each
 * list; *count becomes how many were written. Refuses with 1, 2, 3. */
uint32_t ongdhuse_find_radius_neighbors(const float *coords, size_t coords_len, const uint32_t *indices,
                                        size_t indices_len, float x, float y, float z, float radius,
                                        uint32_t *out_indices, size_t out_indices_len, float *out_distances,
                                        size_t out_distances_len, uint32_t *count);

/* The squared bound of a limit on the distance, or of no limit if limited is 0. */
float ongdhuse_max_distance_sq(uint32_t limited, float limit);

/* Matches every source point. The match list lends the seeds and holds the matches afterwards. Refuses with 1, 2, 4, 5. */
uint32_t ongdhuse_find_correspondences_seeded(const float *source, size_t source_len, const float *target,
                                              size_t target_len, const float *coords, size_t coords_len,
                                              const uint32_t *indices, size_t indices_len, uint32_t limited, float limit,
                                              uint32_t *matches, size_t matches_len);

/* Source and target index of each matched entry, in source order; *count becomes their number. Refuses with 2, 3. */
uint32_t ongdhuse_correspondence_pairs(const uint32_t *matches, size_t matches_len, uint32_t *sources,
                                       size_t sources_len, uint32_t *targets, size_t targets_len, uint32_t *count);

/* Where the three numbers of a point of a cloud begin, or cloud_len if there is no such point (or 1 or 2 applies). */
size_t ongdhuse_target_point(const float *cloud, size_t cloud_len, uint32_t index);

/* Sums over the matched pairs p, q in f64: sums[0..3] of p, [3..6] of q, [6..15] of p_i * q_j by rows, [15] of the squared
 * errors; *count becomes the number of pairs. Needs 16 numbers (else 3). Refuses with 1, 2, 3, 5. */
uint32_t ongdhuse_collect(const float *source, size_t source_len, const float *target, size_t target_len,
                          const uint32_t *matches, size_t matches_len, double *sums, size_t sums_len, uint32_t *count);

/* The sums of no pairs, in the same places. Needs 16 numbers (else 3). */
uint32_t ongdhuse_zero_sums(double *sums, size_t sums_len, uint32_t *count);

/* The mean squared error of count pairs: 0 for none. */
float ongdhuse_mse(uint32_t count, double sum_sq_error);

/* Centroid (3 numbers) and radius of a cloud's finite points. Needs 4 numbers (else 3). Refuses with 1, 2, 3. */
uint32_t ongdhuse_cloud_scale(const float *cloud, size_t cloud_len, float *scale, size_t scale_len);

/* The mean of a cloud's finite points. Needs 3 numbers (else 3). Refuses with 1, 2, 3. */
uint32_t ongdhuse_centred_on(const float *cloud, size_t cloud_len, double *origin, size_t origin_len);

/* Whether the cloud lies far from the origin: *is_far becomes 1 and the origin of its frame is written, or *is_far becomes 0 and
 * origin keeps its values. Needs 3 numbers (else 3). Refuses with 1, 2, 3. */
uint32_t ongdhuse_if_far_from_origin(const float *cloud, size_t cloud_len, double *origin, size_t origin_len,
                                     uint32_t *is_far);

/* A point in the frame with this origin. Needs 3 numbers (else 3). */
uint32_t ongdhuse_point_to_local(double origin_x, double origin_y, double origin_z, float x, float y, float z,
                                 float *local, size_t local_len);

/* 1 for a number that is neither a NaN nor an infinity, else 0. */
uint32_t ongdhuse_is_finite(float x);

/* The least number above x. A NaN and infinity stay. */
float ongdhuse_next_up(float x);

/* To double, and back, rounded once to nearest even. */
double ongdhuse_widen(float x);
float ongdhuse_narrow(double x);

/* A number by whose order points are ordered on an axis: by value, -0 before +0. */
uint32_t ongdhuse_key(float x);

/* Correctly rounded square roots. -0 gives -0; below zero or a NaN gives a NaN. */
float ongdhuse_sqrt_f32(float x);
double ongdhuse_sqrt_f64(double x);

#ifdef __cplusplus
}
#endif

#endif
