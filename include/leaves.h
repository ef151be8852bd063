/* The number functions of the kernel as `libleaves.a` exports them, for tests. A slice is a pointer and a length.
 * A sign is 0 zero, 1 positive, 2 negative; any other code is the number of a refusal. */
#ifndef RUMOSAYWE_LEAVES_H
#define RUMOSAYWE_LEAVES_H

#include <stddef.h>
#include <stdint.h>

#ifdef __cplusplus
extern "C" {
#endif

double leaf_next_up(double x);
double leaf_next_down(double x);
double leaf_square_root(double x);
uint64_t leaf_orient2d(double ax, double ay, double bx, double by, double cx, double cy);

/* 0 and the plane (origin, x, y, z: 12 numbers) in out, or 5 and zeros. */
uint64_t leaf_plane(const double *origin, size_t origin_n, const double *normal, size_t normal_n, const double *hint,
                    size_t hint_n, double linear, double *out, size_t out_n);

/* The side of the point q of the plane, at the tolerance local: a sign, or 7. */
uint64_t leaf_side(const double *plane, size_t plane_n, const double *q, size_t q_n, double local);

#ifdef __cplusplus
}
#endif
#endif
