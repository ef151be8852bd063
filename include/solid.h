/* The convex planar solid kernel, for C. `solid.hpp` is the same for C++.
 *
 * Every call takes bytes, a work room and answer memory, and returns
 *
 *     number + 256 * bytes
 *
 * number: 0 for an answer, else why it was refused (docs/01-scope.md, "Refusal numbers"). bytes: how many bytes of the
 * answer memory were written, from its start; 0 for a refusal. What lies behind them is left as it was, and all of it after
 * a refusal. There is no static state: calls with different rooms may run at the same time. No call takes more than 320 KB
 * of stack.
 *
 * The calls to make are those that end in `_in`, at the end of this file. They compute in the default floating-point
 * environment (round to nearest, no traps, no flush to zero) whatever the host's is, and hand the host's back as it was,
 * flags included.
 *
 * The work room is counted in corners and lent as slices of numbers (below). What stands in them before a call does not
 * matter; after every call they are zero. The answer memory needs 64 bytes for each corner of the work room: 12 where it
 * has less, or where a work slice is too short; fuse and cells give 12 above 2^32 corners too. A null pointer goes with
 * length 0.
 *
 * What is given, records of one byte of kind and a fixed body, little-endian, 32,768 bytes at most (1 otherwise):
 *   cell   1 tolerances (linear, local: 2 f64); a solid: 2 point (3 f64) for each point, then for each face 3 and, for each
 *          of its corners, 4 (u16, the point's place, counted from 0), and 5 at its end
 *   job    1, two solids as above, 6 operation (u8: 1 intersection, 2 difference, 3 union)
 *   facet  1, 9 plane (12 f64: origin, x, y, z), 2 for each corner
 *
 * What is answered, little-endian, without a leading count: it ends where the bytes end.
 *   fuse, hollow   for each body u32 shells; for each shell u8 (1 outward, 0 inward), u32 facets; for each facet 12 f64 plane
 *                  (origin, x, y, z), u32 corners, 3 f64 a corner. Corners run counter-clockwise, seen from outside the
 *                  material; the outward shell comes first. A hollow is one body; a fused answer may have no bodies
 *   cells, offset  for each cell u32 points, 3 f64 a point, u32 faces; for each face u32 corners, u32 a corner (its point)
 *   mesh           for each triangle three u32, the places of its corners
 */
#ifndef RUMOSAYWE_SOLID_H
#define RUMOSAYWE_SOLID_H

#include <stddef.h>
#include <stdint.h>
#if !defined(__GNUC__) || !(defined(__x86_64__) || defined(__aarch64__))
#include <fenv.h>
#endif

#ifdef __cplusplus
extern "C" {
#endif

/* The version of this header: 10,000 times the major number, 100 times the minor one, and the patch (docs/CHANGES.md). */
#define SOLID_VERSION 200

/* The version of the archive. The last number of its name is that of the layout: what header and archive must agree on,
 * parameters, work slices, the bytes given and answered. Every call that ends in `_in` asks for it, so that a program does not
 * link where the archive has another layout than its header. */
uint64_t solid_version_1(void);

/* How the functions of this header are made: in C++ once in a program, in C once in each file. The calls are never inlined,
 * so that no arithmetic of the caller's slips in where the floating-point environment is not the caller's. bindings/solid.c
 * makes symbols of them, for other languages. */
#ifdef __cplusplus
#define SOLID_PART inline
#else
#define SOLID_PART static inline
#endif
#ifndef SOLID_CALL
#if !defined(__GNUC__)
#define SOLID_CALL SOLID_PART
#elif defined(__cplusplus)
#define SOLID_CALL inline __attribute__((noinline))
#else
#define SOLID_CALL static __attribute__((noinline, unused))
#endif
#endif

/* The version of the archive, which a caller can compare with SOLID_VERSION. */
SOLID_CALL uint64_t solid_version(void)
{
    return solid_version_1();
}

/* The work slices of each call in their order. F(name, each, more) is a slice of double, U(name, each, more) one of
 * uint64_t; for a room of n corners it has each * n + more numbers, or more. */
#define SOLID_FUSE_WORK(F, U)                                                                                               \
    F(rest, 3, 1984) F(spare, 11, 1664) F(dst, 11, 1664) U(held, 1, 128) U(slots, 1, 128) U(counts, 1, 128) U(sizes, 1, 1)    \
    U(seats, 1, 1) U(lengths, 1, 0) U(owners, 1, 0) U(cells, 1, 0) U(cuts, 1, 1) U(runs, 3, 0) U(keys, 2, 0) U(begins, 1, 1)  \
    U(ord, 1, 0) U(ends, 1, 0) U(marks, 1, 1) U(out, 1, 0) U(many, 1, 0) U(shells, 1, 0)
#define SOLID_CELLS_WORK(F, U)                                                                                              \
    F(rest, 3, 1984) F(spare, 3, 1664) F(dst, 11, 1664) U(held, 1, 128) U(slots, 1, 128) U(counts, 1, 128) U(sizes, 1, 1)     \
    U(order, 2, 1024) U(chain, 2, 2048) U(head, 1, 0) U(seen, 1, 0) U(work, 1, 0) U(nodes, 1, 0) U(cuts, 1, 1)
#define SOLID_OFFSET_WORK(F, U) F(s, 0, 3968) U(counts, 0, 128) F(dst, 0, 1984) U(sizes, 0, 64)
#define SOLID_HOLLOW_WORK(F, U) F(s, 0, 3968) U(counts, 0, 128) F(dst, 0, 1984) U(sizes, 0, 64)

#define SOLID_F64_SLICE(name, each, more) double *name, size_t name##_n,
#define SOLID_U64_SLICE(name, each, more) uint64_t *name, size_t name##_n,

/* The functions that the archive exports, as they are proved. They compute in the floating-point environment that they meet,
 * and need the default one: rounding to nearest, no traps, no flush to zero, no subnormals taken for zero (on x86-64 the
 * control bits of MXCSR as in 0x1f80, on Arm FPCR 0). In another one they may answer other bytes with number 0, or end in a
 * signal. They may raise exception flags. solid_fp_enter and solid_fp_leave, below, put the host's environment aside for such
 * a call. */

/* The operation of a job as fused bodies: cells that share a facet belong to one body, and no shared facet is listed. */
uint64_t solid_fuse(const uint8_t *job, size_t job_n, uint64_t corners,
                    SOLID_FUSE_WORK(SOLID_F64_SLICE, SOLID_U64_SLICE) uint8_t *answer, size_t answer_n);

/* The operation of a job as convex cells with disjoint interiors. */
uint64_t solid_cells(const uint8_t *job, size_t job_n, uint64_t corners,
                     SOLID_CELLS_WORK(SOLID_F64_SLICE, SOLID_U64_SLICE) uint8_t *answer, size_t answer_n);

/* The cell with all its planes moved outward by a distance, which may be negative. */
uint64_t solid_offset(const uint8_t *cell, size_t cell_n, double distance, uint64_t corners,
                      SOLID_OFFSET_WORK(SOLID_F64_SLICE, SOLID_U64_SLICE) uint8_t *answer, size_t answer_n);

/* The cell with a cavity that leaves a wall of a thickness: one body, the outer shell and then the inner one. */
uint64_t solid_hollow(const uint8_t *cell, size_t cell_n, double thickness, uint64_t corners,
                      SOLID_HOLLOW_WORK(SOLID_F64_SLICE, SOLID_U64_SLICE) uint8_t *answer, size_t answer_n);

/* The triangles of a facet of at most 128 corners. It takes no room; the answer memory needs 64 bytes a corner. */
uint64_t solid_mesh(const uint8_t *facet, size_t facet_n, uint8_t *answer, size_t answer_n);

/* What a number of document 01's says, in a few words for a log; no words for any other number. */
SOLID_CALL const char *solid_reason(uint64_t number)
{
    static const char *const words[] = {
        "an answer",
        "the bytes are no job, cell or facet, or too many",
        "a number is not finite or out of range",
        "too few or too many points, faces or corners",
        "the solid fails its check",
        "a frame cannot be made",
        "two points are neither certainly near nor certainly apart",
        "a point is neither certainly beside a plane nor certainly on it",
        "the denominator of a cut may be zero",
        "a cut point is not certainly on its plane",
        "a cap has no hull of three corners or more",
        "more than 512 cells",
        "the room lent is too small",
        "a vertex is near two points",
        "more than 4,096 points",
        "an edge of the arrangement has collapsed",
        "a vertex is neither certainly on an edge nor certainly off it",
        "the order of the vertices on an edge is not certain",
        "a shared facet is not of two cells, back to front",
        "a facet has three users or more",
        "a boundary edge is not of two facets, run once each way",
        "the sign of a shell's volume is not certain",
        "a body has a second outward shell",
        "a body has no outward shell",
        "offset: not three faces at a vertex",
        "offset: the planes at a vertex may have no common point",
        "offset: a moved vertex is not certainly on its planes",
        "offset: a moved plane is crossed",
        "the wall is not certainly thicker than linear",
        "the inner solid is not certainly inside",
        "mesh: edges cross or overlap",
        "mesh: no ear is left",
        "mesh: the last triangle does not turn the right way",
        "a turn at a corner of a face is not certain",
        "mesh: the plane's handedness or a reciprocal is not certain",
    };
    return number < sizeof words / sizeof words[0] ? words[number] : "";
}

/* The floating-point environment of a host: its control bits and flags, put aside while a call runs in the default one. On
 * x86-64 the kernel computes in SSE registers alone, so the x87 unit is not touched. */
#if defined(__GNUC__) && defined(__x86_64__)
typedef struct {
    uint32_t mxcsr;
} solid_fp;

SOLID_PART solid_fp solid_fp_enter(void)
{
    solid_fp host;
    const uint32_t plain = 0x1f80;
    __asm__ volatile("stmxcsr %0\n\tldmxcsr %1" : "=m"(host.mxcsr) : "m"(plain) : "memory");
    return host;
}

SOLID_PART void solid_fp_leave(solid_fp host)
{
    __asm__ volatile("ldmxcsr %0" : : "m"(host.mxcsr) : "memory");
}
#elif defined(__GNUC__) && defined(__aarch64__)
typedef struct {
    uint64_t fpcr, fpsr;
} solid_fp;

SOLID_PART solid_fp solid_fp_enter(void)
{
    solid_fp host;
    __asm__ volatile("mrs %0, fpcr\n\tmrs %1, fpsr\n\tmsr fpcr, xzr\n\tmsr fpsr, xzr"
                     : "=&r"(host.fpcr), "=&r"(host.fpsr)
                     :
                     : "memory");
    return host;
}

SOLID_PART void solid_fp_leave(solid_fp host)
{
    __asm__ volatile("msr fpcr, %0\n\tmsr fpsr, %1" : : "r"(host.fpcr), "r"(host.fpsr) : "memory");
}
#else
/* Elsewhere the C library does it, which may need -lm. */
typedef fenv_t solid_fp;

SOLID_PART solid_fp solid_fp_enter(void)
{
    solid_fp host;
    fegetenv(&host);
    fesetenv(FE_DFL_ENV);
    return host;
}

SOLID_PART void solid_fp_leave(solid_fp host)
{
    fesetenv(&host);
}
#endif

/* One block of memory for all work slices, 8 bytes a word and aligned to 8: any call takes its slices out of it. */

/* The most corners of such a block: no product below overflows, and in a larger room no job is answered. */
#define SOLID_MOST_CORNERS (UINT64_C(1) << 32)

#define SOLID_WORDS(name, each, more) +UINT64_C(each) * corners + UINT64_C(more)

/* The words that every call of a room of so many corners finds enough; corners is at most SOLID_MOST_CORNERS. */
SOLID_CALL uint64_t solid_room_words(uint64_t corners)
{
    const uint64_t words[] = {
        0 SOLID_FUSE_WORK(SOLID_WORDS, SOLID_WORDS),
        0 SOLID_CELLS_WORK(SOLID_WORDS, SOLID_WORDS),
        0 SOLID_OFFSET_WORK(SOLID_WORDS, SOLID_WORDS),
        0 SOLID_HOLLOW_WORK(SOLID_WORDS, SOLID_WORDS),
    };
    uint64_t most = 0;
    for (size_t i = 0; i < sizeof words / sizeof words[0]; i++)
        if (most < words[i])
            most = words[i];
    return most;
}

#ifdef __cplusplus
#define SOLID_CAST(type, value) reinterpret_cast<type>(value)
#else
#define SOLID_CAST(type, value) ((type)(value))
#endif
#define SOLID_U64_CARVE(name, each, more)                                                                                   \
    uint64_t *const name = at;                                                                                              \
    const size_t name##_n = UINT64_C(each) * corners + UINT64_C(more);                                                      \
    at += name##_n;
#define SOLID_F64_CARVE(name, each, more)                                                                                   \
    double *const name = SOLID_CAST(double *, at);                                                                          \
    const size_t name##_n = UINT64_C(each) * corners + UINT64_C(more);                                                      \
    at += name##_n;
#define SOLID_LEND(name, each, more) name, name##_n,

/* Whether slices can be taken out of a block. The version is asked for, for the sake of linking. */
SOLID_PART int solid_lends(const void *room, uint64_t corners)
{
    return solid_version() != 0 && room && corners <= SOLID_MOST_CORNERS;
}

/* What each call below does. */
#define SOLID_IN(WORK, CALL)                                                                                                \
    if (!solid_lends(room, corners))                                                                                        \
        return 12;                                                                                                          \
    uint64_t *at = SOLID_CAST(uint64_t *, room);                                                                            \
    WORK(SOLID_F64_CARVE, SOLID_U64_CARVE)                                                                                  \
    const solid_fp host = solid_fp_enter();                                                                                 \
    const uint64_t told = CALL;                                                                                             \
    solid_fp_leave(host);                                                                                                   \
    return told;

/* The calls: with their work slices out of a block of solid_room_words(corners) words, and in the default floating-point
 * environment; the host's is handed back as it was. 12 where there is no block, and above SOLID_MOST_CORNERS. */

SOLID_CALL uint64_t solid_fuse_in(void *room, const uint8_t *job, size_t job_n, uint64_t corners, uint8_t *answer,
                                  size_t answer_n)
{
    SOLID_IN(SOLID_FUSE_WORK,
             solid_fuse(job, job_n, corners, SOLID_FUSE_WORK(SOLID_LEND, SOLID_LEND) answer, answer_n))
}

SOLID_CALL uint64_t solid_cells_in(void *room, const uint8_t *job, size_t job_n, uint64_t corners, uint8_t *answer,
                                   size_t answer_n)
{
    SOLID_IN(SOLID_CELLS_WORK,
             solid_cells(job, job_n, corners, SOLID_CELLS_WORK(SOLID_LEND, SOLID_LEND) answer, answer_n))
}

SOLID_CALL uint64_t solid_offset_in(void *room, const uint8_t *cell, size_t cell_n, double distance, uint64_t corners,
                                    uint8_t *answer, size_t answer_n)
{
    SOLID_IN(SOLID_OFFSET_WORK,
             solid_offset(cell, cell_n, distance, corners, SOLID_OFFSET_WORK(SOLID_LEND, SOLID_LEND) answer, answer_n))
}

SOLID_CALL uint64_t solid_hollow_in(void *room, const uint8_t *cell, size_t cell_n, double thickness, uint64_t corners,
                                    uint8_t *answer, size_t answer_n)
{
    SOLID_IN(SOLID_HOLLOW_WORK,
             solid_hollow(cell, cell_n, thickness, corners, SOLID_HOLLOW_WORK(SOLID_LEND, SOLID_LEND) answer, answer_n))
}

/* It takes no block. */
SOLID_CALL uint64_t solid_mesh_in(const uint8_t *facet, size_t facet_n, uint8_t *answer, size_t answer_n)
{
    (void)solid_version();
    const solid_fp host = solid_fp_enter();
    const uint64_t told = solid_mesh(facet, facet_n, answer, answer_n);
    solid_fp_leave(host);
    return told;
}

#undef SOLID_F64_SLICE
#undef SOLID_U64_SLICE
#undef SOLID_WORDS
#undef SOLID_CAST
#undef SOLID_F64_CARVE
#undef SOLID_U64_CARVE
#undef SOLID_LEND
#undef SOLID_IN
#undef SOLID_PART
#undef SOLID_CALL

#ifdef __cplusplus
}
#endif
#endif
