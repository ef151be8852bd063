// The archive from C++: P1 to P3 of document 01, and slices that are too short or null.
#include "../../include/leaves.h"

#include <cmath>
#include <cstdio>

static int failed = 0;

static void expect(const char *what, unsigned long long got, unsigned long long wanted)
{
    if (got != wanted) {
        std::printf("%s: %llu instead of %llu\n", what, got, wanted);
        failed = 1;
    }
}

int main()
{
    const double linear = std::ldexp(1.0, -20), local = std::ldexp(1.0, -18);
    const double origin[3] = {0, 0, 0}, normal[3] = {1, 0, 0}, hint[3] = {0, 1, 0};
    double plane[12];
    expect("plane", leaf_plane(origin, 3, normal, 3, hint, 3, linear, plane, 12), 0);
    auto side = [&](double d) {
        const double q[3] = {d, 0, 0};
        return leaf_side(plane, 12, q, 3, local);
    };
    expect("P1, distance 0", side(0), 0);
    expect("P1, half of local", side(local / 2), 0);
    expect("P2, exactly local", side(local), 7);
    expect("P3, twice local", side(2 * local), 1);
    expect("inside", side(-2 * local), 2);
    expect("no normal", leaf_plane(origin, 3, origin, 3, hint, 3, linear, plane, 12), 5);
    expect("null slices", leaf_side(nullptr, 0, nullptr, 0, local), 0);
    expect("root", leaf_square_root(2.25) == 1.5, 1);
    expect("left turn", leaf_orient2d(0, 0, 1, 1, 1, leaf_next_up(1)), 1);
    if (!failed)
        std::puts("leaves from C++: ok");
    return failed;
}
