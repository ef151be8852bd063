// What it costs a call to put the host's floating-point environment aside and hand it back: nanoseconds, the least of 61 runs, in a host
// that rounds upward and has raised a flag, so that both ways something changes. More than a microsecond fails.
#include <solid.hpp>

#include <cfenv>
#include <chrono>
#include <cstdio>

namespace {

// The nanoseconds of one turn.
template <class Turn>
double least(Turn turn)
{
    using Clock = std::chrono::steady_clock;
    const int turns = 20000;
    double out = 1e9;
    for (int run = 0; run < 61; run++) {
        std::fesetround(FE_UPWARD);
        std::feraiseexcept(FE_DIVBYZERO);
        const auto start = Clock::now();
        for (int i = 0; i < turns; i++)
            turn();
        const auto end = Clock::now();
        std::fesetround(FE_TONEAREST);
        out = std::min(out, std::chrono::duration<double, std::nano>(end - start).count() / turns);
    }
    return out;
}

} // namespace

int main()
{
    std::uint64_t told = 0;
    const double alone = least([] { solid_fp_leave(solid_fp_enter()); });
    const double bare = least([&] { told += solid_mesh(nullptr, 0, nullptr, 0); });
    const double guarded = least([&] { told += solid_mesh_in(nullptr, 0, nullptr, 0); });
    std::printf("cost: the environment aside and back %.1f ns; a call refused at once %.1f ns bare, %.1f ns by solid_mesh_in\n", alone, bare,
                guarded);
    const bool ok = told == 2 * 61 * 20000 && alone < 1000 && guarded - bare < 1000;
    if (!ok)
        std::puts("cost: more than a microsecond, or not refused by 1");
    return ok ? 0 : 1;
}
