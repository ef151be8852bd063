// The library in a host whose floating-point environment is not the default one: each rounding mode, flush to zero, traps and flags. Every
// call answers the bytes of the default environment and hands the host's back as it was. Of solid.hpp it takes only what callers had
// from the first, so that it can be held against older headers.
#include <solid.hpp>

#include <cfenv>
#include <cmath>
#include <csetjmp>
#include <csignal>
#include <cstdio>
#include <cstring>
#include <functional>
#include <limits>
#include <string>

namespace {

using Bytes = std::vector<std::uint8_t>;

const double linear = std::ldexp(1.0, -20), local = std::ldexp(1.0, -18);

// An environment by the bits in which it differs from the default one.
struct Host {
    const char *name;
    std::uint64_t bits;
};

// The processor's control bits and flags: of x86-64 MXCSR, of Arm FPCR below and FPSR above.
#if defined(__x86_64__)
const Host hosts[] = {
    {"round to nearest", 0},         {"upward", 0x4000},
    {"downward", 0x2000},            {"toward zero", 0x6000},
    {"flush to zero", 0x8000},       {"subnormals are zero", 0x40},
    {"as -ffast-math begins", 0x8040}, {"upward and as -ffast-math", 0xc040},
    {"a flag raised", 1},            {"all flags raised", 0x3f},
    {"invalid traps", 0x80},         {"a subnormal operand traps", 0x100},
    {"division by zero traps", 0x200}, {"overflow traps", 0x400},
    {"underflow traps", 0x800},      {"inexact traps", 0x1000},
    {"all trap", 0x1f80},            {"all trap, all flags raised", 0x1fbf},
};

std::uint64_t held()
{
    std::uint32_t mxcsr;
    __asm__ volatile("stmxcsr %0" : "=m"(mxcsr) : : "memory");
    return mxcsr;
}

void hold(std::uint64_t bits)
{
    const auto mxcsr = static_cast<std::uint32_t>(bits);
    __asm__ volatile("ldmxcsr %0" : : "m"(mxcsr) : "memory");
}
#elif defined(__aarch64__)
const Host hosts[] = {
    {"round to nearest", 0},
    {"upward", 1 << 22},
    {"downward", 2 << 22},
    {"toward zero", 3 << 22},
    {"flush to zero", 1 << 24},
    {"flush to zero, upward", 5 << 22},
    {"NaNs are the default one", 1 << 25},
    {"a flag raised", std::uint64_t{1} << 32},
    {"all flags raised", std::uint64_t{0x0800009f} << 32},
    {"invalid traps", 1 << 8},
    {"a subnormal operand traps", 1 << 15},
    {"division by zero traps", 1 << 9},
    {"overflow traps", 1 << 10},
    {"underflow traps", 1 << 11},
    {"inexact traps", 1 << 12},
    {"all trap", 0x9f00},
};

std::uint64_t held()
{
    std::uint64_t fpcr, fpsr;
    __asm__ volatile("mrs %0, fpcr\n\tmrs %1, fpsr" : "=r"(fpcr), "=r"(fpsr) : : "memory");
    return fpsr << 32 | fpcr;
}

void hold(std::uint64_t bits)
{
    __asm__ volatile("msr fpcr, %0\n\tmsr fpsr, %1" : : "r"(bits & 0xffffffff), "r"(bits >> 32) : "memory");
}
#endif

solid::Cell box(solid::Point low, solid::Point high)
{
    solid::Cell out;
    for (unsigned i = 0; i < 8; i++)
        out.points.push_back({i & 1 ? high[0] : low[0], i & 2 ? high[1] : low[1], i & 4 ? high[2] : low[2]});
    out.faces = {{0, 4, 6, 2}, {0, 1, 5, 4}, {0, 2, 3, 1}, {1, 3, 7, 5}, {2, 6, 7, 3}, {4, 5, 7, 6}};
    return out;
}

solid::Cell cube(double a, double b) { return box({a, a, a}, {b, b, b}); }

Bytes job(const solid::Cell &first, const solid::Cell &second, std::uint8_t operation)
{
    return solid::Writer().tolerances(linear, local).solid(first).solid(second).operation(operation).bytes();
}

Bytes cell(const solid::Cell &given) { return solid::Writer().tolerances(linear, local).solid(given).bytes(); }

// A cube whose corners are moved by tiny numbers, subnormal ones among them.
solid::Cell moved(double a, double b, int by)
{
    solid::Cell out = cube(a, b);
    for (std::size_t i = 0; i < out.points.size(); i++)
        for (std::size_t k = 0; k < 3; k++)
            out.points[i][k] += std::ldexp(static_cast<double>((i * 3 + k) % 5) - 2, by);
    return out;
}

struct Answer {
    std::uint64_t told;
    Bytes bytes;
    bool operator==(const Answer &) const = default;
};

// A call with all that it is given.
struct Call {
    std::string name;
    std::function<std::uint64_t(std::span<std::uint8_t>)> make;
};

solid::Room room(2048);
Bytes memory(64 * 2048);

// What a call answers, to the last bit; the memory behind the answer is part of it.
Answer answer(const Call &call)
{
    std::memset(memory.data(), 0xa5, memory.size());
    const std::uint64_t told = call.make(memory);
    return {told, memory};
}

void fusing(std::vector<Call> &out, const std::string &name, const Bytes &given)
{
    out.push_back({"fuse, " + name, [given](auto to) { return solid::fuse(given, room, to); }});
    out.push_back({"cells, " + name, [given](auto to) { return solid::cells(given, room, to); }});
}

void moving(std::vector<Call> &out, const std::string &name, const Bytes &given)
{
    out.push_back({"offset, " + name, [given](auto to) { return solid::offset(given, -0.3, room, to); }});
    out.push_back({"hollow, " + name, [given](auto to) { return solid::hollow(given, 0.3, room, to); }});
}

solid::Facet comb()
{
    solid::Facet out{{{0, 0, 0}, {1, 0, 0}, {0, 1, 0}, {0, 0, 1}}, {{0, 0, 0}, {1.7, 0, 0}, {1.7, 0.3, 0}}};
    for (const double x : {1.3, 0.9, 0.5}) {
        out.corners.push_back({x, 0.4, 0});
        out.corners.push_back({x - 0.2, 1.1, 0});
    }
    return out;
}

std::vector<Call> calls()
{
    std::vector<Call> out;
    fusing(out, "P9", job(cube(0, 2), cube(1, 3), 3));
    fusing(out, "P10", job(cube(0, 3), cube(1, 2), 2));
    fusing(out, "thirds", job(cube(0, 2.0 / 3), box({0.1, 0.2, 0.3}, {1.1, 0.5, 0.7}), 3));
    for (const int by : {-1022, -1040, -1060, -1074, -530})
        fusing(out, "moved by 2^" + std::to_string(by), job(moved(0, 2, by), moved(1, 3, by), 3));
    solid::Cell no_number = cube(0, 2);
    no_number.points[5][1] = std::numeric_limits<double>::quiet_NaN();
    fusing(out, "a NaN", job(cube(0, 1), no_number, 3));
    no_number.points[5][1] = std::numeric_limits<double>::signaling_NaN();
    fusing(out, "a signalling NaN", job(no_number, cube(0, 1), 3));
    moving(out, "a cube", cell(cube(0, 2)));
    moving(out, "a cube moved by 2^-1060", cell(moved(0, 2, -1060)));
    moving(out, "a NaN", cell(no_number));
    const Bytes facet = solid::facet_bytes(linear, local, comb());
    out.push_back({"mesh", [facet](auto to) { return solid::mesh(facet, to); }});
    out.push_back({"no bytes", [](auto to) { return solid::mesh({}, to); }});
    return out;
}

sigjmp_buf back;

void leap(int) { siglongjmp(back, 1); }

// What a call does in an environment.
struct Seen {
    bool trapped, same_bytes, same_host, room_zero;
};

Seen seen(const Call &call, const Answer &wanted, std::uint64_t host)
{
    const std::uint64_t own = held();
    if (sigsetjmp(back, 1) != 0) {
        hold(own);
        room = solid::Room(2048);
        return {true, true, true, true};
    }
    hold(host);
    const std::uint64_t before = held();
    const Answer got = answer(call);
    const std::uint64_t after = held();
    hold(own);
    return {false, got == wanted, after == before, room.is_zero()};
}

// The calls of which something does not hold, counted, with the first of them.
class Fault {
public:
    explicit Fault(const char *what) : what_(what) {}

    void note(bool wrong, const Call &call)
    {
        if (wrong && count_++ == 0)
            first_ = call.name;
    }

    bool said(const char *host) const
    {
        if (count_ > 0)
            std::printf("host: %s: %s: %d calls, the first %s\n", host, what_, count_, first_.c_str());
        return count_ > 0;
    }

private:
    const char *what_;
    int count_ = 0;
    std::string first_;
};

// Whether something does not hold of the calls in an environment.
bool wrong_in(const char *name, std::uint64_t host, const std::vector<Call> &all, const std::vector<Answer> &wanted)
{
    Fault trapped("SIGFPE"), bytes("other bytes"), state("the environment is not handed back"), soiled("the room is not zero");
    for (std::size_t i = 0; i < all.size(); i++) {
        const Seen s = seen(all[i], wanted[i], host);
        trapped.note(s.trapped, all[i]);
        bytes.note(!s.same_bytes, all[i]);
        state.note(!s.same_host, all[i]);
        soiled.note(!s.room_zero, all[i]);
    }
    bool wrong = false;
    for (const Fault &f : {trapped, bytes, state, soiled})
        wrong |= f.said(name);
    return wrong;
}

} // namespace

int main()
{
    std::fesetenv(FE_DFL_ENV);
    std::signal(SIGFPE, leap);
    const std::vector<Call> all = calls();
    std::vector<Answer> wanted;
    for (const Call &call : all)
        wanted.push_back(answer(call));
    std::fesetenv(FE_DFL_ENV);
    const std::uint64_t plain = held();
    std::size_t tried = 0;
    std::string missing;
    bool wrong = false;
    for (const Host &h : hosts) {
        hold(plain ^ h.bits);
        const bool there = held() == (plain ^ h.bits);
        hold(plain);
        if (!there) {
            missing += std::string(missing.empty() ? "; not on this processor: " : ", ") + h.name;
            continue;
        }
        wrong |= wrong_in(h.name, plain ^ h.bits, all, wanted);
        tried += all.size();
    }
    if (!wrong)
        std::printf("host: %zu calls in other environments: ok%s\n", tried, missing.c_str());
    return wrong;
}
