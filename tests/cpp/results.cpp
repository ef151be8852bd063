// What solid.hpp has beside its first calls: results that cannot be misread, rooms that are moved and that grow, names, volumes.
#include <solid.hpp>

#include <cfenv>
#include <cmath>
#include <cstdio>
#include <string>

namespace {

using Bytes = std::vector<std::uint8_t>;
using Given = std::span<const std::uint8_t>;
using Memory = std::span<std::uint8_t>;

int failed = 0;

void expect(const char *what, bool holds)
{
    if (!holds) {
        std::printf("results: %s\n", what);
        failed = 1;
    }
}

// The number of the refusal that reading a result throws; 0 where it throws none.
template <class Read>
unsigned refusal(Read read)
{
    try {
        read();
    } catch (const solid::Refused &refused) {
        return refused.number();
    }
    return 0;
}

const double linear = std::ldexp(1.0, -20), local = std::ldexp(1.0, -18);

solid::Cell box(solid::Point low, solid::Point high)
{
    solid::Cell out;
    for (unsigned i = 0; i < 8; i++)
        out.points.push_back({i & 1 ? high[0] : low[0], i & 2 ? high[1] : low[1], i & 4 ? high[2] : low[2]});
    out.faces = {{0, 4, 6, 2}, {0, 1, 5, 4}, {0, 2, 3, 1}, {1, 3, 7, 5}, {2, 6, 7, 3}, {4, 5, 7, 6}};
    return out;
}

solid::Cell cube(double a, double b) { return box({a, a, a}, {b, b, b}); }

Bytes job(const solid::Cell &first, const solid::Cell &second, solid::Operation operation)
{
    return solid::Writer().tolerances(linear, local).solid(first).solid(second).operation(operation).bytes();
}

const Bytes p9 = job(cube(0, 2), cube(1, 3), solid::Operation::union_);
const Bytes p10 = job(cube(0, 3), cube(1, 2), solid::Operation::difference);
const Bytes nothing = job(cube(0, 1), box({1, 0, 0}, {2, 1, 1}), solid::Operation::intersection);
const Bytes one = solid::Writer().tolerances(linear, local).solid(cube(0, 2)).bytes();

// A refusal is neither bytes nor a list, and a list of one kind is not read as one of another.
static_assert(!std::is_convertible_v<solid::Result<solid::Body>, Given>);
static_assert(!std::is_invocable_v<decltype(solid::bodies_of), solid::Result<solid::Body>>);
static_assert(!std::is_convertible_v<solid::Result<solid::Body>, bool>);
static_assert(!std::is_convertible_v<solid::Result<solid::Cell>, solid::Result<solid::Body>>);
static_assert(!std::is_convertible_v<std::uint64_t, solid::Result<solid::Body>>);

// What cannot throw says so.
static_assert(noexcept(solid::fuse(Given(), std::declval<solid::Room &>(), Memory())));
static_assert(noexcept(solid::cells(Given(), std::declval<solid::Room &>(), Memory())));
static_assert(noexcept(solid::offset(Given(), 0, std::declval<solid::Room &>(), Memory())));
static_assert(noexcept(solid::hollow(Given(), 0, std::declval<solid::Room &>(), Memory())));
static_assert(noexcept(solid::mesh(Given(), Memory())));
static_assert(noexcept(solid::number(0)) && noexcept(solid::bytes(0)) && noexcept(solid::reason(0)));
static_assert(std::is_nothrow_move_constructible_v<solid::Room> && std::is_nothrow_move_assignable_v<solid::Room>);

// The bytes of a writer that is gone stay.
static_assert(!std::is_reference_v<decltype(std::declval<solid::Writer &>().bytes())>);

void a_refusal()
{
    solid::GrowingRoom room(720, 720);
    const solid::Result<solid::Body> r = room.fuse(Bytes{7});
    expect("a refusal is one", !r.answered() && !r && r.number() == 1 && r.reason() == std::string(solid::reason(1)));
    expect("a refusal has no bytes", refusal([&] { return r.bytes(); }) == 1);
    expect("a refusal has no bodies", refusal([&] { return r.value(); }) == 1);
    try {
        r.value();
    } catch (const std::exception &said) {
        expect("the exception says why", said.what() == std::string("solid: refused by 1, ") + solid::reason(1));
    }
    const solid::Result<solid::Body> none = room.fuse(nothing);
    expect("no bodies are an answer", none.answered() && none.number() == 0 && none.bytes().empty() && none.value().empty());
}

// A result has the bytes of the call that returns a number.
template <class Part, class Call>
void same(const char *what, const solid::Result<Part> &got, Call call)
{
    solid::Room room(2048);
    Bytes memory(64 * 2048);
    const std::uint64_t told = call(room, Memory(memory));
    memory.resize(solid::bytes(told));
    expect(what, got.number() == solid::number(told) && got.answered() && got.bytes() == memory && !got.value().empty());
}

void answers()
{
    solid::GrowingRoom room(24, 2048);
    same("fuse", room.fuse(p10), [](solid::Room &r, Memory m) { return solid::fuse(p10, r, m); });
    same("cells", room.cells(p9), [](solid::Room &r, Memory m) { return solid::cells(p9, r, m); });
    same("offset", room.offset(one, -0.5), [](solid::Room &r, Memory m) { return solid::offset(one, -0.5, r, m); });
    same("hollow", room.hollow(one, 0.5), [](solid::Room &r, Memory m) { return solid::hollow(one, 0.5, r, m); });
    const Bytes facet = solid::facet_bytes(linear, local, room.hollow(one, 0.5).value()[0].shells[0].facets[0]);
    same("mesh", room.mesh(facet), [&](solid::Room &, Memory m) { return solid::mesh(facet, m); });
    expect("a mesh of no bytes", room.mesh({}).number() == 1);
    const Bytes memory(3);
    try {
        (void)solid::Result<solid::Body>(256 * 4, memory);
        expect("an answer larger than its memory throws", false);
    } catch (const std::out_of_range &) {
    }
}

// Every call in a room without memory is refused by 12.
void without_memory(solid::Room &room)
{
    Bytes memory(64 * 720);
    expect("a room without memory", room.corners() == 0 && room.is_zero() && room.memory() == nullptr);
    expect("12 of a job", solid::fuse(p10, room, memory) == 12 && solid::cells(p10, room, memory) == 12);
    expect("12 of a cell", solid::offset(one, 1, room, memory) == 12 && solid::hollow(one, 0.5, room, memory) == 12);
    expect("12 of no bytes", solid::fuse({}, room, {}) == 12);
}

void moved()
{
    Bytes memory(64 * 720);
    solid::Room first(720);
    solid::Room second(std::move(first));
    without_memory(first);
    expect("a room moved to", second.corners() == 720 && solid::number(solid::fuse(p10, second, memory)) == 0);
    solid::Room third(1);
    third = std::move(second);
    without_memory(second);
    expect("a room assigned to", third.corners() == 720 && solid::number(solid::fuse(p10, third, memory)) == 0);
    solid::Room &itself = third;
    third = std::move(itself);
    expect("a room moved to itself", third.corners() == 720 && solid::number(solid::fuse(p10, third, memory)) == 0);
    expect("a block for more corners than any has", solid_fuse_in(third.memory(), p10.data(), p10.size(), SOLID_MOST_CORNERS + 1,
                                                                  memory.data(), memory.size()) == 12);
    expect("its room is untouched", third.is_zero());
}

void growing()
{
    solid::GrowingRoom room(24, 4096);
    expect("a room grows until it suffices", room.fuse(p10).answered() && room.corners() == 768 && room.most() == 4096);
    expect("and stays", room.fuse(p9).answered() && room.corners() == 768);
    solid::GrowingRoom small(24, 623);
    expect("no farther than the most", small.fuse(p10).number() == 12 && small.corners() == 623);
    solid::GrowingRoom none(0, 24);
    expect("from nothing", none.offset(one, 1).answered() && none.corners() == 24);
    solid::GrowingRoom fixed(720, 1);
    expect("not at all", fixed.fuse(p10).answered() && fixed.corners() == 720 && fixed.most() == 720);
    int calls = 0;
    solid::GrowingRoom always(1, 1000);
    const auto told = always.made<solid::Body>([&](solid::Room &, Memory) { return calls++, std::uint64_t{12}; });
    expect("a 12 that no lending mends", told.number() == 12 && always.corners() == 1000 && calls == 11);
    expect("other refusals do not grow it", none.fuse(Bytes{7}).number() == 1 && none.corners() == 24);
}

// A caller's own function of this name is the one that is called.
double volume(const solid::Body &) { return -1; }

void volumes()
{
    solid::GrowingRoom room(720, 4096);
    const solid::Body outer = room.fuse(p9).value()[0], cavity = room.fuse(p10).value()[0];
    expect("P9 has volume 15, P10 26", solid::volume(outer) == 15 && solid::volume(cavity) == 26);
    expect("the caller's own volume", volume(outer) == -1);
    expect("nothing has none", solid::volume({}) == 0);
    const double low = 1 << 19;
    const Bytes far = job(box({low, low, low}, {low + 1, low + 2, low + 3}), cube(0, 1), solid::Operation::difference);
    expect("far from the origin", solid::volume(room.fuse(far).value()[0]) == 6);
    const Bytes thirds = job(cube(0, 2.0 / 3), box({0.1, 0.2, 0.3}, {1.1, 0.5, 0.7}), solid::Operation::union_);
    const solid::Body body = room.fuse(thirds).value()[0];
    const double plain = solid::volume(body);
    std::feclearexcept(FE_ALL_EXCEPT);
    for (const int mode : {FE_UPWARD, FE_DOWNWARD, FE_TOWARDZERO, FE_TONEAREST}) {
        std::fesetround(mode);
        const double v = solid::volume(body);
        expect("the host's rounding and flags stay", std::fegetround() == mode && std::fetestexcept(FE_ALL_EXCEPT) == 0);
        std::fesetround(FE_TONEAREST);
        expect("a volume in any rounding mode", std::bit_cast<std::uint64_t>(v) == std::bit_cast<std::uint64_t>(plain));
    }
}

void names()
{
    expect("operations by name", job(cube(0, 1), cube(0, 1), solid::Operation::intersection).back() == 1 && p10.back() == 2 && p9.back() == 3);
    const Bytes &kept = solid::Writer().tolerances(linear, local).bytes();
    expect("bytes of a writer that is gone", kept.size() == 17 && kept[0] == 1);
    expect("header and archive are of one version", solid_version() == SOLID_VERSION && solid_version_1() == SOLID_VERSION);
}

} // namespace

int main()
{
    a_refusal();
    answers();
    moved();
    growing();
    volumes();
    names();
    if (!failed)
        std::puts("results: ok");
    return failed;
}
