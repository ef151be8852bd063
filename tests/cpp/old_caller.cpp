// The library from C++: document 01's pairs through solid.hpp, rooms and slices of every kind, and threads.
#include "../../include/solid.hpp"

#include <atomic>
#include <cmath>
#include <cstdio>
#include <limits>
#include <set>
#include <string>
#include <thread>
#include <utility>

using Bytes = std::vector<std::uint8_t>;

static std::atomic<int> failed = 0;

static void expect(const char *what, bool holds)
{
    if (!holds) {
        std::printf("solid from C++: %s\n", what);
        failed = 1;
    }
}

static const double linear = std::ldexp(1.0, -20), local = std::ldexp(1.0, -18);

// Faces low x, low y, low z, high x, high y, high z.
static solid::Cell box(solid::Point low, solid::Point high)
{
    solid::Cell out;
    for (unsigned i = 0; i < 8; i++)
        out.points.push_back({i & 1 ? high[0] : low[0], i & 2 ? high[1] : low[1], i & 4 ? high[2] : low[2]});
    out.faces = {{0, 4, 6, 2}, {0, 1, 5, 4}, {0, 2, 3, 1}, {1, 3, 7, 5}, {2, 6, 7, 3}, {4, 5, 7, 6}};
    return out;
}

static solid::Cell cube(double a, double b) { return box({a, a, a}, {b, b, b}); }

static Bytes job(const solid::Cell &first, const solid::Cell &second, std::uint8_t operation)
{
    return solid::Writer().tolerances(linear, local).solid(first).solid(second).operation(operation).bytes();
}

static Bytes cell(const solid::Cell &given) { return solid::Writer().tolerances(linear, local).solid(given).bytes(); }

static const std::uint8_t untouched = 0xa5;

// A call of any kind with what it tells; all but the answer must be as it was, and the room zero.
template <class Call>
static std::uint64_t told(solid::Room &room, Bytes &answer, Call call)
{
    std::fill(answer.begin(), answer.end(), untouched);
    expect("the room is zero before a call", room.is_zero());
    const std::uint64_t told = call();
    expect("the room is zero after a call", room.is_zero());
    const std::size_t bytes = solid::bytes(told);
    expect("a refusal has no bytes", solid::number(told) == 0 || bytes == 0);
    expect("an answer fits", bytes <= answer.size());
    expect("the rest is untouched",
           std::all_of(answer.begin() + static_cast<std::ptrdiff_t>(bytes), answer.end(), [](auto b) { return b == untouched; }));
    return told;
}

static Bytes head(const Bytes &answer, std::uint64_t told)
{
    return Bytes(answer.begin(), answer.begin() + static_cast<std::ptrdiff_t>(solid::bytes(told)));
}

// Six times the volume between the origin and a triangle.
static double six_volumes(const solid::Point &a, const solid::Point &b, const solid::Point &c)
{
    return a[0] * (b[1] * c[2] - b[2] * c[1]) + a[1] * (b[2] * c[0] - b[0] * c[2]) + a[2] * (b[0] * c[1] - b[1] * c[0]);
}

static double volume(const solid::Cell &c)
{
    double sum = 0;
    for (const auto &f : c.faces)
        for (std::size_t i = 1; i + 1 < f.size(); i++)
            sum += six_volumes(c.points[f[0]], c.points[f[i]], c.points[f[i + 1]]);
    return sum / 6;
}

static std::vector<double> volumes(const Bytes &given)
{
    solid::Room room(720);
    Bytes answer(64 * 720);
    const auto r = told(room, answer, [&] { return solid::cells(given, room, answer); });
    expect("cells are answered", solid::number(r) == 0);
    std::vector<double> out;
    for (const auto &c : solid::cells_of(head(answer, r)))
        out.push_back(volume(c));
    return out;
}

static void the_cells()
{
    expect("P7: one cell of volume 1", volumes(job(cube(0, 2), cube(1, 3), 1)) == std::vector<double>{1});
    expect("P8: volumes 4, 2, 1", volumes(job(cube(0, 2), cube(1, 3), 2)) == std::vector<double>{4, 2, 1});
    expect("a union has the second solid last", volumes(job(cube(0, 2), cube(1, 3), 3)) == std::vector<double>{4, 2, 1, 8});
    const Bytes beside = job(cube(0, 1), box({1, 0, 0}, {2, 1, 1}), 1);
    expect("P12: no cells", volumes(beside).empty());
}

// The facets of each shell, body by body; an inward shell's count is negative.
static std::vector<std::vector<long>> facets(const std::vector<solid::Body> &bodies)
{
    std::vector<std::vector<long>> out;
    for (const auto &body : bodies) {
        out.emplace_back();
        for (const auto &shell : body.shells) {
            const long n = static_cast<long>(shell.facets.size());
            out.back().push_back(shell.outward ? n : -n);
        }
    }
    return out;
}

static std::vector<solid::Body> fused(const Bytes &given)
{
    solid::Room room(720);
    Bytes answer(64 * 720);
    const auto r = told(room, answer, [&] { return solid::fuse(given, room, answer); });
    expect("a fused answer", solid::number(r) == 0);
    return solid::bodies_of(head(answer, r));
}

// Every directed edge of a shell's facets once, and its reverse once.
static bool closed(const solid::Shell &shell)
{
    std::set<std::pair<solid::Point, solid::Point>> edges;
    std::size_t all = 0;
    for (const auto &f : shell.facets)
        for (std::size_t i = 0; i < f.corners.size(); i++, all++)
            edges.emplace(f.corners[i], f.corners[(i + 1) % f.corners.size()]);
    auto reversed = [&](const auto &e) { return edges.contains({e.second, e.first}); };
    return edges.size() == all && std::all_of(edges.begin(), edges.end(), reversed);
}

// The triangles of all facets, and their volume about the origin.
static std::pair<std::size_t, double> meshed(const std::vector<solid::Body> &bodies)
{
    std::size_t triangles = 0;
    double sum = 0;
    for (const auto &body : bodies)
        for (const auto &shell : body.shells)
            for (const auto &f : shell.facets) {
                Bytes answer(64 * f.corners.size());
                const auto r = solid::mesh(solid::facet_bytes(linear, local, f), answer);
                expect("a facet is meshed", solid::number(r) == 0);
                for (const auto &[a, b, c] : solid::triangles_of(head(answer, r))) {
                    triangles++;
                    sum += six_volumes(f.corners[a], f.corners[b], f.corners[c]);
                }
            }
    return {triangles, sum / 6};
}

static void the_fused()
{
    using Counts = std::vector<std::vector<long>>;
    const auto p9 = fused(job(cube(0, 2), cube(1, 3), 3));
    expect("P9: one shell of 42 facets", facets(p9) == Counts{{42}});
    expect("P9: the shell is closed", p9.size() == 1 && closed(p9[0].shells[0]));
    expect("P9: 84 triangles of volume 15", meshed(p9) == std::pair<std::size_t, double>(84, 15));
    const auto p10 = fused(job(cube(0, 3), cube(1, 2), 2));
    expect("P10: shells of 54 and 6", facets(p10) == Counts{{54, -6}});
    expect("P10: both shells are closed", p10.size() == 1 && closed(p10[0].shells[0]) && closed(p10[0].shells[1]));
    expect("P10: volume 26", meshed(p10).second == 26);
    expect("P11: two bodies of 6", facets(fused(job(cube(0, 1), box({1, 1, 0}, {2, 2, 1}), 3))) == Counts{{6}, {6}});
    const auto beside = box({1, 0, 0}, {2, 1, 1});
    expect("P12: 10 facets", facets(fused(job(cube(0, 1), beside, 3))) == Counts{{10}});
    expect("P12: no bodies", fused(job(cube(0, 1), beside, 1)).empty());
}

// Each refusal leaves the answer as it was, and the next call is answered.
static void refused()
{
    solid::Room room(720);
    Bytes answer(64 * 720);
    auto tells = [&](const Bytes &given) { return told(room, answer, [&] { return solid::fuse(given, room, answer); }); };
    const Bytes good = job(cube(0, 2), cube(1, 3), 3);
    Bytes cut = good, unknown = good, long_one = good;
    cut.pop_back();
    unknown.back() = 4;
    long_one.resize(32769);
    expect("a job cut short, of no operation, too long", tells(cut) == 1 && tells(unknown) == 1 && tells(long_one) == 1);
    const auto first = cube(0, 2);
    expect("bad tolerances", tells(solid::Writer().tolerances(local, linear).solid(first).solid(first).operation(1).bytes()) == 2);
    auto other = first;
    other.faces.clear();
    expect("no faces", tells(job(first, other, 3)) == 3 && tells(job(other, first, 3)) == 3);
    other = first;
    std::reverse(other.faces[0].begin(), other.faces[0].end());
    expect("a face turned round", tells(job(first, other, 3)) == 4);
    expect("a box too small for its frames", tells(job(first, cube(0, std::ldexp(1.0, -10)), 3)) == 5);
    expect("a side exactly local away", tells(job(cube(0, 1), box({1 + local, 0, 0}, {2, 1, 1}), 3)) == 7);
    expect("an answer after refusals", solid::number(tells(good)) == 0);
}

// A room that just suffices, a corner less, and none.
static void the_fused_rooms()
{
    auto number = [](const Bytes &given, std::size_t corners, std::size_t size) {
        solid::Room room(corners);
        Bytes answer(size);
        return solid::number(told(room, answer, [&] { return solid::fuse(given, room, answer); }));
    };
    const Bytes p10 = job(cube(0, 3), cube(1, 2), 2);
    expect("P10 in a room of 624", number(p10, 624, 64 * 624) == 0);
    expect("P10 in a room of 623", number(p10, 623, 64 * 623) == 12);
    expect("P10 and a byte of answer less", number(p10, 624, 64 * 624 - 1) == 12);
    expect("P10 in a room of 0", number(p10, 0, 0) == 12);
    solid::Room none(0);
    expect("fuse of null spans", solid::fuse({}, none, {}) == 1 && none.is_zero());
    const Bytes same = job(cube(0, 1), cube(0, 1), 1);
    expect("fuse without answer memory", solid::fuse(same, none, {}) == 12 && none.is_zero());
}

static void the_rooms()
{
    const Bytes given = cell(cube(0, 2));
    auto number = [&](std::size_t corners, std::size_t size) {
        solid::Room room(corners);
        Bytes answer(size);
        return solid::number(told(room, answer, [&] { return solid::offset(given, 0.5, room, answer); }));
    };
    expect("a room of 24", number(24, 64 * 24) == 0);
    expect("a room of 23", number(23, 64 * 23) == 12);
    expect("a byte of answer less", number(24, 64 * 24 - 1) == 12);
    expect("a room of 0", number(0, 0) == 12);
    solid::Room none(0);
    expect("a new room is zero", none.is_zero() && none.corners() == 0);
    expect("null spans", solid::offset({}, 0.5, none, {}) == 1);
    Bytes bad = given;
    bad.pop_back();
    expect("a byte of the cell less", solid::offset(bad, 0.5, none, {}) == 1);
    try {
        const solid::Room beyond(std::numeric_limits<std::size_t>::max());
        expect("a room beyond all memory throws", false);
    } catch (const std::length_error &) {
    }
}

// Bytes given and answer at every place of a word.
template <class Call>
static void unaligned(const Bytes &given, Call call)
{
    solid::Room room(720);
    Bytes wanted(64 * 720);
    const auto first = call(std::span(given), room, std::span(wanted));
    expect("an answer at its place", solid::number(first) == 0);
    const auto size = static_cast<std::ptrdiff_t>(solid::bytes(first));
    for (std::size_t by = 0; by < 8; by++) {
        Bytes from(by), answer(64 * 720 + by);
        from.insert(from.end(), given.begin(), given.end());
        const auto at = std::span(answer).subspan(by);
        expect("unaligned slices", call(std::span(std::as_const(from)).subspan(by), room, at) == first);
        expect("unaligned bytes", std::equal(at.begin(), at.begin() + size, wanted.begin()));
    }
}

// Eight threads with rooms of their own.
template <class Call>
static void the_threads(const Bytes &given, Call call)
{
    std::vector<Bytes> answers(8, Bytes(64 * 720));
    std::vector<std::thread> threads;
    for (Bytes &answer : answers)
        threads.emplace_back([&] {
            solid::Room room(720);
            for (int i = 0; i < 50; i++)
                expect("a thread's answer", solid::number(call(std::span(given), room, std::span(answer))) == 0);
        });
    for (auto &t : threads)
        t.join();
    for (const Bytes &answer : answers)
        expect("threads answer the same", answer == answers[0]);
}

static void places_and_threads()
{
    using Given = std::span<const std::uint8_t>;
    using Memory = std::span<std::uint8_t>;
    auto fuse = [](Given given, solid::Room &room, Memory answer) { return solid::fuse(given, room, answer); };
    auto offset = [](Given given, solid::Room &room, Memory answer) { return solid::offset(given, 0.5, room, answer); };
    auto hollow = [](Given given, solid::Room &room, Memory answer) { return solid::hollow(given, 0.5, room, answer); };
    const Bytes p10 = job(cube(0, 3), cube(1, 2), 2);
    const Bytes one = cell(cube(0, 2));
    unaligned(p10, fuse);
    unaligned(one, offset);
    the_threads(p10, fuse);
    the_threads(one, hollow);
}

static void the_offset()
{
    solid::Room room(720);
    Bytes answer(64 * 720);
    const Bytes given = cell(cube(0, 2));
    auto by = [&](double distance) { return told(room, answer, [&] { return solid::offset(given, distance, room, answer); }); };
    const auto inner = by(-0.5);
    expect("P13: an answer", solid::number(inner) == 0);
    const auto cells = solid::cells_of(head(answer, inner));
    expect("P13: one cell", cells.size() == 1 && cells[0].points.size() == 8 && cells[0].faces.size() == 6);
    expect("P13: box 1/2..3/2", !cells.empty() && volume(cells[0]) == 1 && cells[0].points[0] == solid::Point{0.5, 0.5, 0.5});
    expect("P13: -1", by(-1) == 4);
    expect("P13: -2", by(-2) == 27);
    expect("no number", by(NAN) == 2);
}

static void the_hollow()
{
    solid::Room room(720);
    Bytes answer(64 * 720);
    const Bytes given = cell(cube(0, 2));
    auto wall = [&](double w) { return told(room, answer, [&] { return solid::hollow(given, w, room, answer); }); };
    const auto r = wall(0.5);
    expect("a hollow", solid::number(r) == 0);
    const auto bodies = solid::bodies_of(head(answer, r));
    expect("a hollow: one body, two shells", bodies.size() == 1 && bodies[0].shells.size() == 2);
    expect("a hollow: outward, inward", bodies.size() == 1 && bodies[0].shells[0].outward && !bodies[0].shells[1].outward);
    expect("a wall of linear", wall(linear) == 28);
    expect("a wall that touches", wall(2 * linear) == 29);
}

static void the_mesh()
{
    const solid::Facet square{{{0, 0, 0}, {1, 0, 0}, {0, 1, 0}, {0, 0, 1}}, {{0, 0, 0}, {1, 0, 0}, {1, 1, 0}, {0, 1, 0}}};
    Bytes answer(256);
    const auto r = solid::mesh(solid::facet_bytes(linear, local, square), answer);
    const auto triangles = solid::triangles_of(std::span(answer).first(solid::bytes(r)));
    expect("P14", solid::number(r) == 0 && triangles == std::vector<solid::Triangle>{{3, 0, 1}, {1, 2, 3}});
    expect("a small answer", solid::mesh(solid::facet_bytes(linear, local, square), std::span(answer).first(255)) == 12);
    expect("no facet", solid::mesh({}, {}) == 1);
}

static void the_reader()
{
    const Bytes cut{1, 0, 0, 0, 7};
    try {
        solid::bodies_of(cut);
        expect("an answer cut short throws", false);
    } catch (const std::out_of_range &) {
    }
    expect("no bytes, no bodies", solid::bodies_of({}).empty() && solid::cells_of({}).empty());
    Bytes two;
    for (int body = 0; body < 2; body++)
        two.insert(two.end(), {1, 0, 0, 0, 1, 0, 0, 0, 0});
    const auto bodies = solid::bodies_of(two);
    expect("two bodies of one shell", bodies.size() == 2 && bodies[1].shells.size() == 1 && bodies[1].shells[0].outward);
}

// Each of document 01's numbers has words of its own, and no other number has any.
static void the_reasons()
{
    std::set<std::string> words;
    for (unsigned number = 0; number <= 34; number++)
        words.insert(solid::reason(number));
    expect("a reason for each number", words.size() == 35 && !words.contains(""));
    expect("no reason for other numbers", solid::reason(35) == std::string() && solid::reason(255) == std::string());
    expect("the reason of 12", solid::reason(12) == std::string("the room lent is too small"));
}

int main()
{
    the_cells();
    the_fused();
    refused();
    the_fused_rooms();
    the_rooms();
    places_and_threads();
    the_offset();
    the_hollow();
    the_mesh();
    the_reader();
    the_reasons();
    if (!failed)
        std::puts("solid from C++: ok");
    return failed;
}
