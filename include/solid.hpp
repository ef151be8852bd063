// The convex planar solid kernel, for C++20. `solid.h` says what a call is given and what it answers.
#ifndef RUMOSAYWE_SOLID_HPP
#define RUMOSAYWE_SOLID_HPP

#include "solid.h"

#include <algorithm>
#include <array>
#include <bit>
#include <cstddef>
#include <cstdint>
#include <memory>
#include <new>
#include <span>
#include <stdexcept>
#include <string>
#include <type_traits>
#include <utility>
#include <vector>

namespace solid {

// The work memory of one call at a time, for so many corners: one block, of which each call takes its slices. Threads need
// a room each. Throws std::length_error or std::bad_alloc where so much memory cannot be had. A room that was moved from has
// no memory: every call in it is refused by 12.
class Room {
public:
    explicit Room(std::size_t corners) : corners_(corners), size_(bytes(corners)), memory_(new std::byte[size_]()) {}

    Room(Room &&other) noexcept
        : corners_(std::exchange(other.corners_, 0)), size_(std::exchange(other.size_, 0)), memory_(std::move(other.memory_))
    {
    }

    Room &operator=(Room &&other) noexcept
    {
        Room taken(std::move(other));
        std::swap(corners_, taken.corners_);
        std::swap(size_, taken.size_);
        std::swap(memory_, taken.memory_);
        return *this;
    }

    std::size_t corners() const noexcept { return corners_; }

    // Whether all work memory is zero, as it is before the first and after every call.
    bool is_zero() const noexcept
    {
        return std::all_of(memory_.get(), memory_.get() + size_, [](std::byte b) { return b == std::byte{0}; });
    }

    // The block, as the functions of solid.h that end in `_in` take it; null where it was moved from.
    void *memory() noexcept { return memory_.get(); }

private:
    static std::size_t bytes(std::size_t corners)
    {
        if (corners > SOLID_MOST_CORNERS)
            throw std::length_error("solid::Room: too many corners");
        const std::uint64_t words = solid_room_words(corners);
        if (words > SIZE_MAX / 8)
            throw std::length_error("solid::Room: too many corners");
        return static_cast<std::size_t>(8 * words);
    }

    std::size_t corners_;
    std::size_t size_;
    std::unique_ptr<std::byte[]> memory_;
};

// Each returns number + 256 * bytes: number is document 01's (0: an answer), bytes how many bytes of `answer` were written
// (0 for a refusal). They compute in the default floating-point environment and hand the host's back as it was. A refusal's
// bytes, which are none, read as an answer of no bodies: look at the number first, or use the calls of `GrowingRoom`, which
// give a `Result`.

// The operation of a job as fused bodies: cells that share a facet belong to one body, and no shared facet is listed.
inline std::uint64_t fuse(std::span<const std::uint8_t> job, Room &room, std::span<std::uint8_t> answer) noexcept
{
    return solid_fuse_in(room.memory(), job.data(), job.size(), room.corners(), answer.data(), answer.size());
}

// The operation of a job as convex cells with disjoint interiors.
inline std::uint64_t cells(std::span<const std::uint8_t> job, Room &room, std::span<std::uint8_t> answer) noexcept
{
    return solid_cells_in(room.memory(), job.data(), job.size(), room.corners(), answer.data(), answer.size());
}

// The cell with all its planes moved outward by a distance, which may be negative.
inline std::uint64_t offset(std::span<const std::uint8_t> cell, double distance, Room &room,
                            std::span<std::uint8_t> answer) noexcept
{
    return solid_offset_in(room.memory(), cell.data(), cell.size(), distance, room.corners(), answer.data(), answer.size());
}

// The cell with a cavity that leaves a wall of a thickness.
inline std::uint64_t hollow(std::span<const std::uint8_t> cell, double thickness, Room &room,
                            std::span<std::uint8_t> answer) noexcept
{
    return solid_hollow_in(room.memory(), cell.data(), cell.size(), thickness, room.corners(), answer.data(), answer.size());
}

// The triangles of a facet of at most 128 corners.
inline std::uint64_t mesh(std::span<const std::uint8_t> facet, std::span<std::uint8_t> answer) noexcept
{
    return solid_mesh_in(facet.data(), facet.size(), answer.data(), answer.size());
}

// The parts of what a call returns.
constexpr unsigned number(std::uint64_t told) noexcept { return static_cast<unsigned>(told % 256); }
constexpr std::size_t bytes(std::uint64_t told) noexcept { return static_cast<std::size_t>(told / 256); }

// What a number of document 01's says, in a few words for a log; no words for any other number.
inline const char *reason(unsigned number) noexcept { return solid_reason(number); }

using Point = std::array<double, 3>;

struct Plane {
    Point origin, x, y, z;
};

// Reads an answer's bytes one after another; throws std::out_of_range past their end, and where they are no answer's.
class Reader {
public:
    explicit Reader(std::span<const std::uint8_t> answer) noexcept : left_(answer) {}

    bool at_end() const noexcept { return left_.empty(); }
    std::uint8_t u8() { return static_cast<std::uint8_t>(whole(1)); }
    std::uint32_t u32() { return static_cast<std::uint32_t>(whole(4)); }
    double f64() { return std::bit_cast<double>(whole(8)); }

    // How many things follow that take so many bytes each or more: at least so many, and no more than the bytes left can hold.
    std::uint32_t count(std::uint32_t least, std::size_t each)
    {
        const std::uint32_t n = u32();
        holds(n >= least && n <= left_.size() / each, "solid::Reader: a count that the bytes do not cover");
        return n;
    }

    // A byte that must be this one.
    void byte(std::uint8_t wanted) { holds(u8() == wanted, "solid::Reader: a byte that is not the answer's"); }

    // The place of one of so many things.
    std::uint32_t place(std::uint32_t of)
    {
        const std::uint32_t i = u32();
        holds(i < of, "solid::Reader: a place where nothing stands");
        return i;
    }

    Point point()
    {
        Point q;
        for (double &x : q)
            x = f64();
        return q;
    }

    Plane plane()
    {
        Plane w;
        for (Point *part : {&w.origin, &w.x, &w.y, &w.z})
            *part = point();
        return w;
    }

private:
    static void holds(bool what, const char *otherwise)
    {
        if (!what)
            throw std::out_of_range(otherwise);
    }

    // A whole number of so many bytes, the lowest first.
    std::uint64_t whole(std::size_t n)
    {
        holds(left_.size() >= n, "solid::Reader: the answer ends too early");
        std::uint64_t value = 0;
        for (std::size_t i = 0; i < n; i++)
            value |= std::uint64_t{left_[i]} << (8 * i);
        left_ = left_.subspan(n);
        return value;
    }

    std::span<const std::uint8_t> left_;
};

// Walks an answer of `fuse` or `hollow`. The visitor has body(shells), shell(outward, facets), facet(plane, corners) and
// corner(point), called as they stand in the answer. Throws std::out_of_range where the bytes are no answer's; a count is told
// only where the bytes can hold so many.
template <class Visitor>
void walk_bodies(std::span<const std::uint8_t> answer, Visitor &&visitor)
{
    for (Reader r(answer); !r.at_end();) {
        const std::uint32_t shells = r.count(1, 1 + 4);
        visitor.body(shells);
        for (std::uint32_t i = 0; i < shells; i++) {
            const bool outward = i == 0;
            r.byte(outward ? 1 : 0);
            // no facets are let pass: bytes laid by hand may name none
            const std::uint32_t facets = r.count(0, 12 * 8 + 4 + 3 * 24);
            visitor.shell(outward, facets);
            for (std::uint32_t j = 0; j < facets; j++) {
                const Plane plane = r.plane();
                const std::uint32_t corners = r.count(3, 24);
                visitor.facet(plane, corners);
                for (std::uint32_t k = 0; k < corners; k++)
                    visitor.corner(r.point());
            }
        }
    }
}

// Walks an answer of `cells` or `offset` in the same way. The visitor has cell(points), point(point), faces(faces),
// face(corners) and corner(place).
template <class Visitor>
void walk_cells(std::span<const std::uint8_t> answer, Visitor &&visitor)
{
    for (Reader r(answer); !r.at_end();) {
        const std::uint32_t points = r.count(4, 24);
        visitor.cell(points);
        for (std::uint32_t i = 0; i < points; i++)
            visitor.point(r.point());
        const std::uint32_t faces = r.count(4, 4 + 3 * 4);
        visitor.faces(faces);
        for (std::uint32_t i = 0; i < faces; i++) {
            const std::uint32_t corners = r.count(3, 4);
            visitor.face(corners);
            for (std::uint32_t j = 0; j < corners; j++)
                visitor.corner(r.place(points));
        }
    }
}

struct Facet {
    Plane plane;
    std::vector<Point> corners;
};

struct Shell {
    bool outward;
    std::vector<Facet> facets;
};

struct Body {
    std::vector<Shell> shells;
};

// A convex cell: its points, and its faces by the places of their corners.
struct Cell {
    std::vector<Point> points;
    std::vector<std::vector<std::uint32_t>> faces;
};

using Triangle = std::array<std::uint32_t, 3>;

// An answer of `fuse` or `hollow` as plain vectors. Throws as the walk does.
inline std::vector<Body> bodies_of(std::span<const std::uint8_t> answer)
{
    struct Into {
        std::vector<Body> out;
        void body(std::uint32_t shells) { out.emplace_back().shells.reserve(shells); }
        void shell(bool outward, std::uint32_t facets)
        {
            out.back().shells.push_back({outward, {}});
            out.back().shells.back().facets.reserve(facets);
        }
        void facet(const Plane &plane, std::uint32_t corners)
        {
            auto &facets = out.back().shells.back().facets;
            facets.push_back({plane, {}});
            facets.back().corners.reserve(corners);
        }
        void corner(const Point &q) { out.back().shells.back().facets.back().corners.push_back(q); }
    } into;
    walk_bodies(answer, into);
    return std::move(into.out);
}

// An answer of `cells` or `offset` as plain vectors. Throws as the walk does.
inline std::vector<Cell> cells_of(std::span<const std::uint8_t> answer)
{
    struct Into {
        std::vector<Cell> out;
        void cell(std::uint32_t points) { out.emplace_back().points.reserve(points); }
        void point(const Point &q) { out.back().points.push_back(q); }
        void faces(std::uint32_t faces) { out.back().faces.reserve(faces); }
        void face(std::uint32_t corners) { out.back().faces.emplace_back().reserve(corners); }
        void corner(std::uint32_t place) { out.back().faces.back().push_back(place); }
    } into;
    walk_cells(answer, into);
    return std::move(into.out);
}

// An answer of `mesh`, of a facet of at most 128 corners, as plain vectors. Throws std::out_of_range where the bytes are none.
inline std::vector<Triangle> triangles_of(std::span<const std::uint8_t> answer)
{
    std::vector<Triangle> out;
    out.reserve(answer.size() / sizeof(Triangle));
    for (Reader r(answer); !r.at_end();) {
        Triangle t;
        for (std::uint32_t &place : t)
            place = r.place(128);
        if (t[0] == t[1] || t[1] == t[2] || t[2] == t[0])
            throw std::out_of_range("solid::triangles_of: a triangle with a corner twice");
        out.push_back(t);
    }
    return out;
}

// A refusal that was read as an answer.
class Refused : public std::runtime_error {
public:
    explicit Refused(unsigned number)
        : std::runtime_error("solid: refused by " + std::to_string(number) + ", " + reason(number)), number_(number)
    {
    }

    unsigned number() const noexcept { return number_; }

private:
    unsigned number_;
};

// What came of a call whose answer is a list of Part (Body, Cell or Triangle): that list, or a refusal's number. It has its
// bytes for itself. A refusal has none: who reads it as an answer gets the exception.
template <class Part>
class [[nodiscard]] Result {
public:
    // Of what a call returned, and its answer memory. Throws std::out_of_range where the memory is smaller than the answer.
    Result(std::uint64_t told, std::span<const std::uint8_t> answer) : number_(solid::number(told))
    {
        if (solid::bytes(told) > answer.size())
            throw std::out_of_range("solid::Result: not the answer's memory");
        const auto given = answer.first(solid::bytes(told));
        bytes_.assign(given.begin(), given.end());
    }

    bool answered() const noexcept { return number_ == 0; }
    explicit operator bool() const noexcept { return answered(); }

    // 0 for an answer, else why it was refused.
    unsigned number() const noexcept { return number_; }
    const char *reason() const noexcept { return solid::reason(number_); }

    // The answer's bytes. Throws Refused where there is none.
    std::vector<std::uint8_t> bytes() const
    {
        if (number_ != 0)
            throw Refused(number_);
        return bytes_;
    }

    // The answer. Throws Refused where there is none.
    std::vector<Part> value() const
    {
        if constexpr (std::is_same_v<Part, Body>)
            return bodies_of(bytes());
        else if constexpr (std::is_same_v<Part, Cell>)
            return cells_of(bytes());
        else
            return triangles_of(bytes());
    }

private:
    unsigned number_;
    std::vector<std::uint8_t> bytes_;
};

// A room with its answer memory, which grows, and the calls with a Result: one that gives 12 is made again in twice the
// corners, up to a most. A 12 that no lending mends is given when the most was lent. Throws as Room does; the room is then as
// large as it was.
class GrowingRoom {
public:
    GrowingRoom(std::size_t corners, std::size_t most)
        : most_(std::max(corners, most)), room_(corners), answer_(64 * corners)
    {
    }

    std::size_t corners() const noexcept { return room_.corners(); }
    std::size_t most() const noexcept { return most_; }

    Result<Body> fuse(std::span<const std::uint8_t> job)
    {
        return made<Body>([=](Room &in, std::span<std::uint8_t> to) { return solid::fuse(job, in, to); });
    }

    Result<Cell> cells(std::span<const std::uint8_t> job)
    {
        return made<Cell>([=](Room &in, std::span<std::uint8_t> to) { return solid::cells(job, in, to); });
    }

    Result<Cell> offset(std::span<const std::uint8_t> cell, double distance)
    {
        return made<Cell>([=](Room &in, std::span<std::uint8_t> to) { return solid::offset(cell, distance, in, to); });
    }

    Result<Body> hollow(std::span<const std::uint8_t> cell, double thickness)
    {
        return made<Body>([=](Room &in, std::span<std::uint8_t> to) { return solid::hollow(cell, thickness, in, to); });
    }

    // The mesh takes no room; 128 corners are its most.
    Result<Triangle> mesh(std::span<const std::uint8_t> facet) const
    {
        std::array<std::uint8_t, 64 * 128> answer;
        return {solid::mesh(facet, answer), answer};
    }

    // The result of any call that takes a room and answer memory.
    template <class Part, class Call>
    Result<Part> made(Call call)
    {
        std::uint64_t told = call(room_, std::span(answer_));
        while (number(told) == 12 && corners() < most_) {
            grow();
            told = call(room_, std::span(answer_));
        }
        return {told, answer_};
    }

private:
    void grow()
    {
        const std::size_t corners = std::min(most_, std::max<std::size_t>(1, 2 * room_.corners()));
        Room room(corners);
        std::vector<std::uint8_t> answer(64 * corners);
        room_ = std::move(room);
        answer_ = std::move(answer);
    }

    std::size_t most_;
    Room room_;
    std::vector<std::uint8_t> answer_;
};

// What stands here is called as solid::volume, and never taken for a caller's own function of that name.
namespace in_plain_doubles {

// Six times the signed volume of the tetrahedron from o to three corners.
inline double six_volumes(const Point &o, const Point &p, const Point &q, const Point &r) noexcept
{
    const Point a{p[0] - o[0], p[1] - o[1], p[2] - o[2]}, b{q[0] - o[0], q[1] - o[1], q[2] - o[2]},
        c{r[0] - o[0], r[1] - o[1], r[2] - o[2]};
    return a[0] * (b[1] * c[2] - b[2] * c[1]) + a[1] * (b[2] * c[0] - b[0] * c[2]) + a[2] * (b[0] * c[1] - b[1] * c[0]);
}

// In the floating-point environment that it meets.
[[gnu::noinline]] inline double volume_here(const Body &body) noexcept
{
    const Point *o = nullptr;
    double six = 0;
    for (const Shell &shell : body.shells)
        for (const Facet &f : shell.facets)
            for (std::size_t i = 1; i + 1 < f.corners.size(); i++) {
                if (o == nullptr)
                    o = &f.corners[0];
                six += six_volumes(*o, f.corners[0], f.corners[i], f.corners[i + 1]);
            }
    return six / 6;
}

// The volume of a body, seen from its first corner, in plain doubles: for a look or a balance. Each step is rounded and
// nothing bounds the error: it is no certificate.
[[gnu::noinline]] inline double volume(const Body &body) noexcept
{
    const solid_fp host = solid_fp_enter();
    const double v = volume_here(body);
    solid_fp_leave(host);
    return v;
}

} // namespace in_plain_doubles

using namespace in_plain_doubles;

enum class Operation : std::uint8_t { intersection = 1, difference = 2, union_ = 3 };

// Writes the bytes that a call is given, record after record.
class Writer {
public:
    Writer &tolerances(double linear, double local) { return record(1).f64(linear).f64(local); }
    Writer &point(const Point &q) { return record(2).place(q); }

    Writer &face(std::span<const std::uint32_t> places)
    {
        record(3);
        for (const std::uint32_t i : places) {
            if (i > 0xffff)
                throw std::out_of_range("solid::Writer: a place has 16 bits");
            record(4).whole(i, 2);
        }
        return *this;
    }

    Writer &end_solid() { return record(5); }

    // 1 intersection, 2 difference, 3 union.
    Writer &operation(std::uint8_t kind) { return record(6).whole(kind, 1); }
    Writer &operation(Operation kind) { return operation(static_cast<std::uint8_t>(kind)); }

    Writer &plane(const Plane &w)
    {
        record(9);
        for (const Point *part : {&w.origin, &w.x, &w.y, &w.z})
            place(*part);
        return *this;
    }

    // Points, faces and the end of a solid.
    Writer &solid(const Cell &cell)
    {
        for (const Point &q : cell.points)
            point(q);
        for (const auto &places : cell.faces)
            face(places);
        return end_solid();
    }

    // All that was written, for the caller to keep: it outlives a writer that was made for one expression.
    std::vector<std::uint8_t> bytes() const { return out_; }

private:
    Writer &record(std::uint8_t kind) { return whole(kind, 1); }
    Writer &f64(double x) { return whole(std::bit_cast<std::uint64_t>(x), 8); }

    Writer &place(const Point &q)
    {
        for (const double x : q)
            f64(x);
        return *this;
    }

    Writer &whole(std::uint64_t value, std::size_t n)
    {
        for (std::size_t i = 0; i < n; i++)
            out_.push_back(static_cast<std::uint8_t>(value >> (8 * i)));
        return *this;
    }

    std::vector<std::uint8_t> out_;
};

// The bytes of a facet for `mesh`, at the tolerances of the job that it comes from.
inline std::vector<std::uint8_t> facet_bytes(double linear, double local, const Facet &facet)
{
    Writer out;
    out.tolerances(linear, local).plane(facet.plane);
    for (const Point &q : facet.corners)
        out.point(q);
    return out.bytes();
}

} // namespace solid

#endif
