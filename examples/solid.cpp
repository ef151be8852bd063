// solid CALL FILE: the library's calls on files, for the command line. `help` below says how it is used.
#include "growing.hpp"
#include "surface.hpp"

#include <cerrno>
#include <cstdio>
#include <cstdlib>
#include <cstring>
#include <fstream>
#include <limits>
#include <optional>
#include <stdexcept>

namespace {

using Bytes = std::vector<std::uint8_t>;
using Span = std::span<const std::uint8_t>;

const char *const help =
    R"(usage: solid fuse JOB | cells JOB | offset CELL DISTANCE | hollow CELL THICKNESS | mesh FACET | check FILE
             [--room N] [--obj FILE] [--vtk FILE] [--volumes]

  fuse     the operation of a job as fused bodies
  cells    the same as convex cells with disjoint interiors
  offset   a cell with all its planes moved outward by a distance, which may be negative
  hollow   a cell with a cavity that leaves a wall of a thickness
  mesh     the triangles of a facet
  check    the solid check alone, of a cell or of both solids of a job

Files are bytes as docs/FORMATS.md has them; '-' is standard input.

  --room N     the room that is lent, in corners; without it one of 720 that grows to 262,144 where a call gives 12
  --obj FILE   writes the polygons of the answer as OBJ
  --vtk FILE   writes them as legacy VTK, with body, shell and outward, or cell, as numbers of each polygon
  --volumes    prints volumes, in plain doubles that nothing certifies, and the balance of a job

A refusal prints its number alone, and on standard error what the number says. tools/explain FILE says where.
Status: 0 answered, 1 refused, 2 trouble: a file that cannot be read or written, or wrong words.
)";

// What ends the program with status 2.
struct Trouble : std::runtime_error {
    using std::runtime_error::runtime_error;
};

struct Words {
    std::string call, file, obj, vtk;
    double by = 0;
    std::optional<std::size_t> room;
    bool volumes = false;
};

bool one_of(const std::string &word, std::initializer_list<const char *> list)
{
    return std::find(list.begin(), list.end(), word) != list.end();
}

std::size_t corners_of(const std::string &text)
{
    std::uint64_t n = 0;
    const char *const end = text.data() + text.size();
    const auto read = std::from_chars(text.data(), end, n);
    if (read.ec != std::errc{} || read.ptr != end || n > SOLID_MOST_CORNERS)
        throw Trouble("--room takes a whole number of corners up to 2^32, not '" + text + "'");
    return n;
}

double distance_of(const std::string &text)
{
    char *end = nullptr;
    const double x = std::strtod(text.c_str(), &end);
    if (text.empty() || *end != '\0')
        throw Trouble("'" + text + "' is no number");
    return x;
}

// The options of a call, taken out of the words; what is left are the call's own.
std::vector<std::string> without_options(const std::vector<std::string> &all, Words &w)
{
    std::vector<std::string> left;
    for (std::size_t i = 0; i < all.size(); i++) {
        if (all[i] == "--volumes") {
            w.volumes = true;
        } else if (one_of(all[i], {"--room", "--obj", "--vtk"})) {
            if (i + 1 == all.size())
                throw Trouble(all[i] + " needs a word after it");
            const std::string &value = all[i + 1];
            if (all[i] == "--room")
                w.room = corners_of(value);
            else
                (all[i] == "--obj" ? w.obj : w.vtk) = value;
            i++;
        } else if (all[i].starts_with("--")) {
            throw Trouble("unknown word " + all[i] + "; solid --help lists them");
        } else {
            left.push_back(all[i]);
        }
    }
    return left;
}

Words words_of(const std::vector<std::string> &all)
{
    Words w;
    const std::vector<std::string> left = without_options(all, w);
    if (left.empty())
        throw Trouble("no call; solid --help lists them");
    w.call = left[0];
    const bool moves = one_of(w.call, {"offset", "hollow"});
    if (!moves && !one_of(w.call, {"fuse", "cells", "mesh", "check"}))
        throw Trouble("unknown call " + w.call + "; solid --help lists them");
    if (left.size() != (moves ? 3u : 2u))
        throw Trouble(w.call + (moves ? " takes a file and a number" : " takes a file"));
    w.file = left[1];
    if (moves)
        w.by = distance_of(left[2]);
    if (w.room && one_of(w.call, {"mesh", "check"}))
        throw Trouble(w.call + " takes no room");
    if (w.volumes && w.call == "mesh")
        throw Trouble("a facet has no volume");
    return w;
}

// Up to a byte more than a job can have.
Bytes read_file(const std::string &path)
{
    std::FILE *const in = path == "-" ? stdin : std::fopen(path.c_str(), "rb");
    if (in == nullptr)
        throw Trouble("cannot read " + path + ": " + std::strerror(errno));
    Bytes out(32769);
    out.resize(std::fread(out.data(), 1, out.size(), in));
    const int failed = std::ferror(in) != 0 ? errno : 0;
    if (in != stdin)
        std::fclose(in);
    if (failed != 0)
        throw Trouble("cannot read " + path + ": " + std::strerror(failed));
    return out;
}

void write_file(const std::string &path, const surface::Surface &s, void (*write)(std::ostream &, const surface::Surface &))
{
    if (path.empty())
        return;
    std::ofstream out(path, std::ios::binary);
    write(out, s);
    out.close();
    if (!out)
        throw Trouble("cannot write " + path);
}

void write_files(const Words &w, const surface::Surface &s)
{
    write_file(w.obj, s, surface::write_obj);
    write_file(w.vtk, s, surface::write_vtk);
}

// The bytes of each solid of a cell or of a job, without their order looked at; none where the bytes are neither.
std::vector<Span> solids_in(Span given)
{
    constexpr std::size_t tolerances = 17, sizes[] = {0, 0, 25, 1, 3, 1}; // the record of each kind
    std::vector<Span> out;
    std::size_t from = tolerances, at = tolerances;
    while (at < given.size() && given[at] >= 2 && given[at] <= 5) {
        const std::uint8_t kind = given[at];
        at += sizes[kind];
        if (at > given.size())
            return {};
        if (kind == 5) {
            out.push_back(given.subspan(from, at - from));
            from = at;
        }
    }
    const Span rest = given.subspan(std::min(from, given.size()));
    const bool is_cell = out.size() == 1 && rest.empty();
    const bool is_job = out.size() == 2 && rest.size() == 2 && rest[0] == 6 && rest[1] >= 1 && rest[1] <= 3;
    return given.size() <= 32768 && (is_cell || is_job) ? out : std::vector<Span>{};
}

// A solid whose bytes a call has found in order.
solid::Cell read_solid(Span solid)
{
    solid::Cell out;
    for (solid::Reader r(solid); !r.at_end();) {
        const std::uint8_t kind = r.u8();
        if (kind == 2)
            out.points.push_back(r.point());
        else if (kind == 3)
            out.faces.emplace_back();
        else if (kind == 4) {
            const std::uint32_t low = r.u8();
            out.faces.back().push_back(low + 256u * r.u8());
        }
    }
    return out;
}

std::vector<solid::Cell> solids_of(Span given)
{
    std::vector<solid::Cell> out;
    for (const Span solid : solids_in(given))
        out.push_back(read_solid(solid));
    return out;
}

void print(const std::vector<solid::Body> &bodies)
{
    for (std::size_t i = 0; i < bodies.size(); i++) {
        const auto &shells = bodies[i].shells;
        std::printf("body %zu shells %zu\n", i + 1, shells.size());
        for (std::size_t j = 0; j < shells.size(); j++)
            std::printf("shell %zu %s facets %zu\n", j + 1, shells[j].outward ? "outward" : "inward", shells[j].facets.size());
    }
}

void print(const std::vector<solid::Cell> &cells)
{
    for (std::size_t i = 0; i < cells.size(); i++)
        std::printf("cell %zu points %zu faces %zu\n", i + 1, cells[i].points.size(), cells[i].faces.size());
}

template <class Part>
double volume_of(const std::vector<Part> &parts)
{
    double sum = 0;
    for (const auto &part : parts)
        sum += surface::volume(part);
    return sum;
}

void print_volume(const std::string &what, double x) { std::printf("%s %s\n", what.c_str(), surface::decimal(x).c_str()); }

// The volume of each part and of all.
template <class Part>
void print_volumes(const std::vector<Part> &parts)
{
    const std::string name = surface::of(parts).part;
    for (std::size_t i = 0; i < parts.size(); i++)
        print_volume(name + " " + std::to_string(i + 1) + " volume", surface::volume(parts[i]));
    print_volume("volume", volume_of(parts));
}

int refused(unsigned number)
{
    std::printf("answer %u\n", number);
    std::fprintf(stderr, "%s\n", solid::reason(number));
    return 1;
}

std::uint64_t call(const Words &w, Span given, growing::Bench &bench)
{
    return bench.run([&](solid::Room &room, std::span<std::uint8_t> answer) {
        if (w.call == "fuse")
            return solid::fuse(given, room, answer);
        if (w.call == "cells")
            return solid::cells(given, room, answer);
        if (w.call == "offset")
            return solid::offset(given, w.by, room, answer);
        return solid::hollow(given, w.by, room, answer);
    });
}

bool gives_bodies(const Words &w) { return one_of(w.call, {"fuse", "hollow"}); }

// What a job's operation should leave: of the solids' volumes and of another operation's answer by the same call.
void print_balance(const Words &w, Bytes job, double volume, double first, double second, growing::Bench &bench)
{
    enum { intersection = 1, difference = 2, unite = 3 };
    const int operation = job.back(), other = operation == intersection ? difference : intersection;
    job.back() = static_cast<std::uint8_t>(other);
    const std::uint64_t told = call(w, job, bench);
    const char *const name = other == intersection ? "intersection" : "difference";
    if (const unsigned number = solid::number(told)) {
        std::printf("balance unknown: the %s gives %u, %s\n", name, number, solid::reason(number));
        return;
    }
    const Span answer = bench.answer(told);
    const double taken = gives_bodies(w) ? volume_of(solid::bodies_of(answer)) : volume_of(solid::cells_of(answer));
    const double left = operation == unite ? first + second - taken : first - taken;
    std::printf("%s volume %s\n", name, surface::decimal(taken).c_str());
    const char *const both = operation == unite ? " + second" : "";
    std::printf("balance %s: volume - (first%s - %s)\n", surface::decimal(volume - left).c_str(), both, name);
}

template <class Part>
int show(const Words &w, const Bytes &given, const std::vector<Part> &parts, growing::Bench &bench)
{
    std::printf("answer 0\n");
    print(parts);
    write_files(w, surface::of(parts));
    if (!w.volumes)
        return 0;
    print_volumes(parts);
    const std::vector<solid::Cell> solids = solids_of(given);
    if (solids.size() == 1) {
        print_volume("given volume", surface::volume(solids[0]));
    } else {
        const double first = surface::volume(solids[0]), second = surface::volume(solids[1]);
        print_volume("first volume", first);
        print_volume("second volume", second);
        print_balance(w, given, volume_of(parts), first, second, bench);
    }
    return 0;
}

int run_call(const Words &w, const Bytes &given)
{
    growing::Bench bench(w.room.value_or(growing::first_corners), w.room.value_or(growing::most_corners));
    const std::uint64_t told = call(w, given, bench);
    if (const unsigned number = solid::number(told))
        return refused(number);
    const Bytes answer(bench.answer(told).begin(), bench.answer(told).end());
    if (gives_bodies(w))
        return show(w, given, solid::bodies_of(answer), bench);
    return show(w, given, solid::cells_of(answer), bench);
}

int mesh(const Words &w, const Bytes &facet)
{
    Bytes answer(64 * (facet.size() / 25)); // 64 for each corner, a record of 25
    const std::uint64_t told = solid::mesh(facet, answer);
    if (const unsigned number = solid::number(told))
        return refused(number);
    const auto triangles = solid::triangles_of(std::span(answer).first(solid::bytes(told)));
    surface::Surface s{"facet", {}, {}};
    solid::Reader r(Span(facet).subspan(17 + 97)); // behind the tolerances and the plane
    while (!r.at_end()) {
        r.u8();
        s.points.push_back(r.point());
    }
    std::printf("answer 0\ntriangles %zu\n", triangles.size());
    for (const auto &[a, b, c] : triangles) {
        std::printf("triangle %u %u %u\n", a, b, c);
        s.polygons.push_back({{a, b, c}, 1, 0, true});
    }
    write_files(w, s);
    return 0;
}

// The number of the solid check alone. An offset that is not finite is refused by 2 behind the check, so any other number is the check's;
// an offset by 0 moves no point, so it gives 2 only where the check does (docs/DECISIONS.md). No room is needed for that.
unsigned check_number(const Bytes &cell)
{
    solid::Room room(0);
    const auto by = [&](double distance) { return solid::number(solid::offset(cell, distance, room, {})); };
    const unsigned number = by(std::numeric_limits<double>::quiet_NaN());
    return number == 2 && by(0) != 2 ? 0 : number;
}

// The first solid's refusal, else the second's; each is said. 1 for bytes that are neither a cell nor a job.
unsigned check_all(const Bytes &given, const std::vector<Span> &solids)
{
    if (solids.empty())
        return 1;
    unsigned first = 0;
    for (std::size_t i = 0; i < solids.size(); i++) {
        Bytes cell(given.begin(), given.begin() + 17);
        cell.insert(cell.end(), solids[i].begin(), solids[i].end());
        const unsigned number = check_number(cell);
        if (number != 0 && solids.size() == 2)
            std::fprintf(stderr, "the %s solid: %u\n", i == 0 ? "first" : "second", number);
        if (number == 1 || first == 0)
            first = number;
    }
    return first;
}

int check(const Words &w, const Bytes &given)
{
    if (const unsigned number = check_all(given, solids_in(given)))
        return refused(number);
    std::printf("answer 0\n");
    const std::vector<solid::Cell> solids = solids_of(given);
    print(solids);
    write_files(w, surface::of(solids));
    if (w.volumes)
        print_volumes(solids);
    return 0;
}

int run(const Words &w)
{
    const Bytes given = read_file(w.file);
    if (w.call == "mesh")
        return mesh(w, given);
    if (w.call == "check")
        return check(w, given);
    return run_call(w, given);
}

// The status, once standard output is written too.
int ended(int status)
{
    if (std::fflush(stdout) == 0 && std::ferror(stdout) == 0)
        return status;
    std::fprintf(stderr, "solid: cannot write standard output\n");
    return 2;
}

} // namespace

int main(int count, char **words)
{
    const std::vector<std::string> all(words + std::min(count, 1), words + count);
    if (all.size() == 1 && one_of(all[0], {"--help", "-h", "--version"})) {
        if (all[0] == "--version")
            std::printf("solid %d.%d.%d, of Rumosaywe\n", SOLID_VERSION / 10000, SOLID_VERSION / 100 % 100, SOLID_VERSION % 100);
        else
            std::printf("%s", help);
        return ended(0);
    }
    try {
        return ended(run(words_of(all)));
    } catch (const std::bad_alloc &) {
        std::fprintf(stderr, "solid: so much memory cannot be had\n");
    } catch (const std::exception &failure) {
        std::fprintf(stderr, "solid: %s\n", failure.what());
    }
    std::fflush(stdout);
    return 2;
}
