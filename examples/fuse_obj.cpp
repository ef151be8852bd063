// fuse_obj JOB OUT.obj [CORNERS]: fuses the job of a file in a room of so many corners (8,192 if none are named), prints its
// bodies and writes their facets, each as one polygon. Ends with 1 where the job is refused, with the reason on standard error, with 2
// where a file fails.
#include "surface.hpp"

#include <cstdio>
#include <cstdlib>
#include <exception>
#include <fstream>
#include <iterator>
#include <stdexcept>

namespace {

using Bytes = std::vector<std::uint8_t>;

Bytes read_file(const std::string &path)
{
    std::ifstream in(path, std::ios::binary);
    if (!in)
        throw std::runtime_error("cannot read " + path);
    return Bytes(std::istreambuf_iterator<char>(in), {});
}

void print(const std::vector<solid::Body> &bodies)
{
    std::printf("answer 0\n");
    for (std::size_t i = 0; i < bodies.size(); i++) {
        const auto &shells = bodies[i].shells;
        std::printf("body %zu shells %zu\n", i + 1, shells.size());
        for (std::size_t j = 0; j < shells.size(); j++) {
            const char *way = shells[j].outward ? "outward" : "inward";
            std::printf("shell %zu %s facets %zu\n", j + 1, way, shells[j].facets.size());
        }
    }
}

int run(const std::string &from, const std::string &to, std::size_t corners)
{
    const Bytes job = read_file(from);
    solid::Room room(corners);
    Bytes answer(64 * corners);
    const std::uint64_t told = solid::fuse(job, room, answer);
    if (const unsigned number = solid::number(told)) {
        std::printf("answer %u\n", number);
        std::fprintf(stderr, "%s\n", solid::reason(number));
        return 1;
    }
    const auto bodies = solid::bodies_of(std::span(answer).first(solid::bytes(told)));
    print(bodies);
    const surface::Surface polygons = surface::of(bodies);
    std::ofstream out(to);
    surface::write_obj(out, polygons);
    out.close();
    if (!out)
        throw std::runtime_error("cannot write " + to);
    std::printf("%zu vertices, %zu polygons\n", polygons.points.size(), polygons.polygons.size());
    return 0;
}

} // namespace

int main(int count, char **words)
{
    if (count < 3 || count > 4) {
        std::fprintf(stderr, "usage: fuse_obj JOB OUT.obj [CORNERS]\n");
        return 2;
    }
    try {
        return run(words[1], words[2], count == 4 ? std::strtoull(words[3], nullptr, 10) : 8192);
    } catch (const std::exception &failure) {
        std::fprintf(stderr, "fuse_obj: %s\n", failure.what());
        return 2;
    }
}
