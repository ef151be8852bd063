// readers [TURNS]: the readers of answers on damaged bytes, with a fixed seed. A reader either throws std::out_of_range or gives what
// accounts for every byte, and holds no more memory than the bytes stand for. The same as a libFuzzer target, without an archive:
//   clang++ -std=c++20 -g -O1 -fsanitize=fuzzer,address,undefined -DLIBFUZZER -Iinclude tests/cpp/readers.cpp -o readers
#include <solid.hpp>

#include <cmath>
#include <cstdio>
#include <cstdlib>
#include <malloc.h>
#include <random>

namespace {

// Memory held now, and the most that was held since this was set.
std::size_t in_use = 0, most_used = 0;

} // namespace

void *operator new(std::size_t size)
{
    void *const at = std::malloc(size);
    if (at == nullptr)
        throw std::bad_alloc();
    in_use += malloc_usable_size(at);
    most_used = std::max(most_used, in_use);
    return at;
}

void operator delete(void *at) noexcept
{
    in_use -= malloc_usable_size(at);
    std::free(at);
}

void operator delete(void *at, std::size_t) noexcept { operator delete(at); }

namespace {

using Bytes = std::vector<std::uint8_t>;
using Given = std::span<const std::uint8_t>;

[[noreturn]] void fail(const char *what, Given bytes)
{
    std::printf("readers: %s:", what);
    for (const std::uint8_t b : bytes)
        std::printf(" %02x", b);
    std::printf("\n");
    std::exit(1);
}

void lay(Bytes &out, std::uint64_t value, std::size_t n)
{
    for (std::size_t i = 0; i < n; i++)
        out.push_back(static_cast<std::uint8_t>(value >> (8 * i)));
}

void lay(Bytes &out, const solid::Point &q)
{
    for (const double x : q)
        lay(out, std::bit_cast<std::uint64_t>(x), 8);
}

void lay(Bytes &out, const solid::Facet &f)
{
    for (const solid::Point *part : {&f.plane.origin, &f.plane.x, &f.plane.y, &f.plane.z})
        lay(out, *part);
    lay(out, f.corners.size(), 4);
    for (const auto &q : f.corners)
        lay(out, q);
}

void lay(Bytes &out, const solid::Body &b)
{
    lay(out, b.shells.size(), 4);
    for (const auto &s : b.shells) {
        lay(out, s.outward ? 1 : 0, 1);
        lay(out, s.facets.size(), 4);
        for (const auto &f : s.facets)
            lay(out, f);
    }
}

void lay(Bytes &out, const solid::Triangle &t)
{
    for (const std::uint32_t place : t)
        lay(out, place, 4);
}

void lay(Bytes &out, const solid::Cell &c)
{
    lay(out, c.points.size(), 4);
    for (const auto &q : c.points)
        lay(out, q);
    lay(out, c.faces.size(), 4);
    for (const auto &f : c.faces) {
        lay(out, f.size(), 4);
        for (const std::uint32_t place : f)
            lay(out, place, 4);
    }
}

// Whether a reader takes the bytes. A vector of empty shells, which take 5 bytes each, is the worst: 32 bytes each; one that grows holds
// three times what it has. An exception and its words take some hundred bytes.
template <class Read>
bool taken(Given bytes, Read read)
{
    const std::size_t before = most_used = in_use;
    bool whole = true;
    Bytes again;
    try {
        for (const auto list = read(bytes); const auto &part : list)
            lay(again, part);
    } catch (const std::out_of_range &) {
        whole = false;
    }
    if (most_used - before > 20 * bytes.size() + 1024)
        fail("more memory than the bytes stand for", bytes);
    if (whole && !std::equal(bytes.begin(), bytes.end(), again.begin(), again.end()))
        fail("what was read is not what the bytes say", bytes);
    return whole;
}

bool taken(unsigned kind, Given bytes)
{
    switch (kind % 3) {
    case 0: return taken(bytes, [](Given b) { return solid::bodies_of(b); });
    case 1: return taken(bytes, [](Given b) { return solid::cells_of(b); });
    default: return taken(bytes, [](Given b) { return solid::triangles_of(b); });
    }
}

} // namespace

#ifdef LIBFUZZER

extern "C" int LLVMFuzzerTestOneInput(const std::uint8_t *data, std::size_t size)
{
    if (size > 0)
        taken(data[0], Given(data + 1, size - 1));
    return 0;
}

#else

namespace {

// An answer of the library, its kind, where its counts stand, those of a cell's corners apart, its marks of outward and inward, and where
// each of its parts ends.
struct Answer {
    unsigned kind;
    Bytes bytes;
    std::vector<std::size_t> counts, corners, marks, ends;
};

std::uint32_t count_at(const Bytes &bytes, std::size_t at)
{
    return solid::Reader(Given(bytes).subspan(at)).u32();
}

Answer of_bodies(const Bytes &bytes)
{
    Answer out{0, bytes, {}, {}, {}, {}};
    for (std::size_t at = 0; at < bytes.size(); out.ends.push_back(at)) {
        out.counts.push_back(at);
        const std::uint32_t shells = count_at(bytes, at);
        at += 4;
        for (std::uint32_t i = 0; i < shells; i++) {
            out.marks.push_back(at);
            out.counts.push_back(at + 1);
            const std::uint32_t facets = count_at(bytes, at + 1);
            at += 5;
            for (std::uint32_t j = 0; j < facets; j++) {
                out.counts.push_back(at + 96);
                at += 100 + std::size_t{24} * count_at(bytes, at + 96);
            }
        }
    }
    return out;
}

Answer of_cells(const Bytes &bytes)
{
    Answer out{1, bytes, {}, {}, {}, {}};
    for (std::size_t at = 0; at < bytes.size(); out.ends.push_back(at)) {
        out.counts.push_back(at);
        at += 4 + std::size_t{24} * count_at(bytes, at);
        out.counts.push_back(at);
        const std::uint32_t faces = count_at(bytes, at);
        at += 4;
        for (std::uint32_t i = 0; i < faces; i++) {
            out.corners.push_back(at);
            at += 4 + std::size_t{4} * count_at(bytes, at);
        }
    }
    return out;
}

Answer of_triangles(const Bytes &bytes)
{
    Answer out{2, bytes, {}, {}, {}, {}};
    for (std::size_t at = 12; at <= bytes.size(); at += 12)
        out.ends.push_back(at);
    return out;
}

solid::Cell box(solid::Point low, solid::Point high)
{
    solid::Cell out;
    for (unsigned i = 0; i < 8; i++)
        out.points.push_back({i & 1 ? high[0] : low[0], i & 2 ? high[1] : low[1], i & 4 ? high[2] : low[2]});
    out.faces = {{0, 4, 6, 2}, {0, 1, 5, 4}, {0, 2, 3, 1}, {1, 3, 7, 5}, {2, 6, 7, 3}, {4, 5, 7, 6}};
    return out;
}

std::vector<Answer> answers()
{
    const double linear = std::ldexp(1.0, -20), local = std::ldexp(1.0, -18);
    auto job = [&](const solid::Cell &first, const solid::Cell &second, std::uint8_t operation) {
        return solid::Writer().tolerances(linear, local).solid(first).solid(second).operation(operation).bytes();
    };
    const solid::Cell unit = box({0, 0, 0}, {1, 1, 1}), third = box({1, 1, 1}, {2, 2, 2}), large = box({0, 0, 0}, {3, 3, 3});
    const Bytes one = solid::Writer().tolerances(linear, local).solid(large).bytes();
    solid::Room room(2048);
    Bytes memory(64 * 2048);
    auto written = [&](std::uint64_t told) {
        if (solid::number(told) != 0)
            fail("a job is refused", {});
        return Bytes(memory.begin(), memory.begin() + static_cast<std::ptrdiff_t>(solid::bytes(told)));
    };
    std::vector<Answer> out;
    out.push_back(of_bodies(written(solid::fuse(job(large, third, 2), room, memory))));
    out.push_back(of_bodies(written(solid::fuse(job(unit, box({1, 1, 0}, {2, 2, 1}), 3), room, memory))));
    out.push_back(of_bodies(written(solid::hollow(one, 0.5, room, memory))));
    out.push_back(of_cells(written(solid::cells(job(large, third, 2), room, memory))));
    out.push_back(of_cells(written(solid::offset(one, 0.5, room, memory))));
    const auto facet = solid::bodies_of(out[0].bytes)[0].shells[0].facets[0];
    out.push_back(of_triangles(written(solid::mesh(solid::facet_bytes(linear, local, facet), memory))));
    return out;
}

void put(Bytes &bytes, std::size_t at, std::uint64_t value, std::size_t n)
{
    Bytes word;
    lay(word, value, n);
    std::copy(word.begin(), word.end(), bytes.begin() + static_cast<std::ptrdiff_t>(at));
}

void refused(const char *what, const Answer &from, const Bytes &damaged)
{
    if (taken(from.kind, damaged))
        fail(what, damaged);
}

// The answer with another count at a place is refused.
void other_counts(const Answer &from, std::size_t at, std::initializer_list<std::uint64_t> others)
{
    for (const std::uint64_t other : others) {
        Bytes damaged = from.bytes;
        put(damaged, at, other, 4);
        refused("a count that is not so", from, damaged);
    }
}

// Each answer is taken whole and at the end of each of its parts, and nowhere else; with a count or a mark changed, and with bytes behind
// it, it is refused. Of a cell's corners only a count that is impossible: with another, places may read as counts.
void each_damage(const Answer &from)
{
    for (std::size_t n = 1; n <= from.bytes.size(); n++) {
        const bool end = std::find(from.ends.begin(), from.ends.end(), n) != from.ends.end();
        if (taken(from.kind, Given(from.bytes).first(n)) != end)
            fail("cut short", Given(from.bytes).first(n));
    }
    for (const std::size_t at : from.counts) {
        const std::uint64_t n = count_at(from.bytes, at);
        other_counts(from, at, {n - 1, n + 1, 2 * n, n + 256, 0, 0x80000000, 0xffffffff});
    }
    for (const std::size_t at : from.corners)
        other_counts(from, at, {0, 1, 2, 65536, 0x80000000, 0xffffffff});
    for (const std::size_t at : from.marks)
        for (unsigned b = 0; b < 256; b++) {
            Bytes damaged = from.bytes;
            damaged[at] = static_cast<std::uint8_t>(b);
            if (b != from.bytes[at])
                refused("a mark that is not so", from, damaged);
        }
    for (const unsigned b : {0u, 1u, 0xa5u, 0xffu})
        for (std::size_t n = 1; n <= 400; n++) {
            Bytes damaged = from.bytes;
            damaged.insert(damaged.end(), n, static_cast<std::uint8_t>(b));
            refused("bytes behind the answer", from, damaged);
        }
}

// One damage of any kind.
void damage(Bytes &bytes, const std::vector<Answer> &all, std::mt19937_64 &any)
{
    static const std::uint64_t odd[] = {0, 1, 2, 3, 4, 127, 128, 255, 256, 65535, 65536, 0x7fffffff, 0x80000000, 0xfffffffe, 0xffffffff};
    const std::size_t at = bytes.empty() ? 0 : any() % bytes.size();
    const auto place = bytes.begin() + static_cast<std::ptrdiff_t>(at);
    const Bytes &other = all[any() % all.size()].bytes;
    const std::size_t from = any() % other.size(), n = std::min<std::size_t>(any() % 64, other.size() - from);
    const auto piece = Given(other).subspan(from, n);
    switch (any() % 6) {
    case 0: bytes.resize(at); break;
    case 1: bytes.insert(place, piece.begin(), piece.end()); break;
    case 2: bytes.erase(place, place + static_cast<std::ptrdiff_t>(std::min<std::size_t>(any() % 64, bytes.size() - at))); break;
    case 3:
        if (bytes.size() >= at + 4)
            put(bytes, at, any() % 4 == 0 ? any() : odd[any() % std::size(odd)], 4);
        break;
    case 4:
        if (!bytes.empty())
            bytes[at] = static_cast<std::uint8_t>(any());
        break;
    default: bytes.insert(bytes.end(), piece.begin(), piece.end()); break;
    }
}

// Damage of every kind, some of it where the counts stand; half of the bytes begin as an answer, the others as anything.
void turns(const std::vector<Answer> &all, std::uint64_t many)
{
    std::mt19937_64 any(24);
    std::uint64_t whole = 0;
    for (std::uint64_t turn = 0; turn < many; turn++) {
        const Answer &from = all[any() % all.size()];
        Bytes bytes = from.bytes;
        if (any() % 8 == 0) {
            bytes.resize(any() % 512);
            for (std::uint8_t &b : bytes)
                b = static_cast<std::uint8_t>(any() % 4 == 0 ? any() : any() % 8);
        } else if (const auto &places = any() % 2 == 0 ? from.counts : from.corners; !places.empty()) {
            const std::size_t at = places[any() % places.size()];
            put(bytes, at, any() % 64, 4);
        }
        for (std::uint64_t n = any() % 4; n > 0; n--)
            damage(bytes, all, any);
        whole += taken(from.kind, bytes);
        const unsigned kind = static_cast<unsigned>(any() % 3);
        whole += taken(kind, bytes);
    }
    std::printf("readers: %llu damaged answers, %llu times taken for one: ok\n", static_cast<unsigned long long>(many),
                static_cast<unsigned long long>(whole));
}

} // namespace

int main(int count, char **words)
{
    const std::vector<Answer> all = answers();
    for (const Answer &from : all)
        each_damage(from);
    turns(all, count > 1 ? std::strtoull(words[1], nullptr, 10) : 300000);
}

#endif
