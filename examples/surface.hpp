// What viewers open: an answer as polygons, written as OBJ or as legacy VTK. A facet is written whole, with all its corners: two facets
// that share an edge share it in the file too, so that a closed body is closed there. In triangles it may be open, since the mesh of a
// facet passes over a straight corner that its neighbour keeps.
#ifndef RUMOSAYWE_EXAMPLES_SURFACE_HPP
#define RUMOSAYWE_EXAMPLES_SURFACE_HPP

#include <solid.hpp>

#include <charconv>
#include <map>
#include <ostream>
#include <string>

namespace surface {

// A polygon by the places of its corners, and where it belongs: a body or a cell, and of a body a shell, both counted from 1.
struct Polygon {
    std::vector<std::size_t> corners;
    std::size_t part, shell;
    bool outward;
};

// Polygons over one list of points. `part` is what they are parts of, "body" or "cell"; only bodies have shells.
struct Surface {
    std::string part;
    std::vector<solid::Point> points;
    std::vector<Polygon> polygons;

    bool has_shells() const { return part == "body"; }
};

// A corner that facets of one body share is one point; bodies share none.
inline Surface of(const std::vector<solid::Body> &bodies)
{
    Surface out{"body", {}, {}};
    for (std::size_t i = 0; i < bodies.size(); i++) {
        std::map<solid::Point, std::size_t> places;
        for (std::size_t j = 0; j < bodies[i].shells.size(); j++)
            for (const auto &facet : bodies[i].shells[j].facets) {
                Polygon &polygon = out.polygons.emplace_back(Polygon{{}, i + 1, j + 1, bodies[i].shells[j].outward});
                for (const auto &q : facet.corners) {
                    const auto [at, is_new] = places.try_emplace(q, out.points.size());
                    if (is_new)
                        out.points.push_back(q);
                    polygon.corners.push_back(at->second);
                }
            }
    }
    return out;
}

// The cells with the points that they have.
inline Surface of(const std::vector<solid::Cell> &cells)
{
    Surface out{"cell", {}, {}};
    for (std::size_t i = 0; i < cells.size(); i++) {
        const std::size_t before = out.points.size();
        out.points.insert(out.points.end(), cells[i].points.begin(), cells[i].points.end());
        for (const auto &face : cells[i].faces) {
            Polygon &polygon = out.polygons.emplace_back(Polygon{{}, i + 1, 0, true});
            for (const std::uint32_t place : face)
                polygon.corners.push_back(before + place);
        }
    }
    return out;
}

// The shortest decimal that reads back as the same double.
inline std::string decimal(double x)
{
    char text[32];
    return std::string(text, std::to_chars(text, text + sizeof text, x).ptr);
}

inline void write_point(std::ostream &out, const solid::Point &q)
{
    out << decimal(q[0]) << ' ' << decimal(q[1]) << ' ' << decimal(q[2]) << '\n';
}

// OBJ counts places from 1. A body or a cell is an object, a shell is a group.
inline void write_obj(std::ostream &out, const Surface &s)
{
    out << "# " << s.points.size() << " vertices, " << s.polygons.size() << " polygons\n";
    for (const auto &q : s.points)
        write_point(out << "v ", q);
    std::size_t part = 0, shell = 0;
    for (const auto &polygon : s.polygons) {
        if (polygon.part != part)
            out << "o " << s.part << '_' << polygon.part << '\n';
        if (s.has_shells() && (polygon.part != part || polygon.shell != shell))
            out << "g shell_" << polygon.shell << '\n';
        part = polygon.part, shell = polygon.shell;
        out << 'f';
        for (const std::size_t place : polygon.corners)
            out << ' ' << place + 1;
        out << '\n';
    }
}

// One number for each polygon.
template <class Value>
void write_column(std::ostream &out, const std::string &name, const Surface &s, Value value)
{
    out << "SCALARS " << name << " int 1\nLOOKUP_TABLE default\n";
    for (const auto &polygon : s.polygons)
        out << value(polygon) << '\n';
}

// Legacy VTK in text, which counts places from 0.
inline void write_vtk(std::ostream &out, const Surface &s)
{
    out << "# vtk DataFile Version 3.0\nRumosaywe\nASCII\nDATASET POLYDATA\nPOINTS " << s.points.size() << " double\n";
    for (const auto &q : s.points)
        write_point(out, q);
    std::size_t numbers = s.polygons.size();
    for (const auto &polygon : s.polygons)
        numbers += polygon.corners.size();
    out << "POLYGONS " << s.polygons.size() << ' ' << numbers << '\n';
    for (const auto &polygon : s.polygons) {
        out << polygon.corners.size();
        for (const std::size_t place : polygon.corners)
            out << ' ' << place;
        out << '\n';
    }
    out << "CELL_DATA " << s.polygons.size() << '\n';
    write_column(out, s.part, s, [](const Polygon &p) { return p.part; });
    if (s.has_shells()) {
        write_column(out, "shell", s, [](const Polygon &p) { return p.shell; });
        write_column(out, "outward", s, [](const Polygon &p) { return p.outward ? 1 : 0; });
    }
}

// Six times the volume between a point and the triangles of a polygon from its first corner.
inline double six_volumes(const solid::Point &from, const std::vector<solid::Point> &polygon)
{
    auto to = [&](std::size_t i) { return solid::Point{polygon[i][0] - from[0], polygon[i][1] - from[1], polygon[i][2] - from[2]}; };
    double sum = 0;
    for (std::size_t i = 1; i + 1 < polygon.size(); i++) {
        const solid::Point a = to(0), b = to(i), c = to(i + 1);
        sum += a[0] * (b[1] * c[2] - b[2] * c[1]) + a[1] * (b[2] * c[0] - b[0] * c[2]) + a[2] * (b[0] * c[1] - b[1] * c[0]);
    }
    return sum;
}

// In plain doubles, for a look and a balance: nothing certifies them.
inline double volume(const solid::Body &body)
{
    double sum = 0;
    for (const auto &shell : body.shells)
        for (const auto &facet : shell.facets)
            sum += six_volumes(body.shells[0].facets[0].corners[0], facet.corners);
    return sum / 6;
}

inline double volume(const solid::Cell &cell)
{
    double sum = 0;
    for (const auto &face : cell.faces) {
        std::vector<solid::Point> polygon;
        for (const std::uint32_t place : face)
            polygon.push_back(cell.points[place]);
        sum += six_volumes(cell.points[0], polygon);
    }
    return sum / 6;
}

} // namespace surface

#endif
