// The records of a case file for the libraries in C and C++: decoded, with support points of the four shapes, and timed.
#ifndef RECORDS_HPP
#define RECORDS_HPP

#include <cmath>
#include <cstdint>
#include <cstdio>
#include <cstdlib>
#include <cstring>
#include <ctime>
#include <fstream>
#include <iterator>
#include <string>
#include <vector>

struct Vec {
    double x, y, z;
};

inline Vec operator+(Vec a, Vec b) { return {a.x + b.x, a.y + b.y, a.z + b.z}; }
inline Vec operator*(Vec a, double s) { return {a.x * s, a.y * s, a.z * s}; }
inline double dot(Vec a, Vec b) { return a.x * b.x + a.y * b.y + a.z * b.z; }
inline Vec cross(Vec a, Vec b) { return {a.y * b.z - a.z * b.y, a.z * b.x - a.x * b.z, a.x * b.y - a.y * b.x}; }

enum class Kind { ball, cuboid, capsule, triangle };

// A ball has its radius in a.x, a cuboid its half extents in a, a capsule its ends in a and b and its radius in c.x, a
// triangle its corners.
struct Shape {
    Kind kind;
    Vec a, b, c;
};

struct Rotation {
    Vec axis;
    double w;
};

struct Record {
    Shape first, second;
    Rotation rotation;
    Vec translation, direction;
};

// The published Rust's formula, since one rotation in ten is not of unit length: there it stretches too.
inline Vec rotated(Rotation r, Vec v) {
    return v * (r.w * r.w - dot(r.axis, r.axis)) + r.axis * (2 * dot(v, r.axis)) + cross(r.axis, v) * (2 * r.w);
}

inline Rotation inverse(Rotation r) { return {r.axis * -1, r.w}; }

inline Vec of_length(Vec v, double length) {
    const double own = std::sqrt(dot(v, v));
    return own > 0 ? v * (length / own) : Vec{0, length, 0};
}

inline Vec farther(Vec a, Vec b, Vec direction) { return dot(a, direction) > dot(b, direction) ? a : b; }

// The shape's farthest point in a direction, in its own frame.
inline Vec support(const Shape &s, Vec d) {
    switch (s.kind) {
    case Kind::ball:
        return of_length(d, s.a.x);
    case Kind::cuboid:
        return {std::copysign(s.a.x, d.x), std::copysign(s.a.y, d.y), std::copysign(s.a.z, d.z)};
    case Kind::capsule:
        return farther(s.a, s.b, d) + of_length(d, s.c.x);
    default:
        return farther(farther(s.a, s.b, d), s.c, d);
    }
}

// Reads a well-formed case file: the oracle's generator writes no other.
class Reader {
public:
    explicit Reader(const char *path) : bytes(contents(path)) {}

    bool at_end() const { return place == bytes.size(); }

    Record record() {
        Record r;
        r.first = shape();
        r.second = shape();
        const Vec axis = vec();
        r.rotation = {axis, real()};
        if (r.second.kind == Kind::ball)
            r.rotation = {{0, 0, 0}, 1}; // the published Rust does not turn a ball, so nothing stretches it either
        r.translation = vec();
        r.direction = vec();
        number(); // the largest distance and the flag: neither library takes them
        number();
        return r;
    }

private:
    std::vector<char> bytes;
    size_t place = 0;

    static std::vector<char> contents(const char *path) {
        std::ifstream file(path, std::ios::binary);
        return {std::istreambuf_iterator<char>(file), std::istreambuf_iterator<char>()};
    }

    uint32_t number() {
        uint32_t value = 0;
        for (int shift = 0;; shift += 7) {
            const uint8_t byte = static_cast<uint8_t>(bytes.at(place++));
            value |= static_cast<uint32_t>(byte & 0x7F) << shift;
            if (byte < 0x80)
                return value;
        }
    }

    double real() {
        const uint32_t bits = number();
        float value;
        std::memcpy(&value, &bits, sizeof value);
        return value;
    }

    Vec vec() {
        const double x = real(), y = real();
        return {x, y, real()};
    }

    Shape shape() {
        Shape s = {static_cast<Kind>(number()), {}, {}, {}};
        switch (s.kind) {
        case Kind::ball:
            s.a.x = real();
            break;
        case Kind::cuboid:
            s.a = vec();
            break;
        case Kind::capsule:
            s.a = vec();
            s.b = vec();
            s.c.x = real();
            break;
        default:
            s.a = vec();
            s.b = vec();
            s.c = vec();
        }
        return s;
    }
};

// What a library says of a pair, and what the published Rust's line says.
enum class Says { meet, apart, nothing };

inline std::vector<Record> records(const char *path) {
    std::vector<Record> all;
    for (Reader reader(path); !reader.at_end();)
        all.push_back(reader.record());
    return all;
}

// By the letter behind each record's number. X says nothing: the Rust gave no answer there.
inline std::vector<Says> said_by_lines(const char *path) {
    std::vector<Says> all;
    std::ifstream file(path);
    for (std::string line; std::getline(file, line);) {
        const size_t space = line.find(' ');
        if (line.empty() || line[0] < '0' || line[0] > '9' || space + 1 >= line.size())
            continue; // the first line and the last
        const char letter = line[space + 1];
        const bool apart = letter == 'D' || letter == 'M' || letter == 'S';
        all.push_back(letter == 'X' ? Says::nothing : apart ? Says::apart : Says::meet);
    }
    return all;
}

// Prints the name, the processor time in seconds, how many records both answered, and how many of those alike.
template <class Answer>
void print_timed(const char *name, const std::vector<Record> &all, const std::vector<Says> &rust, Answer answer) {
    std::vector<Says> said(all.size());
    const std::clock_t start = std::clock();
    for (size_t i = 0; i < all.size(); i++)
        said[i] = answer(all[i]);
    const double seconds = double(std::clock() - start) / CLOCKS_PER_SEC;
    size_t both = 0, alike = 0;
    for (size_t i = 0; i < all.size() && i < rust.size(); i++) {
        const bool answered = said[i] != Says::nothing && rust[i] != Says::nothing;
        both += answered;
        alike += answered && said[i] == rust[i];
    }
    std::printf("%s %.6f %zu %zu\n", name, seconds, both, alike);
    std::fflush(stdout); // a run that is stopped still shows what it had measured
}

#endif
