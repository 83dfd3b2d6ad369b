// libccd over the records of a case file: GJK's yes or no, and GJK with EPA, which gives a depth where the shapes meet and
// nothing where they stand apart. Debian's libccd computes in double precision.
//
//   libccd FILE LINES     LINES: what the published Rust answers
#include "records.hpp"
#include <ccd/ccd.h>

namespace {

// A shape in the frame of the first, and where the search starts.
struct Placed {
    const Shape *shape;
    Rotation rotation;
    Vec translation, direction;
};

Vec from_ccd(const ccd_vec3_t &v) { return {v.v[0], v.v[1], v.v[2]}; }

void first_direction(const void *object, const void *, ccd_vec3_t *direction) {
    const Vec d = static_cast<const Placed *>(object)->direction;
    ccdVec3Set(direction, d.x, d.y, d.z);
}

void support_here(const void *object, const ccd_vec3_t *direction, ccd_vec3_t *point) {
    const Vec p = support(*static_cast<const Placed *>(object)->shape, from_ccd(*direction));
    ccdVec3Set(point, p.x, p.y, p.z);
}

void support_placed(const void *object, const ccd_vec3_t *direction, ccd_vec3_t *point) {
    const Placed &placed = *static_cast<const Placed *>(object);
    const Vec local = support(*placed.shape, rotated(inverse(placed.rotation), from_ccd(*direction)));
    const Vec p = rotated(placed.rotation, local) + placed.translation;
    ccdVec3Set(point, p.x, p.y, p.z);
}

ccd_t settings() {
    ccd_t ccd;
    CCD_INIT(&ccd);
    ccd.first_dir = first_direction;
    ccd.support1 = support_here;
    ccd.support2 = support_placed;
    ccd.max_iterations = 100; // as the published Rust's GJK; the default has no end
    return ccd;
}

struct Pair {
    Placed first, second;
};

Pair placed(const Record &r) {
    return {{&r.first, {{0, 0, 0}, 1}, {0, 0, 0}, r.direction}, {&r.second, r.rotation, r.translation, r.direction}};
}

} // namespace

int main(int count, char **words) {
    if (count != 3)
        return 2;
    const std::vector<Record> all = records(words[1]);
    const std::vector<Says> rust = said_by_lines(words[2]);
    const ccd_t ccd = settings();
    print_timed("libccd_gjk", all, rust, [&](const Record &r) {
        const Pair pair = placed(r);
        return ccdGJKIntersect(&pair.first, &pair.second, &ccd) ? Says::meet : Says::apart;
    });
    print_timed("libccd_epa", all, rust, [&](const Record &r) {
        const Pair pair = placed(r);
        ccd_real_t depth;
        ccd_vec3_t direction, position;
        const int status = ccdGJKPenetration(&pair.first, &pair.second, &ccd, &depth, &direction, &position);
        return status == 0 ? Says::meet : status == -1 ? Says::apart : Says::nothing;
    });
}
