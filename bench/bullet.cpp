// Bullet over the records of a case file: btGjkPairDetector with btGjkEpaPenetrationDepthSolver. It gives a point, a normal
// and a distance, which is negative where the shapes meet. In single precision.
//
// Bullet's own ball and capsule would be a point and a segment with a margin, and its box has a margin as well. Here each
// shape has the support points that the published Rust's has, and no margin.
//
//   bullet FILE LINES     LINES: what the published Rust answers
#include "records.hpp"
#include <BulletCollision/CollisionShapes/btConvexInternalShape.h>
#include <BulletCollision/NarrowPhaseCollision/btGjkEpaPenetrationDepthSolver.h>
#include <BulletCollision/NarrowPhaseCollision/btGjkPairDetector.h>
#include <BulletCollision/NarrowPhaseCollision/btPointCollector.h>
#include <BulletCollision/NarrowPhaseCollision/btVoronoiSimplexSolver.h>

namespace {

btVector3 to_bullet(Vec v) { return {btScalar(v.x), btScalar(v.y), btScalar(v.z)}; }

Vec from_bullet(const btVector3 &v) { return {v.x(), v.y(), v.z()}; }

class SupportMapped : public btConvexInternalShape {
public:
    explicit SupportMapped(const Shape &given) : shape(given) {
        m_shapeType = CUSTOM_CONVEX_SHAPE_TYPE;
        setMargin(0);
    }

    btVector3 localGetSupportingVertex(const btVector3 &direction) const override {
        return localGetSupportingVertexWithoutMargin(direction);
    }

    btVector3 localGetSupportingVertexWithoutMargin(const btVector3 &direction) const override {
        return to_bullet(support(shape, from_bullet(direction)));
    }

    void batchedUnitVectorGetSupportingVertexWithoutMargin(
        const btVector3 *directions, btVector3 *points, int count) const override {
        for (int i = 0; i < count; i++)
            points[i] = localGetSupportingVertexWithoutMargin(directions[i]);
    }

    // Asked for by the class, and not by the detector.
    void calculateLocalInertia(btScalar, btVector3 &inertia) const override { inertia.setZero(); }
    const char *getName() const override { return "support mapped"; }

private:
    const Shape &shape;
};

// By its columns, since Bullet's own way from a quaternion makes it one of unit length.
btTransform placed(const Record &r) {
    const Vec x = rotated(r.rotation, {1, 0, 0}), y = rotated(r.rotation, {0, 1, 0}), z = rotated(r.rotation, {0, 0, 1});
    const btMatrix3x3 basis(
        btScalar(x.x), btScalar(y.x), btScalar(z.x),
        btScalar(x.y), btScalar(y.y), btScalar(z.y),
        btScalar(x.z), btScalar(y.z), btScalar(z.z));
    return btTransform(basis, to_bullet(r.translation));
}

} // namespace

int main(int count, char **words) {
    if (count != 3)
        return 2;
    const std::vector<Record> all = records(words[1]);
    const std::vector<Says> rust = said_by_lines(words[2]);
    btVoronoiSimplexSolver simplex;
    btGjkEpaPenetrationDepthSolver depth;
    print_timed("bullet", all, rust, [&](const Record &r) {
        const SupportMapped first(r.first), second(r.second);
        btGjkPairDetector detector(&first, &second, &simplex, &depth);
        btDiscreteCollisionDetectorInterface::ClosestPointInput input;
        input.m_transformA.setIdentity();
        input.m_transformB = placed(r);
        btPointCollector found;
        detector.getClosestPoints(input, found, nullptr);
        return !found.m_hasResult ? Says::nothing : found.m_distance > 0 ? Says::apart : Says::meet;
    });
}
