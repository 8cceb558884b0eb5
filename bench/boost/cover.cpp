// A cover by Boost.Interval, as a peer for speed: document 01's slices and the steps of the Rust's `interpolate` and `transform_point`, every end rounded outward where document 01
// rounds to nearest. So its box holds the port's and is hardly wider. Every call sets the rounding mode once and sets it back; it needs g++ -frounding-math.
//
//     boost_cover          all terms of the two products of matrices, as the Rust works them
//     boost_cover_affine   without the terms in which a matrix always has a 0 or a 1: the same box in less time
//     boost_cover_rigid    of a rigid move: likewise, and without its scale, which is the identity

#include <algorithm>
#include <array>
#include <boost/numeric/interval.hpp>
#include <cfloat>
#include <cmath>
#include <cstdint>

namespace {

namespace lib = boost::numeric::interval_lib;
using std::int32_t, std::uint32_t, std::uint64_t, std::uint8_t;

// Boost's control of the rounding mode, by fesetround, without its store of every result: a float of x86-64 has no digits beyond its own.
struct Control : lib::rounding_control<float> {
    static float force_rounding(float x) { return x; }
};

// The mode stays upward: a low end is rounded as the negation of a high one.
struct Arithmetic : lib::rounded_arith_opp<float, Control> {
    // Boost's own switches the mode for this. The square of a float is exact as a double.
    float sqrt_down(float x) {
        const float root = sqrt_up(x);
        return double(root) * root > x ? sub_down(root, FLT_MIN) : root;
    }
};

// While one lives the mode is upward.
using Upward = lib::save_state<Arithmetic>;
using Interval = lib::unprotect<boost::numeric::interval<float, lib::policies<Upward, lib::checking_strict<float>>>>::type;

using Vector = std::array<Interval, 3>;
using Quaternion = std::array<Interval, 4>;  // x y z w
using Matrix = std::array<std::array<Interval, 4>, 4>;

}  // namespace

// The constants of a built move, as bench/src/boost.rs hands them over.
struct Motion {
    float start[4][4], end[4][4];
    float t[2][3], r[2][4], s[2][4][4];
    float cos_theta, theta;
    const uint32_t *sine_table;
};

namespace {

const uint8_t not_finite = 5, squared_length = 10;

// ---- document 01's angles

const uint32_t quarter_turn = 421657428;  // in units of 2^-28
const uint32_t steps = 2048;
const int32_t one = 1 << 30;  // a sine's units

// The straight line between neighbours of the table, rounded down, for v from 0 to a quarter turn.
int32_t quarter_sine(const uint32_t *table, uint32_t v) {
    const uint64_t place = uint64_t(v) * steps;
    const uint32_t i = place / quarter_turn;
    if (i == steps) return table[steps];
    const uint64_t rise = table[i + 1] - table[i];
    return table[i] + rise * (place % quarter_turn) / quarter_turn;
}

int32_t sine(const uint32_t *table, uint32_t u) {
    const uint32_t v = u % quarter_turn;
    switch (u / quarter_turn % 4) {
    case 0: return quarter_sine(table, v);
    case 1: return quarter_sine(table, quarter_turn - v);
    case 2: return -quarter_sine(table, v);
    default: return -quarter_sine(table, quarter_turn - v);
    }
}

// The sine from one angle in units to another, up to five quarter turns; the floats that document 01 rounds to nearest lie between the ends.
Interval sine_enclosure(const uint32_t *table, uint32_t from, uint32_t to) {
    const auto holds = [=](uint32_t u) { return from <= u && u <= to; };
    auto [low, high] = std::minmax({sine(table, from), sine(table, to)});
    if (holds(3 * quarter_turn)) low = -one;
    if (holds(quarter_turn) || holds(5 * quarter_turn)) high = one;
    Interval::traits_type::rounding rounding;
    return Interval(rounding.conv_down(low) / one, rounding.conv_up(high) / one);
}

uint32_t units(float angle) { return angle * (1 << 28); }

// ---- the steps

// (1 - dt) * a + dt * b.
struct Lerp {
    Interval dt, rest;
    explicit Lerp(Interval dt) : dt(dt), rest(1.0f - dt) {}
    Interval operator()(float a, float b) const { return a * rest + b * dt; }
};

// Whether the squared length is above zero; only then there is a quotient by its root.
bool normalize(Quaternion &q) {
    const Interval squared = q[0] * q[0] + q[1] * q[1] + q[2] * q[2] + q[3] * q[3];
    if (!(squared.lower() > 0)) return false;
    const Interval length = sqrt(squared);
    for (Interval &component : q) component /= length;
    return true;
}

bool is_linear(const Motion &m) { return m.cos_theta > 0.9995f; }

// What slerp turns the first rotation towards; no slice changes it.
bool perpendicular(const Motion &m, Quaternion &q) {
    for (int i = 0; i < 4; i++) q[i] = m.r[1][i] - m.r[0][i] * Interval(m.cos_theta);
    return normalize(q);
}

bool slerp(const Motion &m, const Quaternion &perpendicular, const Lerp &lerp, Quaternion &q) {
    if (is_linear(m)) {
        for (int i = 0; i < 4; i++) q[i] = lerp(m.r[0][i], m.r[1][i]);
        return normalize(q);
    }
    const Interval angle = m.theta * lerp.dt;
    const uint32_t from = units(angle.lower()), to = units(angle.upper());
    const Interval sine = sine_enclosure(m.sine_table, from, to), cosine = sine_enclosure(m.sine_table, from + quarter_turn, to + quarter_turn);
    for (int i = 0; i < 4; i++) q[i] = m.r[0][i] * cosine + perpendicular[i] * sine;
    return true;
}

Matrix rotation(const Quaternion &q) {
    const auto &[x, y, z, w] = q;
    const Interval xx = x * x, yy = y * y, zz = z * z;
    const Interval xy = x * y, xz = x * z, yz = y * z;
    const Interval wx = x * w, wy = y * w, wz = z * w;
    return {{{1.0f - 2.0f * (yy + zz), 2.0f * (xy - wz), 2.0f * (xz + wy), 0.0f},
             {2.0f * (xy + wz), 1.0f - 2.0f * (xx + zz), 2.0f * (yz - wx), 0.0f},
             {2.0f * (xz - wy), 2.0f * (yz + wx), 1.0f - 2.0f * (xx + yy), 0.0f},
             {0.0f, 0.0f, 0.0f, 1.0f}}};
}

Matrix translation(const Motion &m, const Lerp &lerp) {
    const auto at = [&](int i) { return lerp(m.t[0][i], m.t[1][i]); };
    return {{{1.0f, 0.0f, 0.0f, at(0)}, {0.0f, 1.0f, 0.0f, at(1)}, {0.0f, 0.0f, 1.0f, at(2)}, {0.0f, 0.0f, 0.0f, 1.0f}}};
}

Matrix scale(const Motion &m, const Lerp &lerp) {
    const auto row = [&](int i) {
        const auto at = [&](int j) { return lerp(m.s[0][i][j], m.s[1][i][j]); };
        return std::array<Interval, 4>{at(0), at(1), at(2), 0.0f};
    };
    return {row(0), row(1), row(2), {0.0f, 0.0f, 0.0f, 1.0f}};
}

Matrix product(const Matrix &a, const Matrix &b) {
    Matrix c;
    for (int i = 0; i < 4; i++)
        for (int j = 0; j < 4; j++) c[i][j] = a[i][0] * b[0][j] + a[i][1] * b[1][j] + a[i][2] * b[2][j] + a[i][3] * b[3][j];
    return c;
}

struct Whole {
    static Matrix pose(const Motion &m, const Lerp &lerp, const Matrix &rotation) { return product(product(translation(m, lerp), rotation), scale(m, lerp)); }
};

// The upper three rows; the last is 0 0 0 1 in all of them.
struct Affine {
    static Matrix pose(const Motion &m, const Lerp &lerp, const Matrix &rotation) {
        const Matrix s = scale(m, lerp);
        Matrix c;
        for (int i = 0; i < 3; i++) {
            for (int j = 0; j < 3; j++) c[i][j] = rotation[i][0] * s[0][j] + rotation[i][1] * s[1][j] + rotation[i][2] * s[2][j];
            c[i][3] = lerp(m.t[0][i], m.t[1][i]);
        }
        return c;
    }
};

// The same with the identity for the scale.
struct Rigid {
    static Matrix pose(const Motion &m, const Lerp &lerp, const Matrix &rotation) {
        Matrix c = rotation;
        for (int i = 0; i < 3; i++) c[i][3] = lerp(m.t[0][i], m.t[1][i]);
        return c;
    }
};

// A box by a matrix of intervals or of floats.
template <class Rows> Vector moved(const Rows &m, const Vector &b) {
    const auto row = [&](int i) { return b[0] * m[i][0] + b[1] * m[i][1] + b[2] * m[i][2] + m[i][3]; };
    return {row(0), row(1), row(2)};
}

Vector hull(const Vector &a, const Vector &b) { return {hull(a[0], b[0]), hull(a[1], b[1]), hull(a[2], b[2])}; }

// Start box, end box, slices. Rounded outward no low end is +infinity and no high end -infinity, so that no NaN arises and the box at the end is all that needs judging.
// Not inlined, since -frounding-math doesn't keep the steps behind the call that sets the mode.
template <class Products> [[gnu::noinline]] uint8_t cover(const Motion &m, const Vector &b, uint32_t depth, Vector &covered) {
    covered = hull(moved(m.start, b), moved(m.end, b));
    Quaternion towards, q;
    if (!is_linear(m) && !perpendicular(m, towards)) return squared_length;
    const float slices = 1 << depth;
    for (float k = 0; k < slices; k++) {
        const Lerp lerp(Interval(k / slices, (k + 1) / slices));
        if (!slerp(m, towards, lerp, q)) return squared_length;
        covered = hull(covered, moved(Products::pose(m, lerp, rotation(q)), b));
    }
    const auto is_finite = [](const Interval &i) { return -FLT_MAX <= i.lower() && i.upper() <= FLT_MAX; };
    return std::all_of(covered.begin(), covered.end(), is_finite) ? 0 : not_finite;
}

template <class Products> uint8_t cover(const Motion *m, const float *b, uint32_t depth, float *out) {
    Upward mode;
    const Vector box = {Interval(b[0], b[3]), Interval(b[1], b[4]), Interval(b[2], b[5])};
    Vector covered;
    const uint8_t refusal = cover<Products>(*m, box, depth, covered);
    for (int i = 0; i < 3; i++) {
        out[i] = covered[i].lower();
        out[i + 3] = covered[i].upper();
    }
    return refusal;
}

[[gnu::noinline]] Interval quotient(float x, float y) { return Interval(x) / Interval(y); }

}  // namespace

// The box x0 y0 z0 x1 y1 z1 of a finite box whose corners are in order, at a depth from 0 to 12; 0, or document 01's number of a refusal.
extern "C" uint8_t boost_cover(const Motion *m, const float *b, uint32_t depth, float *out) noexcept { return cover<Whole>(m, b, depth, out); }
extern "C" uint8_t boost_cover_affine(const Motion *m, const float *b, uint32_t depth, float *out) noexcept { return cover<Affine>(m, b, depth, out); }
extern "C" uint8_t boost_cover_rigid(const Motion *m, const float *b, uint32_t depth, float *out) noexcept { return cover<Rigid>(m, b, depth, out); }

// The ends of a quotient, by which the caller sees that ends are rounded outward.
extern "C" void boost_quotient(float x, float y, float *ends) noexcept {
    Upward mode;
    const Interval q = quotient(x, y);
    ends[0] = q.lower();
    ends[1] = q.upper();
}
