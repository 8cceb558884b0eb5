"""Rotation matrices from angles in degrees, worked with 60 digits."""
import decimal
from decimal import Decimal

decimal.getcontext().prec = 60
PI = Decimal("3.14159265358979323846264338327950288419716939937510582097494459")


def sine_series(angle, first):
    """The Taylor sum of the sine (first = 1) or the cosine (first = 0) of an angle below a quarter turn."""
    term = angle if first else Decimal(1)
    total, power = term, first
    while abs(term) > Decimal(10) ** -70:
        term = -term * angle * angle / ((power + 1) * (power + 2))
        total += term
        power += 2
    return total


def sine_cosine(degrees):
    """Exact at whole quarter turns."""
    quarters = (degrees / 90).to_integral_value(decimal.ROUND_FLOOR)
    angle = (degrees - 90 * quarters) * PI / 180
    sine, cosine = sine_series(angle, 1), sine_series(angle, 0)
    for _ in range(int(quarters) % 4):
        sine, cosine = cosine, -sine
    return sine, cosine


def rotation(degrees, axis):
    """The rotation by the right-hand rule about an axis of any length but zero, for which there is ValueError."""
    length = Decimal(sum(n * n for n in axis)).sqrt()
    if length == 0:
        raise ValueError("the axis has no length")
    x, y, z = axis = [n / length for n in axis]
    sine, cosine = sine_cosine(degrees)
    cross = [[0, -z, y], [z, 0, -x], [-y, x, 0]]
    return [[(cosine if i == j else 0) + axis[i] * axis[j] * (1 - cosine) + cross[i][j] * sine for j in range(3)] for i in range(3)]
