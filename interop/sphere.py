"""Directions, faces and their areas in double precision.

A face is a row of nodes, counterclockwise seen from outside, whose edges are arcs of great circles.
A short face repeats its last node; the triangles that it adds have no area.
"""
import numpy as np

from .command import blocks

EARTH_RADIUS = 6_371_220.0  # metres, as in climate models

BLOCK = 20_000  # faces that are held in working arrays at one time


def unit(vectors):
    """Vectors scaled to length 1."""
    return vectors / np.linalg.norm(vectors, axis=-1, keepdims=True)


def direction(longitude, latitude):
    """The unit vectors at longitudes and latitudes in radians."""
    ring = np.cos(latitude)
    return np.stack([ring * np.cos(longitude), ring * np.sin(longitude), np.sin(latitude)], axis=-1)


def longitude_latitude(vectors):
    """Longitudes from 0 to 360 and latitudes, in degrees, of vectors of any length."""
    x, y, z = np.moveaxis(np.asarray(vectors, dtype=float), -1, 0)
    longitude = np.degrees(np.arctan2(y, x)) % 360.0
    return np.where(longitude == 360.0, 0.0, longitude), np.degrees(np.arctan2(z, np.hypot(x, y)))


def angle(first, second):
    """The angles between vectors, in radians; exact to rounding for the smallest too."""
    crossed = np.linalg.norm(np.cross(first, second), axis=-1)
    return np.arctan2(crossed, np.sum(first * second, axis=-1))


def triangle_area(a, b, c):
    """The solid angle of triangles of vectors, after van Oosterom and Strackee (1983).

    The determinant is taken over differences, so that small triangles lose no digits.
    """
    det = np.sum(a * np.cross(b - a, c - a), axis=-1)
    la, lb, lc = (np.linalg.norm(v, axis=-1) for v in (a, b, c))
    ab, bc, ca = (np.sum(v * w, axis=-1) for v, w in ((a, b), (b, c), (c, a)))
    return 2.0 * np.arctan2(det, la * lb * lc + ab * lc + bc * la + ca * lb)


def face_areas(nodes, corners):
    """The area of each face on the unit sphere, as a fan of triangles from its first node."""
    nodes = np.asarray(nodes, dtype=float)
    areas = np.zeros(len(corners))
    for block in blocks(len(corners), BLOCK, "areas"):
        face = nodes[corners[block]]
        for t in range(1, corners.shape[1] - 1):
            areas[block] += triangle_area(face[:, 0], face[:, t], face[:, t + 1])
    return areas


def _triangle_points(order):
    """Points and weights over the triangle of (u, v) with u, v and 1 - u - v from 0 to 1."""
    line, weight = np.polynomial.legendre.leggauss(order)
    line, weight = (line + 1) / 2, weight / 2
    u, s = np.meshgrid(line, line, indexing="ij")
    return u.ravel(), ((1 - u) * s).ravel(), (np.outer(weight, weight) * (1 - u)).ravel()


def face_integrals(nodes, corners, function, order=6):
    """The integral of `function` of a unit vector over each face, and the integral of 1.

    Each triangle of the fan is projected from the plane of its nodes, by Gauss and Legendre's
    points; a triangle of unit vectors a, b, c with x in its plane has the area det(a, b, c) / |x|^3.
    """
    nodes = unit(np.asarray(nodes, dtype=float))
    u, v, weights = _triangle_points(order)
    total, area = np.zeros(len(corners)), np.zeros(len(corners))
    for block in blocks(len(corners), BLOCK // 10, "face averages"):
        face = nodes[corners[block]]
        a = face[:, :1]
        for t in range(1, corners.shape[1] - 1):
            b, c = face[:, t : t + 1], face[:, t + 1 : t + 2]
            det = np.sum(a * np.cross(b - a, c - a), axis=-1)
            if not np.any(det):
                continue
            x = a + (b - a) * u[:, None] + (c - a) * v[:, None]
            length = np.linalg.norm(x, axis=-1)
            element = weights * det / length**3
            total[block] += np.sum(element * function(x / length[..., None]), axis=1)
            area[block] += np.sum(element, axis=1)
    return total, area


def face_averages(nodes, corners, function, order=6):
    """The average of `function` over each face."""
    total, area = face_integrals(nodes, corners, function, order)
    return total / area


def face_centres(nodes, corners):
    """A direction in the middle of each face: the mean of its triangles' centres by their areas."""
    nodes = unit(np.asarray(nodes, dtype=float))
    centres = np.zeros((len(corners), 3))
    for block in blocks(len(corners), BLOCK, "centres"):
        face = nodes[corners[block]]
        for t in range(1, corners.shape[1] - 1):
            a, b, c = face[:, 0], face[:, t], face[:, t + 1]
            centres[block] += triangle_area(a, b, c)[:, None] * (a + b + c)
    return unit(centres)
