"""Faces as polygons in the plane: on a globe seen from afar, or on a map by longitude and latitude."""
import numpy as np

from .command import Progress
from .sphere import longitude_latitude, unit

ARC = np.radians(2.0)  # an edge is drawn in parts no longer than this


def outline(nodes):
    """The points of a face's boundary, with as many along each arc as its length asks for."""
    points = []
    for a, b in zip(nodes, np.roll(nodes, -1, axis=0)):
        parts = max(1, int(np.ceil(np.arccos(np.clip(a @ b, -1.0, 1.0)) / ARC)))
        points.append(a + (b - a) * (np.arange(parts) / parts)[:, None])
    return unit(np.concatenate(points))


def outlines(nodes, corners):
    """The outline of each face; a face of short arcs has its nodes for that."""
    nodes, progress = unit(np.asarray(nodes, dtype=float)), Progress("outlines", len(corners))
    faces = nodes[corners]
    chords = np.linalg.norm(faces - np.roll(faces, -1, axis=1), axis=2)
    sizes = 1 + np.count_nonzero(corners[:, 1:] != corners[:, :-1], axis=1)  # the rest is padding
    for face, size, short in zip(faces, sizes, np.all(chords < ARC, axis=1)):
        yield face[:size] if short else outline(face[:size])
        progress.step()


class Globe:
    """The sphere from afar, with the direction (longitude, latitude) in the middle."""

    limits = (-1.02, 1.02, -1.02, 1.02)

    def __init__(self, longitude, latitude):
        east, north = np.radians([longitude, latitude])
        ahead = np.array(
            [np.cos(north) * np.cos(east), np.cos(north) * np.sin(east), np.sin(north)]
        )
        right = np.array([-np.sin(east), np.cos(east), 0.0])
        self.axes = np.stack([right, np.cross(ahead, right), ahead])

    def polygons(self, points):
        """The face in the plane, where some of it is in front; what of it is behind is pushed to the rim."""
        x, y, depth = self.axes @ points.T
        if np.all(depth <= 0):
            return []
        hidden, size = depth < 0, np.maximum(np.hypot(x, y), 1e-12)
        x, y = np.where(hidden, x / size, x), np.where(hidden, y / size, y)
        return [np.stack([x, y], axis=1)]


class Chart:
    """Longitude from -180 to 180 and latitude; a face over the edge of the map is drawn at both."""

    limits = (-180.0, 180.0, -90.0, 90.0)

    def polygons(self, points):
        longitude, latitude = longitude_latitude(points)
        longitude = (longitude + 180.0) % 360.0 - 180.0
        pole = np.abs(latitude) > 90.0 - 1e-6
        if np.any(pole):
            longitude, latitude = _without_pole(longitude, latitude, pole)
        steps = _steps(longitude)
        round_pole = abs(steps.sum()) > 180.0
        if round_pole:  # begun at the map's edge, so that it can be closed along it
            begin = -np.argmin(longitude)
            longitude, latitude = np.roll(longitude, begin), np.roll(latitude, begin)
            steps = _steps(longitude)
        east = longitude[0] + np.concatenate([[0.0], np.cumsum(steps)])
        if round_pole:
            north = np.sign(latitude.sum()) * 90.0
            east, latitude = np.append(east, [east[-1], east[0]]), np.append(
                latitude, [latitude[0], north, north]
            )
        else:
            east = east[:-1]
        shifts = range(
            int(np.floor((east.min() + 180) / 360)), int(np.floor((east.max() + 180) / 360)) + 1
        )
        return [np.stack([east - 360.0 * shift, latitude], axis=1) for shift in shifts]


def _steps(longitude):
    """The way east from each longitude to the next, cyclically, from -180 to 180 degrees."""
    return (np.diff(longitude, append=longitude[:1]) + 180.0) % 360.0 - 180.0


def _without_pole(longitude, latitude, pole):
    """A node at a pole as two points, with the longitudes of the points before and after it."""
    east, north = [], []
    for t in range(len(longitude)):
        if not pole[t]:
            east.append(longitude[t]), north.append(latitude[t])
            continue
        for beside in (t - 1, (t + 1) % len(longitude)):
            east.append(longitude[beside]), north.append(np.sign(latitude[t]) * 90.0)
    return np.array(east), np.array(north)


def polygons(nodes, corners, view):
    """All polygons of the faces in a view, and of which face each of them is."""
    shapes, faces = [], []
    for face, points in enumerate(outlines(nodes, corners)):
        for shape in view.polygons(points):
            shapes.append(shape)
            faces.append(face)
    return shapes, np.array(faces, dtype=int)
