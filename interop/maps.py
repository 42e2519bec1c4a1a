"""Overlap files and map files of the program, as arrays; numbers of faces count from 0 here."""
from dataclasses import dataclass

import numpy as np

from .command import Fault, open_file, values

STERADIANS = 2.0**-36  # the unit of measures and areas


@dataclass(frozen=True)
class Map:
    """Rows by source, then target: row r gives `measure[r] / area_b[target[r]]` of the value of its
    source to its target. Measures and areas are whole numbers of 2^-36 steradians."""

    source: np.ndarray
    target: np.ndarray
    measure: np.ndarray
    area_a: np.ndarray
    area_b: np.ndarray

    def weights(self):
        return self.measure / self.area_b[self.target]

    def apply(self, field):
        """The field carried over in double precision."""
        sums = np.bincount(self.target, self.measure * field[self.source], len(self.area_b))
        return sums / self.area_b


def read_map(path):
    """The map in the file at `path`."""
    with open_file(path) as file:
        col, row, measure, area_a, area_b = (
            np.asarray(values(file, name)).astype(np.int64)
            for name in ("col", "row", "S", "area_a", "area_b")
        )
    found = Map(col - 1, row - 1, measure, area_a, area_b)
    for numbers, areas in ((found.source, area_a), (found.target, area_b)):
        if numbers.min(initial=0) < 0 or numbers.max(initial=0) >= len(areas):
            raise Fault(f"{path}: a row names a face that isn't there")
    return found


def check_counts(path, found, source, target):
    """Stops where a map isn't one between two meshes by its counts."""
    for name, count, mesh in (
        ("source", len(found.area_a), source),
        ("target", len(found.area_b), target),
    ):
        if mesh is not None and count != len(mesh):
            raise Fault(f"{path}: {count} {name} faces, and the {name} mesh has {len(mesh)}")


@dataclass(frozen=True)
class Overlap:
    """Pieces by source, then target; the corners of piece p are those of `corners` in its row of
    `rows`, padded with the last of them."""

    source: np.ndarray
    target: np.ndarray
    corners: np.ndarray
    rows: np.ndarray


def read_overlap(path):
    """The overlap in the file at `path`."""
    with open_file(path) as file:
        if "pieces" not in file.ncattrs():
            raise Fault(f"{path}: missing pieces")
        if file.getncattr("pieces") == 0:
            return Overlap(
                *(np.zeros(0, dtype=np.int64),) * 2,
                np.zeros((0, 3)),
                np.zeros((0, 1), dtype=np.int64),
            )
        source, target, sizes = (
            values(file, name).astype(np.int64) for name in ("source", "target", "ring_size")
        )
        corners = values(file, "corner")
    if sizes.min() < 1 or sizes.sum() != len(corners):
        raise Fault(f"{path}: rings and corners don't agree")
    places = np.minimum(np.arange(sizes.max()), sizes[:, None] - 1)
    return Overlap(source - 1, target - 1, corners, places + (np.cumsum(sizes) - sizes)[:, None])
