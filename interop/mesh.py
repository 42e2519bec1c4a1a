"""Meshes of whole numbers: their files, and the exact tests that the program makes of a face."""
from dataclasses import dataclass

import netCDF4
import numpy as np

from .command import Fault, blocks, open_file, values

GREATEST_COORDINATE = 262_143
MOST_NODES = 4_194_304
MOST_FACES = 1_048_576
MOST_CORNERS = 16

WHOLE_TYPES = ("i1", "i2", "i4")  # BYTE, SHORT and INT, the types that the program reads


@dataclass(frozen=True)
class Mesh:
    """Faces over nodes, counterclockwise seen from outside.

    `nodes` has a triple a row. `corners` has a face a row: the places of its nodes, from 0, padded
    with the last of them; `sizes` says how many of a row count. `grid_dims` are the lengths of the
    grid that the faces come from, as SCRIP gives them (fastest first), or None.
    """

    nodes: np.ndarray
    corners: np.ndarray
    sizes: np.ndarray
    grid_dims: tuple = None

    def __len__(self):
        return len(self.corners)


def compact(rows):
    """Rows without each number that equals the one before it, and without a last that equals the
    first: the padded corners, and how many of each row count."""
    keep = np.ones(rows.shape, dtype=bool)
    keep[:, 1:] = rows[:, 1:] != rows[:, :-1]
    # to the left, in order; then the last number that is left fills the row
    order = np.argsort(~keep, axis=1, kind="stable")
    corners = np.take_along_axis(rows, order, axis=1)
    sizes = keep.sum(axis=1)
    last = np.take_along_axis(corners, sizes[:, None] - 1, axis=1)[:, 0]
    sizes = np.where((sizes > 1) & (last == corners[:, 0]), sizes - 1, sizes)
    return _padded(corners, sizes), sizes


def _padded(corners, sizes):
    """Corners whose last number that counts fills each row, no wider than the widest face."""
    width = max(int(sizes.max(initial=1)), 1)
    places = np.minimum(np.arange(width), sizes[:, None] - 1)
    return np.take_along_axis(corners, places, axis=1)


def joined(blocks_of_rows):
    """Rows of several blocks as one array, each padded with its last number."""
    width = max(rows.shape[1] for rows in blocks_of_rows)
    wide = [
        np.pad(rows, ((0, 0), (0, width - rows.shape[1])), mode="edge") for rows in blocks_of_rows
    ]
    return np.concatenate(wide)


def connect_blocks(file):
    """The connect variables of an Exodus file, in order."""
    if "num_el_blk" not in file.dimensions:
        raise Fault(f"{file.filepath()}: missing num_el_blk")
    count = len(file.dimensions["num_el_blk"])
    if count == 0:
        raise Fault(f"{file.filepath()}: no faces")
    return [(number, values(file, f"connect{number}")) for number in range(1, count + 1)]


def coordinates(file):
    """The coordinates of an Exodus file, one node a row."""
    if "coord" in file.variables:
        name, rows = "coord", list(values(file, "coord"))
    else:
        name, rows = "coordx", [values(file, name) for name in ("coordx", "coordy", "coordz")]
    if len(rows) != 3 or len({row.shape for row in rows}) != 1 or rows[0].ndim != 1:
        raise Fault(f"{file.filepath()}: shape of {name}")
    return np.stack(rows, axis=1)


def read_mesh(path):
    """The mesh of whole numbers in the file at `path`."""
    with open_file(path) as file:
        nodes = coordinates(file)
        if nodes.dtype.str[1:] not in WHOLE_TYPES:
            raise Fault(
                f"{path}: coordinates aren't whole numbers of 32 bits (interop/mesh_in makes them)"
            )
        corners, sizes = compact(
            joined([rows for _, rows in connect_blocks(file)]).astype(np.int64) - 1
        )
        if corners.min(initial=0) < 0 or corners.max(initial=0) >= len(nodes):
            raise Fault(f"{path}: a face names a node that isn't there")
        grid = (
            tuple(int(n) for n in values(file, "grid_dims"))
            if "grid_dims" in file.variables
            else None
        )
    return Mesh(nodes.astype(np.int64), corners, sizes, grid)


def write_mesh(path, mesh):
    """Writes the mesh file that the program reads: netCDF version 2, whole numbers of 32 bits."""
    with netCDF4.Dataset(path, "w", format="NETCDF3_64BIT_OFFSET") as file:
        for name, length in (
            ("num_dim", 3),
            ("num_nodes", len(mesh.nodes)),
            ("num_elem", len(mesh)),
            ("num_el_blk", 1),
            ("num_el_in_blk1", len(mesh)),
            ("num_nod_per_el1", mesh.corners.shape[1]),
        ):
            file.createDimension(name, length)
        if mesh.grid_dims:
            file.createDimension("grid_rank", len(mesh.grid_dims))
        coord = file.createVariable("coord", "i4", ("num_dim", "num_nodes"))
        connect = file.createVariable("connect1", "i4", ("num_el_in_blk1", "num_nod_per_el1"))
        connect.elem_type = "SHELL"
        coord[:] = mesh.nodes.T
        connect[:] = mesh.corners + 1
        if mesh.grid_dims:
            # the program passes over what it doesn't need; field_out gives its fields this shape
            file.createVariable("grid_dims", "i4", ("grid_rank",))[:] = mesh.grid_dims


def not_convex(nodes, corners, sizes):
    """The places of the faces that aren't strictly convex, by whole numbers alone.

    A face is strictly convex where det(v_t, v_next, v_s) is positive for each edge (v_t, v_next) and
    each other node v_s. Components are at most 262,143 in size, so each determinant is below 2^57.
    """
    bad = []
    for size in np.unique(sizes):
        places = np.flatnonzero(sizes == size)
        for block in blocks(len(places), 50_000, "test of the faces"):
            face = nodes[corners[places[block], :size]]
            good = np.ones(len(face), dtype=bool)
            for t in range(size):
                after = (t + 1) % size
                plane = np.cross(face[:, t], face[:, after])
                others = [s for s in range(size) if s not in (t, after)]
                good &= np.all(np.einsum("fk,fsk->fs", plane, face[:, others]) > 0, axis=1)
            bad.append(places[block][~good])
    return np.sort(np.concatenate(bad)) if bad else np.zeros(0, dtype=int)
