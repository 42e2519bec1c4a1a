"""Meshes of other tools: Exodus with floating-point coordinates, SCRIP grid files, UGRID meshes.

Each reader gives unit vectors and, for each face, the places of its corners among them, from 0.
"""
from dataclasses import dataclass, field

import numpy as np

from .command import Fault, open_file, values
from .mesh import connect_blocks, coordinates, joined
from .sphere import direction, unit


@dataclass
class Source:
    """A mesh as another tool wrote it. `notes` say what of the file isn't taken as it stands."""

    points: np.ndarray
    rows: np.ndarray
    kind: str
    grid_dims: tuple = None
    notes: list = field(default_factory=list)


def read_source(path, kind=None, topology=None):
    """The mesh in the file at `path`, by its kind or by what the file holds."""
    with open_file(path) as file:
        kind = kind or _kind_of(file)
        if kind == "exodus":
            return _exodus(file)
        if kind == "scrip":
            return _scrip(file)
        if kind == "ugrid":
            return _ugrid(file, topology)
    raise Fault(f"{path}: no mesh of Exodus, SCRIP or UGRID by its names")


def _kind_of(file):
    if "grid_corner_lat" in file.variables:
        return "scrip"
    if _topologies(file):
        return "ugrid"
    if "coord" in file.variables or "coordx" in file.variables:
        return "exodus"
    return None


# Exodus II, as TempestRemap writes it


def _exodus(file):
    nodes = np.asarray(coordinates(file), dtype=float)
    lengths = np.linalg.norm(nodes, axis=1)
    wrong = np.flatnonzero(~(np.isfinite(lengths) & (lengths > 0)))
    if len(wrong):
        raise Fault(f"{file.filepath()}: node {wrong[0] + 1} has no direction")
    rows = [_rectangle(file, number, rows) for number, rows in connect_blocks(file)]
    source = Source(unit(nodes), _checked(file, _filled(joined(rows)), len(nodes)), "exodus")
    curved = sum(
        int(np.count_nonzero(values(file, name)))
        for name in file.variables
        if name.startswith("edge_type")
    )
    if curved:
        source.notes.append(f"{curved} edges along parallels are taken as great circles")
    return source


def _rectangle(file, number, rows):
    """The rows of a block from 0; those of a block of faces of many sizes (NSIDED) are parted."""
    rows = np.asarray(rows, dtype=np.int64) - 1
    if rows.ndim == 2:
        return rows
    sizes = np.asarray(values(file, f"ebepecnt{number}"), dtype=np.int64)
    if rows.ndim != 1 or sizes.sum() != len(rows) or sizes.min(initial=1) < 1:
        raise Fault(f"{file.filepath()}: connect{number} and ebepecnt{number} don't agree")
    places = np.minimum(np.arange(sizes.max()), sizes[:, None] - 1)
    return rows[places + (np.cumsum(sizes) - sizes)[:, None]]


# SCRIP grid files


def _scrip(file):
    latitude = _radians(file, "grid_corner_lat")
    longitude = _radians(file, "grid_corner_lon")
    if latitude.shape != longitude.shape or latitude.ndim < 2:
        raise Fault(f"{file.filepath()}: shape of grid_corner_lat")
    width = latitude.shape[-1]
    points = direction(longitude.ravel(), latitude.ravel())
    _check_finite(file, points, width)
    source = Source(points, np.arange(len(points)).reshape(-1, width), "scrip")
    if "grid_dims" in file.variables:
        source.grid_dims = tuple(int(n) for n in values(file, "grid_dims"))
    if "grid_imask" in file.variables:
        masked = int(np.count_nonzero(values(file, "grid_imask") == 0))
        if masked:
            source.notes.append(f"{masked} masked cells are kept as faces; mask the field instead")
    return source


def _radians(file, name):
    """A variable of angles in radians; the file says its unit, and degrees are taken without one."""
    angles = np.asarray(values(file, name), dtype=float)
    units = str(getattr(file.variables[name], "units", "degrees"))
    return angles if units.lower().startswith("rad") else np.radians(angles)


def _check_finite(file, points, width):
    wrong = np.flatnonzero(~np.all(np.isfinite(points), axis=1))
    if len(wrong):
        raise Fault(
            f"{file.filepath()}: face {wrong[0] // width + 1} has a corner without coordinates"
        )


# UGRID meshes


def _topologies(file):
    return [
        name
        for name, variable in file.variables.items()
        if getattr(variable, "cf_role", "") == "mesh_topology"
        and int(getattr(variable, "topology_dimension", 2)) == 2
    ]


def _ugrid(file, wanted):
    names = _topologies(file)
    if not names or (wanted and wanted not in names):
        raise Fault(f"{file.filepath()}: no mesh topology {wanted or 'of faces'}")
    if len(names) > 1 and not wanted:
        raise Fault(
            f"{file.filepath()}: several meshes, choose one by --topology: {' '.join(names)}"
        )
    topology = file.variables[wanted or names[0]]
    longitude, latitude = _node_coordinates(file, topology)
    points = direction(longitude, latitude)
    _check_finite(file, points, 1)
    return Source(
        points, _checked(file, _filled(_connectivity(file, topology)), len(points)), "ugrid"
    )


def _node_coordinates(file, topology):
    """Longitudes and latitudes of the nodes, told apart by standard name or unit."""
    found = {}
    for name in _attribute(file, topology, "node_coordinates").split():
        values(file, name)  # named where it is missing
        variable = file.variables[name]
        told = f"{getattr(variable, 'standard_name', '')} {getattr(variable, 'units', '')}".lower()
        for key, unit_name in (("longitude", "degrees_east"), ("latitude", "degrees_north")):
            if key in told or unit_name in told:
                found[key] = _radians(file, name)
    if len(found) != 2:
        raise Fault(f"{file.filepath()}: node_coordinates aren't a longitude and a latitude")
    return found["longitude"], found["latitude"]


def _connectivity(file, topology):
    """Rows of places from 0, with -1 where a row has no further node."""
    name = _attribute(file, topology, "face_node_connectivity")
    rows = np.asarray(values(file, name)).astype(np.int64)
    variable = file.variables[name]
    if rows.ndim != 2:
        raise Fault(f"{file.filepath()}: shape of {name}")
    absent = rows < 0
    if "_FillValue" in variable.ncattrs():
        absent |= rows == int(variable.getncattr("_FillValue"))
    rows = np.where(absent, -1, rows - int(getattr(variable, "start_index", 0)))
    turned = getattr(topology, "face_dimension", variable.dimensions[0]) == variable.dimensions[1]
    return rows.T if turned else rows


def _attribute(file, topology, name):
    if name not in topology.ncattrs():
        raise Fault(f"{file.filepath()}: {topology.name} has no {name}")
    return str(topology.getncattr(name))


# rows of corners


def _filled(rows):
    """Rows whose places without a node, which are below 0, repeat the node before them."""
    places = np.where(rows >= 0, np.arange(rows.shape[1]), 0)
    return np.take_along_axis(rows, np.maximum.accumulate(places, axis=1), axis=1)


def _checked(file, rows, nodes):
    wrong = np.flatnonzero(np.any((rows < 0) | (rows >= nodes), axis=1))
    if len(wrong):
        raise Fault(f"{file.filepath()}: face {wrong[0] + 1} names a node that isn't there")
    return rows
