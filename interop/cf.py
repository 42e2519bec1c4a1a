"""Faces as CF metadata has them: latitudes and longitudes with bounds, by face or by row and column."""
import numpy as np

from .sphere import face_centres, longitude_latitude

FACES = "ncol"  # the dimension of faces, by the name that the netCDF Operators look for


def rows_and_columns(mesh):
    """The least and greatest latitudes of the rows and the longitudes of the columns, where the faces
    of a mesh stand in rows of one latitude and in even columns round the sphere; else None. Rounding
    moves faces a little: a twentieth of a cell is let pass."""
    longitude, latitude = longitude_latitude(face_centres(mesh.nodes, mesh.corners))
    width = int(mesh.grid_dims[0]) if mesh.grid_dims else _first_row(latitude)
    if not 3 <= width <= len(mesh) // 2 or len(mesh) % width:
        return None
    longitude, latitude = longitude.reshape(-1, width), latitude.reshape(-1, width)
    row, step = latitude.mean(axis=1), 360.0 / width
    middle = longitude[np.argmin(np.abs(row))]
    # the columns are taken as even: their first longitude is that which fits all of them best
    first = middle[0] + np.mean(
        (middle - middle[0] - np.arange(width) * step + 180.0) % 360.0 - 180.0
    )
    column = first + np.arange(width) * step
    east = (longitude - column + 180.0) % 360.0 - 180.0
    steps = np.diff(row)
    if not (np.all(steps > 0) or np.all(steps < 0)):
        return None
    if np.abs(latitude - row[:, None]).max() > 0.05 * np.abs(steps).min():
        return None
    if np.max(np.abs(east) * np.cos(np.radians(latitude))) > 0.05 * 360.0 / width:
        return None
    return _row_edges(mesh, width), column


def _first_row(latitude):
    """How many faces from the first on have its latitude, to a hundredth of a degree."""
    other = np.flatnonzero(np.abs(latitude - latitude[0]) > 0.01)
    return int(other[0]) if len(other) else len(latitude)


def add_faces(file, mesh):
    """Writes where the faces are: the dimensions of a field on them, and its further attributes."""
    regular = rows_and_columns(mesh)
    if regular is None:
        return _by_face(file, mesh)
    rows, columns = regular
    half = 180.0 / len(columns)
    for name, centres, bounds in (
        ("lat", rows.mean(axis=1), rows),
        ("lon", columns, columns[:, None] + [[-half, half]]),
    ):
        file.createDimension(name, len(centres))
        _coordinate(file, name, (name,), centres, bounds, "bnds")
    return ("lat", "lon"), {}


def _row_edges(mesh, width):
    """The least and the greatest latitude of the nodes of each row."""
    _, latitude = longitude_latitude(mesh.nodes)
    nodes = latitude[mesh.corners].reshape(len(mesh) // width, -1)
    return np.stack([nodes.min(axis=1), nodes.max(axis=1)], axis=1)


def _by_face(file, mesh):
    file.createDimension(FACES, len(mesh))
    longitude, latitude = longitude_latitude(face_centres(mesh.nodes, mesh.corners))
    east, north = corner_bounds(mesh, longitude)
    _coordinate(file, "lat", (FACES,), latitude, north, "nv")
    _coordinate(file, "lon", (FACES,), longitude, east, "nv")
    return (FACES,), {"coordinates": "lat lon", "CDI_grid_type": "unstructured"}


def corner_bounds(mesh, centre):
    """Longitudes and latitudes of the corners of each face; a longitude is taken within half a turn
    of the face's centre, and a corner at a pole has that of the centre."""
    longitude, latitude = longitude_latitude(mesh.nodes)
    east, north = longitude[mesh.corners], latitude[mesh.corners]
    east = centre[:, None] + (east - centre[:, None] + 180.0) % 360.0 - 180.0
    return np.where(np.abs(north) > 90.0 - 1e-9, centre[:, None], east), north


def _coordinate(file, name, dimensions, centres, bounds, corner_dimension):
    axis = {"lat": ("latitude", "degrees_north"), "lon": ("longitude", "degrees_east")}[name]
    if corner_dimension not in file.dimensions:
        file.createDimension(corner_dimension, bounds.shape[1])
    variable = file.createVariable(name, "f8", dimensions)
    variable.standard_name, variable.long_name, variable.units = axis[0], axis[0], axis[1]
    variable.bounds = f"{name}_bnds"
    variable[:] = centres
    file.createVariable(f"{name}_bnds", "f8", dimensions + (corner_dimension,))[:] = bounds
