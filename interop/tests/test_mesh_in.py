"""Meshes of other tools go in: their faces, their order, and what is refused."""
import numpy as np
import netCDF4
import pytest
from conftest import floating_exodus

from interop import mesh, sphere

TURN = np.pi / 180.0


def unit_nodes(path):
    faces = mesh.read_mesh(path)
    return faces, faces.nodes / np.linalg.norm(faces.nodes, axis=1)[:, None]


def pieces_over_itself(tools, name):
    return tools.tempest("GenerateOverlapMesh", "--a", name, "--b", name, "--out", "self.g")


def test_floating_cube_as_the_usual_tool_writes_it(tools):
    tools.tempest("GenerateCSMesh", "--res", 8, "--file", "whole.g")
    faces, nodes = unit_nodes(tools.path("whole.g"))
    rows = faces.corners + 1
    rows[5] = rows[5, ::-1]  # a clockwise face
    triangle = np.array([[rows[7, 0], rows[7, 1], rows[7, 2], rows[7, 2]]])
    floating_exodus(tools.path("in.g"), nodes, [rows, triangle], edge_type=1)
    said = tools.interop("mesh_in", "in.g", "out.g").splitlines()
    moved = float(said[0].split()[-2])
    assert said[0].startswith("exodus faces 385 nodes 386 moved at most ")
    assert 0.0 < moved < np.sqrt(0.75) * sphere.EARTH_RADIUS / mesh.GREATEST_COORDINATE
    assert said[1] == "turned 1 faces, dropped corners of 1 faces"
    assert said[2] == "note: 1540 edges along parallels are taken as great circles"
    assert mesh.read_mesh(tools.path("out.g")).sizes.tolist() == [4] * 384 + [3]
    # each face meets itself, and the triangle meets its square
    assert pieces_over_itself(tools, "out.g") == "pieces 387"


def test_order_of_faces_is_kept(tools):
    tools.tempest("GenerateICOMesh", "--res", 3, "--dual", "--file", "whole.g")
    faces, nodes = unit_nodes(tools.path("whole.g"))
    floating_exodus(tools.path("in.g"), nodes, [faces.corners + 1])
    tools.interop("mesh_in", "in.g", "out.g")
    found = mesh.read_mesh(tools.path("out.g"))
    before, after = (sphere.face_centres(m.nodes, m.corners) for m in (faces, found))
    assert np.abs(before - after).max() < 1e-5
    assert np.array_equal(faces.sizes, found.sizes)


def test_scrip_grid_of_cdo(tools):
    tools.other("cdo", "-s", "-f", "nc", "topo,r36x18", "topo.nc")
    tools.other("cdo", "-s", "writegrid", "topo.nc", "scrip.nc")
    said = tools.interop("mesh_in", "scrip.nc", "out.g")
    # the corners at the poles fall together
    assert said.startswith("scrip faces 648 nodes 614 ")
    assert "dropped corners of 72 faces" in said
    assert mesh.read_mesh(tools.path("out.g")).grid_dims == (36, 18)
    assert pieces_over_itself(tools, "out.g") == "pieces 648"


def test_gaussian_scrip_grid_of_cdo_covers_the_sphere(tools):
    tools.other("cdo", "-s", "-f", "nc", "topo,n16", "topo.nc")
    tools.other("cdo", "-s", "writegrid", "topo.nc", "scrip.nc")
    tools.interop("mesh_in", "scrip.nc", "out.g")
    found = mesh.read_mesh(tools.path("out.g"))
    assert sphere.face_areas(found.nodes, found.corners).sum() == pytest.approx(4 * np.pi, rel=1e-9)


def ugrid(path, nodes, rows, start, fill, turned=False):
    longitude, latitude = sphere.longitude_latitude(nodes)
    with netCDF4.Dataset(path, "w") as file:
        file.createDimension("node", len(nodes))
        file.createDimension("face", len(rows))
        file.createDimension("corner", rows.shape[1])
        topology = file.createVariable("mesh2d", "i4", ())
        topology.setncatts(
            {
                "cf_role": "mesh_topology",
                "topology_dimension": 2,
                "node_coordinates": "nlon nlat",
                "face_node_connectivity": "fn",
                "face_dimension": "face",
            }
        )
        for name, numbers, units in (
            ("nlon", longitude, "degrees_east"),
            ("nlat", latitude, "degrees_north"),
        ):
            variable = file.createVariable(name, "f8", ("node",))
            variable.units = units
            variable[:] = numbers
        shape = ("corner", "face") if turned else ("face", "corner")
        connect = file.createVariable("fn", "i4", shape, fill_value=fill)
        connect.start_index = start
        connect[:] = rows.T if turned else rows


@pytest.mark.parametrize(
    "start, fill, turned", [(0, -1, False), (1, 99999, False), (1, -999, True)]
)
def test_ugrid_of_pentagons_and_hexagons(tools, start, fill, turned):
    tools.tempest("GenerateICOMesh", "--res", 4, "--dual", "--file", "whole.g")
    faces, nodes = unit_nodes(tools.path("whole.g"))
    rows = np.where(np.arange(6) < faces.sizes[:, None], faces.corners + start, fill)
    ugrid(tools.path("in.nc"), nodes, rows, start, fill, turned)
    assert tools.interop("mesh_in", "in.nc", "out.g").startswith("ugrid faces 162 nodes 320 ")
    assert sorted(mesh.read_mesh(tools.path("out.g")).sizes.tolist()) == [5] * 12 + [6] * 150
    assert pieces_over_itself(tools, "out.g") == "pieces 162"


def test_coarse_grid_moves_nodes_further(tools):
    tools.tempest("GenerateRLLMesh", "--lon", 12, "--lat", 6, "--file", "whole.g")
    faces, nodes = unit_nodes(tools.path("whole.g"))
    floating_exodus(tools.path("in.g"), nodes, [faces.corners + 1])
    moved = float(
        tools.interop("mesh_in", "in.g", "out.g", "--grid", 100).splitlines()[0].split()[-2]
    )
    assert 10_000 < moved < 60_000
    assert np.abs(mesh.read_mesh(tools.path("out.g")).nodes).max() == 100


def ring(count, height=0.9):
    angles = np.arange(count) * 2.0 * np.pi / count
    size = np.sqrt(1.0 - height**2)
    return np.stack([size * np.cos(angles), size * np.sin(angles), np.full(count, height)], axis=1)


def test_faces_that_the_program_refuses_are_named(tools):
    nodes = np.concatenate([ring(17), ring(5, 0.5), [[0.0, 0.0, 1.0]]])
    good = [18, 19, 20]
    rows = np.array(
        [
            list(range(1, 18)),  # 17 nodes
            good + [20] * 14,
            [18, 19, 18] + [18] * 14,  # two nodes
            [18, 19, 20, 21, 23] + [23] * 12,  # bent inward at the pole
        ]
    )
    floating_exodus(tools.path("in.g"), nodes, [rows])
    said = tools.refused("mesh_in", "in.g", "out.g")
    assert "1 faces with more than 16 nodes: 1\n" in said
    assert "1 faces with fewer than three different nodes: 3\n" in said
    assert said.endswith("1 faces not strictly convex after rounding: 4\n")
    assert not (tools.folder / "out.g").exists()


def test_a_concave_face_is_named(tools):
    nodes = np.array([[1.0, 0, 0], [1, 1, 0], [0, 1, 0], [1, 1, 1.0]])
    floating_exodus(tools.path("in.g"), nodes, [[[1, 2, 3, 4]]])
    assert "1 faces not strictly convex after rounding: 1" in tools.refused(
        "mesh_in", "in.g", "out.g"
    )


@pytest.mark.parametrize(
    "wrong, text",
    [
        (
            dict(nodes=[[0, 0, 0.0], [1, 0, 0], [0, 1, 0]], blocks=[[[1, 2, 3]]]),
            "node 1 has no direction",
        ),
        (
            dict(nodes=[[0, 0, 1.0], [1, 0, 0], [0, 1, 0]], blocks=[[[1, 2, 4]]]),
            "face 1 names a node that isn't there",
        ),
    ],
)
def test_damaged_meshes_are_refused_in_one_line(tools, wrong, text):
    floating_exodus(tools.path("in.g"), **wrong)
    assert tools.refused("mesh_in", "in.g", "out.g") == f"mesh_in: in.g: {text}\n"


def test_what_is_no_mesh_is_refused(tools):
    (tools.folder / "text").write_text("no mesh\n")
    assert tools.refused("mesh_in", "text", "out.g").startswith("mesh_in: text: ")
    assert tools.refused("mesh_in", "absent", "out.g").startswith("mesh_in: absent: ")


def test_the_exact_test_agrees_with_plain_whole_numbers():
    generator = np.random.default_rng(1)
    nodes = generator.integers(-262_143, 262_144, (3000, 3))
    corners = generator.integers(0, 3000, (500, 4))
    # faces near to flat too, whose determinants are small
    corners[:250] = np.arange(1000).reshape(250, 4)
    nodes[:1000] = (nodes[:1000] // 50_000) * 50_000 + generator.integers(-1, 2, (1000, 3))

    def det(a, b, c):
        a, b, c = (list(map(int, v)) for v in (a, b, c))
        return (
            a[0] * (b[1] * c[2] - b[2] * c[1])
            - a[1] * (b[0] * c[2] - b[2] * c[0])
            + a[2] * (b[0] * c[1] - b[1] * c[0])
        )

    def convex(face):
        return all(
            det(face[t], face[(t + 1) % 4], face[s]) > 0
            for t in range(4)
            for s in range(4)
            if s not in (t, (t + 1) % 4)
        )

    wanted = [place for place, row in enumerate(corners) if not convex(nodes[row])]
    assert mesh.not_convex(nodes, corners, np.full(500, 4)).tolist() == wanted


def test_an_exodus_file_without_coordinates_of_three_is_refused(tools):
    with netCDF4.Dataset(tools.path("in.g"), "w", format="NETCDF3_64BIT_OFFSET") as file:
        for name, length in (("num_nodes", 3), ("two", 2), ("num_el_blk", 1)):
            file.createDimension(name, length)
        file.createVariable("coord", "f8", ("two", "num_nodes"))[:] = 1.0
    assert tools.refused("mesh_in", "in.g", "out.g") == "mesh_in: in.g: shape of coord\n"
    assert tools.refused("plot", "mesh", "in.g", "out.png") == "plot: in.g: shape of coord\n"
