"""Pictures are drawn, and the polygons behind them fill the map once."""
import numpy as np
import pytest

from interop import draw, mesh

MAGIC = {".png": b"\x89PNG", ".pdf": b"%PDF"}


def drawn(tools, out, *words):
    said = tools.interop("plot", *words)
    assert (tools.folder / out).read_bytes().startswith(MAGIC[out[-4:]])
    return said


def test_mesh_overlap_and_field(cube_and_ring):
    tools = cube_and_ring
    assert (
        drawn(tools, "m.png", "mesh", "a.g", "m.png", "--globe", "30,20")
        == "mesh of 600 faces drawn"
    )
    assert drawn(tools, "m.pdf", "mesh", "b.g", "m.pdf") == "mesh of 648 faces drawn"
    pieces = tools.tempest(
        "GenerateOverlapMesh", "--a", "a.g", "--b", "b.g", "--out", "ab.g"
    ).split()[1]
    said = drawn(tools, "o.png", "overlap", "ab.g", "o.png", "--source", "a.g", "--target", "b.g")
    assert said == f"overlap of {pieces} pieces drawn"
    tools.interop("sample_field", "a.g", "f.nc", "--field", "harmonic32")
    said = drawn(
        tools, "f.png", "field", "f.nc", "f.png", "--var", "psi", "--mesh", "a.g", "--globe=-60,30"
    )
    assert said == "field of 600 values drawn"


@pytest.mark.parametrize(
    "words",
    [
        ("GenerateCSMesh", "--res", 3),
        ("GenerateCSMesh", "--res", 4),
        ("GenerateRLLMesh", "--lon", 12, "--lat", 6),
        ("GenerateICOMesh", "--res", 4, "--dual"),
    ],
)
def test_a_map_is_filled_once(tools, words):
    tools.tempest(*words, "--file", "a.g")
    faces = mesh.read_mesh(tools.path("a.g"))
    shapes, places = draw.polygons(faces.nodes, faces.corners, draw.Chart())
    # a face over the map's edge has one polygon on each side; one of them is its area
    first = np.flatnonzero(np.diff(places, prepend=-1))
    areas = [
        np.sum(x * np.roll(y, -1) - y * np.roll(x, -1)) / 2 for x, y in (shapes[p].T for p in first)
    ]
    assert min(areas) > 0
    assert sum(areas) == pytest.approx(360.0 * 180.0, rel=2e-4)


def test_a_field_of_another_mesh_is_refused(cube_and_ring):
    cube_and_ring.interop("sample_field", "a.g", "f.nc")
    said = cube_and_ring.refused("plot", "field", "f.nc", "f.png", "--var", "psi", "--mesh", "b.g")
    assert said == "plot: f.nc: psi has 600 values, and the mesh 648 faces\n"
