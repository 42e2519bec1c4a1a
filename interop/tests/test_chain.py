"""Meshes of other tools go through the whole chain: in, overlap, map, a field carried over, out."""
import netCDF4
import numpy as np
import pytest
from conftest import TOP, floating_exodus, values
from test_mesh_in import ugrid, unit_nodes

from interop import analytic, mesh, sphere


def exodus_source(tools):
    tools.tempest("GenerateCSMesh", "--res", 30, "--file", "whole.g")
    faces, nodes = unit_nodes(tools.path("whole.g"))
    floating_exodus(tools.path("in.nc"), nodes, [faces.corners + 1])


def ugrid_source(tools):
    tools.tempest("GenerateICOMesh", "--res", 24, "--dual", "--file", "whole.g")
    faces, nodes = unit_nodes(tools.path("whole.g"))
    rows = np.where(np.arange(faces.corners.shape[1]) < faces.sizes[:, None], faces.corners + 1, -1)
    ugrid(tools.path("in.nc"), nodes, rows, start=1, fill=-1)


def scrip_source(tools):
    tools.other("cdo", "-s", "-f", "nc", "topo,n32", "topo.nc")
    tools.other("cdo", "-s", "writegrid", "topo.nc", "in.nc")


@pytest.mark.parametrize("make", [exodus_source, ugrid_source, scrip_source])
def test_whole_chain(tools, make):
    make(tools)
    tools.interop("mesh_in", "in.nc", "a.g")
    tools.tempest("GenerateRLLMesh", "--lon", 72, "--lat", 36, "--file", "b.g")
    said = tools.map_of("a.g", "b.g")
    assert said.endswith(f"sources {len(mesh.read_mesh(tools.path('a.g')))} targets 2592")
    tools.interop("sample_field", "a.g", "f.nc", "--field", "harmonic2", "--var", "x")
    words = tools.tempest(
        "ApplyOfflineMap",
        "--map",
        "map.nc",
        "--var",
        "x",
        "--in_data",
        "f.nc",
        "--out_data",
        "o.nc",
    ).split()
    assert words[3] == words[5]  # the mass of the source is the mass of the target
    tools.interop(
        "field_out",
        "o.nc",
        "r.nc",
        "--var",
        "x",
        "--map",
        "map.nc",
        "--mesh",
        "b.g",
        "--like",
        "f.nc",
    )
    target = mesh.read_mesh(tools.path("b.g"))
    true = sphere.face_averages(target.nodes, target.corners, analytic.smooth_harmonic)
    carried = values(tools.path("r.nc"), "x").ravel()
    assert np.abs(carried - true).max() < 0.05
    assert 1.0 <= carried.min() and carried.max() <= 3.0
    with netCDF4.Dataset(tools.path("r.nc")) as file:
        area, mean = np.asarray(file["cell_area"][:]).ravel(), 2.0
    assert np.sum(area * carried) / area.sum() == pytest.approx(mean, abs=1e-4)


def session():
    """The commands of the README's first session, each with the output that stands below it."""
    block = (TOP / "README.md").read_text().split("```")[1:2]
    steps = []
    for line in block[0].splitlines()[1:] if block else []:
        if line.startswith("$ "):
            steps.append((line[2:].split(), []))
        elif steps:
            steps[-1][1].append(line)
    return steps


def test_session_of_the_readme(tools):
    steps = session()
    if not steps:
        pytest.skip("the README has no session")
    for words, wanted in steps:
        program, *rest = words
        if program == "./tempest":
            said = tools.tempest(*rest)
        else:
            assert program.startswith("interop/")
            said = tools.interop(program.removeprefix("interop/"), *rest)
        assert said.splitlines() == wanted
