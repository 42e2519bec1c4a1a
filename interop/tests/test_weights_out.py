"""Weight files: other tools remap with them to what ApplyOfflineMap gives."""
import netCDF4
import numpy as np
import pytest
from conftest import values

from interop import mesh

MESHES = {
    "cube": ("GenerateCSMesh", "--res", 10),
    "ring": ("GenerateRLLMesh", "--lon", 36, "--lat", 18),
    "dual": ("GenerateICOMesh", "--res", 8, "--dual"),
}


def carried(tools, source, target):
    """A field of `source` carried over to `target`, as r.nc, with its map and packed form."""
    for name, file in ((source, "a.g"), (target, "b.g")):
        tools.tempest(*MESHES[name], "--file", file)
    tools.map_of("a.g", "b.g")
    tools.interop("sample_field", "a.g", "f.nc", "--field", "vortex")
    tools.tempest(
        "ApplyOfflineMap",
        "--map",
        "map.nc",
        "--var",
        "psi",
        "--in_data",
        "f.nc",
        "--out_data",
        "o.nc",
    )
    tools.interop(
        "field_out",
        "o.nc",
        "r.nc",
        "--var",
        "psi",
        "--map",
        "map.nc",
        "--mesh",
        "b.g",
        "--like",
        "f.nc",
    )
    return values(tools.path("r.nc"), "psi").ravel()


@pytest.mark.parametrize(
    "source, target", [("cube", "ring"), ("ring", "cube"), ("dual", "ring"), ("cube", "dual")]
)
def test_cdo_remaps_to_the_same_field(tools, source, target):
    wanted = carried(tools, source, target)
    tools.interop(
        "weights_out", "map.nc", "w.nc", "--source", "a.g", "--target", "b.g", "--style", "scrip"
    )
    tools.other("cdo", "-s", "-b", "F64", "remap,r.nc,w.nc", "f.nc", "cdo.nc")
    assert values(tools.path("cdo.nc"), "psi").ravel() == pytest.approx(wanted, abs=1e-12)


@pytest.mark.parametrize("source, target", [("cube", "ring"), ("cube", "dual")])
def test_ncks_remaps_to_the_same_field(tools, source, target):
    wanted = carried(tools, source, target)
    tools.interop(
        "weights_out", "map.nc", "w.nc", "--source", "a.g", "--target", "b.g", "--style", "esmf"
    )
    tools.other("ncpdq", "-O", "-U", "f.nc", "plain.nc")
    tools.other("ncks", "-O", "-C", "-v", "psi", "--map=w.nc", "plain.nc", "nco.nc")
    assert values(tools.path("nco.nc"), "psi").ravel() == pytest.approx(wanted, abs=1e-12)


def test_both_styles_hold_one_map(cube_and_ring):
    tools = cube_and_ring
    tools.map_of("a.g", "b.g")
    for style in ("scrip", "esmf"):
        tools.interop(
            "weights_out",
            "map.nc",
            f"{style}.nc",
            "--source",
            "a.g",
            "--target",
            "b.g",
            "--style",
            style,
        )
    matrix = np.zeros((2, 648, 600))
    with netCDF4.Dataset(tools.path("scrip.nc")) as file:
        matrix[0, file["dst_address"][:] - 1, file["src_address"][:] - 1] = file["remap_matrix"][
            :, 0
        ]
        assert file["dst_grid_dims"][:].tolist() == [36, 18] and file["src_grid_dims"][
            :
        ].tolist() == [600]
    with netCDF4.Dataset(tools.path("esmf.nc")) as file:
        file.set_auto_mask(False)
        matrix[1, file["row"][:] - 1, file["col"][:] - 1] = file["S"][:]
        area_a, area_b, frac_b = (file[name][:] for name in ("area_a", "area_b", "frac_b"))
        assert file["yc_b"][0] < -80 and file["yv_b"][0].min() == pytest.approx(-90.0)
    assert np.array_equal(matrix[0], matrix[1])
    # consistent, conservative, and over areas that fill the sphere
    assert matrix[0].sum(axis=1) == pytest.approx(np.ones(648), abs=1e-14)
    assert (area_b * frac_b) @ matrix[0] == pytest.approx(area_a, rel=1e-13)
    assert area_a.sum() == pytest.approx(4 * np.pi, rel=1e-6)


def test_a_target_that_is_covered_in_part(tools):
    """The northern panel of a cube over the four northern octants, of which it covers the middle."""
    tools.tempest("GenerateCSMesh", "--res", 4, "--file", "cube.g")
    tools.tempest("GenerateRLLMesh", "--lon", 4, "--lat", 2, "--file", "octants.g")
    for name, out, kept in (("cube.g", "a.g", slice(64, 80)), ("octants.g", "b.g", slice(4, 8))):
        whole = mesh.read_mesh(tools.path(name))
        part = mesh.Mesh(whole.nodes, whole.corners[kept], whole.sizes[kept])
        mesh.write_mesh(tools.path(out), part)
    tools.map_of("a.g", "b.g")
    words = ("map.nc", "w.nc", "--source", "a.g", "--target", "b.g", "--style", "esmf")
    tools.interop("weights_out", *words)
    with netCDF4.Dataset(tools.path("w.nc")) as file:
        file.set_auto_mask(False)
        names = ("area_a", "frac_a", "area_b", "frac_b", "S", "row")
        area_a, frac_a, area_b, frac_b, weights, row = (file[name][...] for name in names)
    assert np.all(frac_a == 1.0) and area_a.sum() == pytest.approx(4 * np.pi / 6, rel=1e-6)
    assert area_b == pytest.approx(np.pi / 2, rel=1e-9)
    assert frac_b == pytest.approx(1.0 / 3.0, rel=1e-6)
    assert np.bincount(row - 1, weights) == pytest.approx(1.0)


def test_a_map_of_other_meshes_is_refused(cube_and_ring):
    cube_and_ring.map_of("a.g", "b.g")
    said = cube_and_ring.refused(
        "weights_out", "map.nc", "w.nc", "--source", "b.g", "--target", "b.g"
    )
    assert said == "weights_out: map.nc: 600 source faces, and the source mesh has 648\n"
