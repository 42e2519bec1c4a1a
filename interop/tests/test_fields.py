"""Real-valued fields go in packed and come out with metadata, whole and masked."""
import netCDF4
import numpy as np
import pytest
from conftest import values

from interop import fields, maps


def test_packing_moves_no_value_by_more_than_half_a_unit():
    given = np.random.default_rng(3).normal(280.0, 30.0, 1000)
    scale, offset = fields.scaling(given)
    packed = fields.pack(given, scale, offset)
    assert packed.min() == -fields.GREATEST or packed.max() == fields.GREATEST
    back = fields.unpack(packed.astype(float), np.zeros(1000), 1, scale, offset)
    assert np.abs(back - given).max() <= 0.5001 * scale


def test_a_constant_field_is_kept():
    scale, offset = fields.scaling(np.full(4, 7.5))
    assert fields.pack(np.full(4, 7.5), scale, offset).tolist() == [0, 0, 0, 0]
    assert offset == 7.5


def test_a_value_out_of_range_is_refused():
    with pytest.raises(fields.Fault):
        fields.pack(np.array([1e10]), 1.0, 0.0)


def real_field(path, count, missing=()):
    """Two records of a temperature on so many cells, in a file of netCDF-4."""
    given = 250.0 + 50.0 * np.random.default_rng(4).random((2, count))
    with netCDF4.Dataset(path, "w") as file:
        file.createDimension("time", None)
        file.createDimension("cell", count)
        time = file.createVariable("time", "f8", ("time",))
        time.units, time.calendar = "days since 2000-01-01", "standard"
        time[:] = [0.0, 31.0]
        field = file.createVariable("tas", "f4", ("time", "cell"), fill_value=1e20)
        field.setncatts(
            {"units": "K", "standard_name": "air_temperature", "long_name": "air temperature"}
        )
        given[:, list(missing)] = np.nan
        field[:] = np.ma.masked_invalid(given)
    return values(path, "tas")


def test_a_field_with_records_goes_through(cube_and_ring):
    tools = cube_and_ring
    given = real_field(tools.path("tas.nc"), 600)
    said = tools.interop("field_in", "tas.nc", "packed.nc", "--var", "tas", "--mesh", "a.g")
    assert said.endswith("missing 0")
    tools.map_of("a.g", "b.g")
    tools.tempest(
        "ApplyOfflineMap",
        "--map",
        "map.nc",
        "--var",
        "tas",
        "--in_data",
        "packed.nc",
        "--out_data",
        "out.nc",
    )
    tools.interop(
        "field_out",
        "out.nc",
        "real.nc",
        "--var",
        "tas",
        "--map",
        "map.nc",
        "--mesh",
        "b.g",
        "--like",
        "packed.nc",
    )
    found = maps.read_map(tools.path("map.nc"))
    wanted = np.stack([found.apply(record) for record in given])
    assert values(tools.path("real.nc"), "tas").reshape(2, -1) == pytest.approx(wanted, abs=1e-7)
    with netCDF4.Dataset(tools.path("real.nc")) as file:
        field = file["tas"]
        assert field.dimensions == ("time", "lat", "lon") and field.units == "K"
        assert field.standard_name == "air_temperature"
        assert file["time"].units == "days since 2000-01-01" and file["time"][:].tolist() == [
            0.0,
            31.0,
        ]
        assert file["lat"].units == "degrees_north" and file["lat"][0] == pytest.approx(
            -85.0, abs=1e-3
        )
        assert np.asarray(file["lon"][:]) == pytest.approx(np.arange(36) * 10.0 + 5.0, abs=1e-3)


def test_other_tools_read_the_field(cube_and_ring):
    tools = cube_and_ring
    tools.interop("sample_field", "a.g", "f.nc", "--field", "vortex")
    tools.map_of("a.g", "b.g")
    tools.tempest(
        "ApplyOfflineMap",
        "--map",
        "map.nc",
        "--var",
        "psi",
        "--in_data",
        "f.nc",
        "--out_data",
        "o.nc",
    )
    tools.interop(
        "field_out",
        "o.nc",
        "r.nc",
        "--var",
        "psi",
        "--map",
        "map.nc",
        "--mesh",
        "b.g",
        "--like",
        "f.nc",
    )
    shown = tools.other("cdo", "-s", "sinfov", "r.nc")
    assert "lonlat" in shown and "points=648 (36x18)" in shown
    assert "points=600  nvertex=4" in tools.other("cdo", "-s", "sinfov", "f.nc")
    xarray = pytest.importorskip("xarray")
    with xarray.open_dataset(tools.path("r.nc")) as data:
        assert data["psi"].dims == ("lat", "lon") and data["psi"].shape == (18, 36)
        assert set(data["psi"].coords) == {"lat", "lon"}


def test_masked_values_stay_out(cube_and_ring):
    tools = cube_and_ring
    missing = range(0, 300)
    given = real_field(tools.path("tas.nc"), 600, missing)
    assert tools.interop("field_in", "tas.nc", "p.nc", "--var", "tas").endswith("missing 600")
    tools.map_of("a.g", "b.g")
    tools.tempest(
        "ApplyOfflineMap",
        "--masked",
        "--map",
        "map.nc",
        "--var",
        "tas",
        "--in_data",
        "p.nc",
        "--out_data",
        "o.nc",
    )
    tools.interop(
        "field_out",
        "o.nc",
        "r.nc",
        "--var",
        "tas",
        "--map",
        "map.nc",
        "--mesh",
        "b.g",
        "--like",
        "p.nc",
    )
    found, there = maps.read_map(tools.path("map.nc")), np.isfinite(given[0])
    part = np.bincount(found.target, found.measure * there[found.source], 648)
    sums = np.bincount(
        found.target, found.measure * np.where(there, given[0], 0.0)[found.source], 648
    )
    with np.errstate(invalid="ignore"):
        wanted = sums / part
    result = values(tools.path("r.nc"), "tas")[0].ravel()
    assert np.array_equal(np.isnan(result), part == 0) and np.any(part == 0)
    assert result[part > 0] == pytest.approx(wanted[part > 0], abs=1e-6)


def test_a_chosen_scale_gives_round_numbers(tools):
    real_field(tools.path("tas.nc"), 6)
    tools.interop("field_in", "tas.nc", "p.nc", "--var", "tas", "--scale", 0.01, "--offset", 273.15)
    with netCDF4.Dataset(tools.path("p.nc")) as file:
        file.set_auto_maskandscale(False)
        assert file["tas"].scale_factor == 0.01 and file["tas"].dtype == np.int32
        assert file.data_model == "NETCDF3_64BIT_DATA" and file.dimensions["time"].isunlimited()
        packed = file["tas"][...]
    assert packed * 0.01 + 273.15 == pytest.approx(values(tools.path("tas.nc"), "tas"), abs=0.00501)


def test_a_field_of_another_length_is_refused(cube_and_ring):
    real_field(cube_and_ring.path("tas.nc"), 599)
    said = cube_and_ring.refused("field_in", "tas.nc", "p.nc", "--var", "tas", "--mesh", "a.g")
    assert said == "field_in: tas.nc: tas is 2 x 599, and the mesh has 600 faces\n"
    assert "missing nothing" in cube_and_ring.refused(
        "field_in", "tas.nc", "p.nc", "--var", "nothing"
    )
