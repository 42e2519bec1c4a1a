"""The accuracy of maps, as interop/check tells it."""
import pytest


def table(text):
    """The rows of the Markdown tables, by their first cell."""
    rows = [
        [cell.strip() for cell in line.strip("| ").split("|")]
        for line in text.splitlines()
        if line.startswith("|")
    ]
    return {
        row[0]: [float(cell) for cell in row[1:]]
        for row in rows
        if row[1][0] in "-0123456789" and "---" not in row[1]
    }


def test_a_mesh_over_itself_changes_nothing(tools):
    tools.tempest("GenerateRLLMesh", "--lon", 4, "--lat", 2, "--file", "a.g")
    tools.map_of("a.g", "a.g")
    rows = table(tools.interop("check", "a.g", "a.g", "ab.g", "map.nc"))
    assert rows["consistency: greatest distance of a target's weights from the sum 1"] == [0.0]
    assert rows["least weight"] == [1.0]
    assert rows["vortex"] == pytest.approx([0.0] * 5, abs=1e-14)
    assert rows["all areas together: distance from 4 pi, as a part of it"][0] < 1e-6


def test_norms_fall_with_the_width_of_the_source(tools):
    found = []
    tools.tempest("GenerateRLLMesh", "--lon", 36, "--lat", 18, "--file", "b.g")
    for resolution in (10, 20):
        tools.tempest("GenerateCSMesh", "--res", resolution, "--file", "a.g")
        tools.map_of("a.g", "b.g")
        found.append(table(tools.interop("check", "a.g", "b.g", "ab.g", "map.nc")))
    for rows in found:
        assert (
            rows["consistency: greatest distance of a target's weights from the sum 1"][0] < 1e-15
        )
        assert (
            rows[
                "conservation: greatest part of a source's area (the map's) that is lost or added"
            ][0]
            < 1e-15
        )
        assert (
            rows["weights: greatest distance from piece area / target area, in double precision"][0]
            < 1e-5
        )
        # no new extremes: the least value doesn't fall, the greatest doesn't rise
        assert all(
            rows[field][3] >= -1e-12 and rows[field][4] <= 1e-12
            for field in ("smooth harmonic", "steep harmonic")
        )
    for field in ("smooth harmonic", "steep harmonic", "vortex"):
        assert found[1][field][1] < 0.8 * found[0][field][1]


def test_an_overlap_of_another_map_is_refused(cube_and_ring):
    cube_and_ring.map_of("a.g", "b.g")
    cube_and_ring.tempest("GenerateOverlapMesh", "--a", "b.g", "--b", "a.g", "--out", "ba.g")
    said = cube_and_ring.refused("check", "a.g", "b.g", "ba.g", "map.nc")
    assert said == "check: map.nc: its rows aren't the pieces of ba.g\n"
