"""Areas, averages and test fields in double precision, by facts that are known without them."""
import numpy as np
import pytest

from interop import analytic, mesh, sphere


@pytest.fixture
def cube(tools):
    tools.tempest("GenerateCSMesh", "--res", 12, "--file", "a.g")
    return mesh.read_mesh(tools.path("a.g"))


def test_an_octant_is_an_eighth():
    octant = np.eye(3)
    assert sphere.triangle_area(*octant) == pytest.approx(np.pi / 2)


def test_faces_of_a_cube_fill_the_sphere(cube):
    areas = sphere.face_areas(cube.nodes, cube.corners)
    assert areas.sum() == pytest.approx(4 * np.pi, rel=1e-13)
    _, by_points = sphere.face_integrals(cube.nodes, cube.corners, lambda x: np.ones(x.shape[:-1]))
    assert by_points == pytest.approx(areas, rel=1e-12)


def test_small_triangles_lose_no_digits():
    a = np.array([3.0, 4.0, 12.0]) / 13.0
    b, c = a + [1e-7, 0, 0], a + [0, 1e-7, 0]
    flat = 0.5 * np.linalg.norm(np.cross(b - a, c - a)) * (12.0 / 13.0)
    assert sphere.triangle_area(a, b, c) == pytest.approx(flat, rel=1e-6)


@pytest.mark.parametrize("name, mean", [("harmonic2", 2.0), ("harmonic32", 2.0), ("vortex", 1.0)])
def test_means_of_the_test_fields(cube, name, mean):
    # the parts that vary are odd about a plane or have a zero mean on each parallel
    total, area = sphere.face_integrals(cube.nodes, cube.corners, analytic.FIELDS[name][0])
    assert total.sum() / area.sum() == pytest.approx(mean, abs=2e-7)


def test_values_of_the_test_fields():
    x = sphere.direction(np.radians([0.0, 90.0, 0.0]), np.radians([0.0, 0.0, 45.0]))
    assert analytic.smooth_harmonic(x) == pytest.approx([3.0, 1.0, 2.5])
    assert analytic.steep_harmonic(x) == pytest.approx([2.0, 2.0, 3.0])
    middle = sphere.direction(np.array([0.0]), np.array([0.6]))
    assert analytic.vortex(middle) == pytest.approx([1.0])


def test_vortex_by_its_formula_about_the_pole():
    """The same field with its own pole turned to the north, by a rotation matrix."""
    generator = np.random.default_rng(2)
    x = sphere.unit(generator.normal(size=(100, 3)))
    turn = np.pi / 2 - 0.6  # about y, so that latitude 0.6 at longitude 0 becomes the north pole
    about_y = np.array(
        [[np.cos(turn), 0, -np.sin(turn)], [0, 1, 0], [np.sin(turn), 0, np.cos(turn)]]
    )
    y = x @ about_y.T
    longitude, latitude = np.arctan2(y[:, 1], y[:, 0]), np.arcsin(np.clip(y[:, 2], -1, 1))
    r = 3.0 * np.cos(latitude)
    w = 1.5 * np.sqrt(3.0) / np.cosh(r) ** 2 * np.tanh(r) / r
    assert analytic.vortex(x) == pytest.approx(1.0 - np.tanh(r / 5.0 * np.sin(longitude - 6.0 * w)))
