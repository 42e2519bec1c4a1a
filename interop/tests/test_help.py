"""Each program says what it does and what it takes."""
import pytest
from conftest import TOP

PROGRAMS = ("mesh_in", "sample_field", "field_in", "field_out", "weights_out", "plot", "check")


@pytest.mark.parametrize("name", PROGRAMS)
def test_help(tools, name):
    text = tools.interop(name, "--help")
    assert text.startswith(f"usage: {name} ") and f"interop/{name} " in text


def test_each_program_is_listed_in_the_readme():
    text = (TOP / "interop" / "README.md").read_text()
    assert all(f"`{name}`" in text for name in PROGRAMS)
