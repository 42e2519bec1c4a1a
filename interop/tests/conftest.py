"""Runs the real program, the programs of interop, and other tools where they are installed.

The program is ./tempest at the top of the repository, or what the environment variable TEMPEST says.
"""
import os
import shlex
import shutil
import subprocess
import sys
from pathlib import Path

import netCDF4
import numpy as np
import pytest

TOP = Path(__file__).resolve().parents[2]
PROGRAM = os.path.abspath(os.environ.get("TEMPEST", TOP / "tempest"))
ALWAYS_THERE = ("GenerateCSMesh", "GenerateRLLMesh", "GenerateICOMesh", "GenerateOverlapMesh")

sys.path.insert(0, str(TOP))


class Tools:
    """Programs, run in a folder of the test's own."""

    def __init__(self, folder):
        self.folder = folder

    def path(self, name):
        return str(self.folder / name)

    def _run(self, words, status=0):
        done = subprocess.run(words, cwd=self.folder, capture_output=True, text=True)
        assert (
            done.returncode == status
        ), f"{shlex.join(map(str, words))}: {done.returncode}\n{done.stderr}"
        return done

    def tempest(self, *words):
        """The text of the program at these words; the test is skipped where it lacks the command."""
        done = subprocess.run(
            [PROGRAM, *map(str, words)], cwd=self.folder, capture_output=True, text=True
        )
        if done.returncode == 2 and words[0] not in ALWAYS_THERE:
            pytest.skip(
                f"the program doesn't have {words[0]} {'--masked ' if '--masked' in words else ''}yet"
            )
        assert done.returncode == 0, f"{words[0]}: {done.returncode} {done.stderr}"
        return done.stdout.strip()

    def interop(self, name, *words):
        return self._run([sys.executable, TOP / "interop" / name, *map(str, words)]).stdout.strip()

    def refused(self, name, *words):
        """The one line of a program of interop that refuses its input."""
        return self._run(
            [sys.executable, TOP / "interop" / name, *map(str, words)], status=1
        ).stderr

    def other(self, name, *words):
        if shutil.which(name) is None:
            pytest.skip(f"{name} isn't installed")
        return self._run([name, *map(str, words)]).stdout

    def map_of(self, source, target):
        """The overlap and the map of two meshes, as ab.g and map.nc."""
        self.tempest("GenerateOverlapMesh", "--a", source, "--b", target, "--out", "ab.g")
        return self.tempest(
            "GenerateOfflineMap",
            "--in_mesh",
            source,
            "--out_mesh",
            target,
            "--ov_mesh",
            "ab.g",
            "--out_map",
            "map.nc",
        )


@pytest.fixture
def tools(tmp_path):
    return Tools(tmp_path)


@pytest.fixture
def cube_and_ring(tools):
    """A cubed sphere as a.g and a latitude-longitude mesh as b.g."""
    tools.tempest("GenerateCSMesh", "--res", 10, "--file", "a.g")
    tools.tempest("GenerateRLLMesh", "--lon", 36, "--lat", 18, "--file", "b.g")
    return tools


def floating_exodus(path, nodes, blocks, edge_type=None):
    """An Exodus mesh with floating-point coordinates, as the usual tool writes it; rows from 1."""
    with netCDF4.Dataset(path, "w", format="NETCDF3_64BIT_OFFSET") as file:
        for name, length in (
            ("num_dim", 3),
            ("num_nodes", len(nodes)),
            ("num_el_blk", len(blocks)),
        ):
            file.createDimension(name, length)
        file.createDimension("num_elem", sum(map(len, blocks)))
        for number, rows in enumerate(blocks, 1):
            shape = (f"num_el_in_blk{number}", f"num_nod_per_el{number}")
            for name, length in zip(shape, np.shape(rows)):
                file.createDimension(name, length)
            file.createVariable(f"connect{number}", "i4", shape)[:] = rows
            if edge_type is not None:
                file.createVariable(f"edge_type{number}", "i4", shape)[:] = edge_type
        for place, name in enumerate(("coordx", "coordy", "coordz")):
            file.createVariable(name, "f8", ("num_nodes",))[:] = np.asarray(nodes)[:, place]


def values(path, name):
    """The values of a variable as real numbers, unpacked, NaN where missing."""
    with netCDF4.Dataset(path) as file:
        return np.ma.filled(np.ma.asarray(file[name][...]).astype(float), np.nan)
