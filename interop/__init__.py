"""Ways into tempest_remap's files and out of them, over netCDF4, numpy and matplotlib.

The programs beside this file are run by hand (`interop/mesh_in --help`); the modules are what they
share. Nothing here is proved: the proved program reads what they write, and checks it. The programs
import this package before all else, so that what is lacking is said in a line.
"""
import importlib.util
import sys

_LACKING = [
    name for name in ("netCDF4", "numpy", "matplotlib") if not importlib.util.find_spec(name)
]

if _LACKING:
    sys.exit(
        f"this Python lacks {' and '.join(_LACKING)}; interop/README.md says what must be installed"
    )
