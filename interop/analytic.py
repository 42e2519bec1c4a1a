"""The three test fields of Ullrich and Taylor (2015), as functions of unit vectors.

P. A. Ullrich and M. A. Taylor, Arbitrary-Order Conservative and Consistent Remapping and a Theory of
Linear Maps: Part I. Monthly Weather Review 143 (2015). The vortex is that of Nair and Machenhauer
(2002), with the pole, time and width that the paper takes.
"""
import numpy as np


def _angles(x):
    return np.arctan2(x[..., 1], x[..., 0]), np.arcsin(np.clip(x[..., 2], -1.0, 1.0))


def smooth_harmonic(x):
    """2 + cos^2(latitude) cos(2 longitude): the shape of Y_2^2."""
    longitude, latitude = _angles(x)
    return 2.0 + np.cos(latitude) ** 2 * np.cos(2.0 * longitude)


def steep_harmonic(x):
    """2 + sin^16(2 latitude) cos(16 longitude): the shape of Y_32^16."""
    longitude, latitude = _angles(x)
    return 2.0 + np.sin(2.0 * latitude) ** 16 * np.cos(16.0 * longitude)


def vortex(x):
    """1 - tanh(r / d sin(longitude' - w t)) about a pole at longitude 0, latitude 0.6."""
    pole, radius, width, time = 0.6, 3.0, 5.0, 6.0
    # longitude and latitude about the vortex's own pole
    south = np.sin(pole) * x[..., 0] - np.cos(pole) * x[..., 2]
    height = np.sin(pole) * x[..., 2] + np.cos(pole) * x[..., 0]
    longitude = np.arctan2(x[..., 1], south)
    r = radius * np.sqrt(np.clip(1.0 - height**2, 0.0, None))
    speed = 1.5 * np.sqrt(3.0) * np.tanh(r) / np.cosh(r) ** 2
    turn = np.divide(speed, r, out=np.zeros_like(r), where=r != 0)
    return 1.0 - np.tanh(r / width * np.sin(longitude - turn * time))


FIELDS = {
    "harmonic2": (smooth_harmonic, "smooth harmonic, 2 + cos^2(lat) cos(2 lon)"),
    "harmonic32": (steep_harmonic, "steep harmonic, 2 + sin^16(2 lat) cos(16 lon)"),
    "vortex": (vortex, "vortex, 1 - tanh(r / 5 sin(lon' - 6 w))"),
}
