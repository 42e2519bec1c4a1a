"""Real-valued fields as whole numbers of 32 bits, by scale_factor and add_offset, and back."""
import numpy as np

from .command import Fault

FILL = -(2**31)  # no packed value: those are from -(2^31 - 2) to 2^31 - 2
GREATEST = 2**31 - 2


def scaling(values, scale=None, offset=None):
    """The scale and the offset by which finite `values` fill the 32 bits, unless they are given."""
    least, greatest = (
        (float(np.min(values)), float(np.max(values))) if np.size(values) else (0.0, 0.0)
    )
    if offset is None:
        offset = 0.0 if scale is not None else least / 2 + greatest / 2
    if scale is None:
        reach = max(greatest - offset, offset - least)
        scale = reach / GREATEST if reach > 0 else 1.0
    return scale, offset


def pack(values, scale, offset):
    """Whole numbers of 32 bits; those that aren't finite become the fill value."""
    there = np.isfinite(values)
    whole = np.rint((np.where(there, values, offset) - offset) / scale)
    if np.size(whole) and np.abs(whole).max() > GREATEST:
        raise Fault(
            f"a value is out of the 32 bits at the scale {scale:g} and the offset {offset:g}"
        )
    return np.where(there, whole, FILL).astype(np.int32)


def add_packed(file, name, dimensions, values, scale, offset, attributes=None):
    """Writes `values` packed, with the attributes that say how; `_FillValue` only where one lacks."""
    packed = pack(values, scale, offset)
    fill = FILL if np.any(packed == FILL) else None
    variable = file.createVariable(name, "i4", dimensions, fill_value=fill)
    variable.set_auto_maskandscale(False)
    for key, value in (attributes or {}).items():
        variable.setncattr(key, value)
    variable.scale_factor, variable.add_offset = float(scale), float(offset)
    variable[...] = packed
    return variable


def unpack(whole, rest, part, scale, offset):
    """Real values of a field that was carried over: (whole + rest / part) scale + offset.

    `part` is the area of the target, or what of it is there in a masked field; 0 gives NaN.
    """
    with np.errstate(divide="ignore", invalid="ignore"):
        return np.where(part == 0, np.nan, (whole + rest / part) * scale + offset)
