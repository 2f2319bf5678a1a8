"""A Float64 and its 64 bits, which the other modules hold for it."""
import math
import struct


def float_of(bits):
    return struct.unpack("<d", bits.to_bytes(8, "little"))[0]


def bits_of(number):
    """The bits of a float, or of the float nearest to an integer; of two that are equally near, the even one."""
    return int.from_bytes(struct.pack("<d", number), "little")


def name_of(bits):
    """NaN, infinity or -infinity; None for a number."""
    f = float_of(bits)
    if math.isnan(f):
        return "NaN"
    return None if math.isfinite(f) else "infinity" if f > 0 else "-infinity"


def whole_part(bits):
    """The fraction is dropped toward zero; None if there is no number."""
    return int(float_of(bits)) if name_of(bits) is None else None
