"""Bits as strings of 0 and 1: the standard's codes, bytes made of them, and bytes escaped."""
import re


def u(n, value):
    return format(value, f"0{n}b") if n else ""


def ue(value):
    digits = bin(value + 1)[2:]
    return "0" * (len(digits) - 1) + digits


def se(value):
    return ue(2 * value - 1 if value > 0 else -2 * value)


def packed(bits):
    """The bits as bytes, with zeros up to the last byte's end."""
    size = -(-len(bits) // 8)
    return int(bits.ljust(8 * size, "0"), 2).to_bytes(size, "big") if bits else b""


def escaped(body):
    """A 03 wherever the body would otherwise hold 00 00 followed by 00 to 03."""
    return re.sub(rb"\0\0(?=[\0-\3])", b"\0\0\3", body)
