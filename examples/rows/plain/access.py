"""An access to one word."""

from typing import NamedTuple

LOW = 0xFFFFFFFF  # the low 32 bits


class Access(NamedTuple):
    kind: str
    address: int
    value: int = 0
    expected: int = 0


def load(address):
    return Access("load", address)


def store(address, value):
    return Access("store", address, value)


def exchange(address, expected, value):
    return Access("exchange", address, value, expected)
