"""The parameter sets (FIPS 205, section 11, table 2) and the modes of signing."""

from __future__ import annotations

from typing import Literal, NamedTuple, Optional

from ._errors import UnknownPrehashError, UnknownSetError

Prehash = Literal["sha256", "sha512"]


class Parameters(NamedTuple):
    """A set: its number in slh_dsa.h, its sizes, and the last arc of its object identifier."""

    name: str
    number: int
    n: int
    signature_bytes: int
    last_arc: int


SETS = {
    parameters.name: parameters
    for parameters in (
        Parameters("SLH-DSA-SHA2-128s", 1, 16, 7856, 20),
        Parameters("SLH-DSA-SHA2-128f", 2, 16, 17088, 21),
        Parameters("SLH-DSA-SHA2-192s", 3, 24, 16224, 22),
        Parameters("SLH-DSA-SHA2-192f", 4, 24, 35664, 23),
        Parameters("SLH-DSA-SHA2-256s", 5, 32, 29792, 24),
        Parameters("SLH-DSA-SHA2-256f", 6, 32, 49856, 25),
    )
}
PARAMETER_SETS = tuple(SETS)
_MODES: dict[Optional[str], int] = {None: 0, "sha256": 1, "sha512": 2}


def parameters_of(name: str) -> Parameters:
    """The set with a name."""
    if not isinstance(name, str):
        raise TypeError(f"the name of a parameter set is a str, not {type(name).__name__}")
    if name not in SETS:
        raise UnknownSetError(f"{name!r} is none of {', '.join(SETS)}")
    return SETS[name]


def mode_of(prehash: Prehash | None) -> int:
    """The number of a mode, which is pure where there is no hash function."""
    if prehash is not None and not isinstance(prehash, str):
        raise TypeError(f"prehash is a str or None, not {type(prehash).__name__}")
    if prehash not in _MODES:
        raise UnknownPrehashError(f"{prehash!r} is none of None, 'sha256' and 'sha512'")
    return _MODES[prehash]
