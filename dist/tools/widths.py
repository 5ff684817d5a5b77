"""The functions of keyed_blake3 that are there once for each width: for 4, 8 or 16 lanes. The toolchain names such an instance of a
function by a sum of its parameters."""

from __future__ import annotations

#: The name of the parameters by the number of lanes.
_PARAMETERS = {4: "#8b36ca032ac25711", 8: "#a9687390e0dd665c", 16: "#2e65a0a13cda87df"}
WIDTHS = tuple(_PARAMETERS)


def of_width(function: str, lanes: int) -> str:
    """What the instance of a function for a width is called."""
    return f"{function}::<{_PARAMETERS[lanes]}>"
