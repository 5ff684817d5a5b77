"""What the JavaScript package knows of the header: constants.js."""
from __future__ import annotations

from header import Header


def lines(pairs: dict[str, str]) -> str:
    return "".join(f"    {name}: {value},\n" for name, value in pairs.items())


def short(name: str) -> str:
    return name.removeprefix("YUREWHA_")


def constants(header: Header, made: str) -> str:
    by_number = sorted(header.statuses.items(), key=lambda it: it[1])
    numbers = {short(name): str(number) for name, number in by_number}
    errors = {str(number): f'"{header.errors[name]}"' for name, number in by_number if name in header.errors}
    lengths = "".join(f"export const {short(name)} = {number};\n" for name, number in header.lengths.items())
    return f"""\
// {made}

/** The statuses of the library. */
export const STATUS = {{
{lines(numbers)}}};

/** The names of the errors that statuses mean. The error of a broken rule isn't among them. */
export const ERROR_NAMES = {{
{lines(errors)}}};

/** The lengths of a hash as hex text and as base64 text, and the greatest length of a status's text. */
{lengths}"""
