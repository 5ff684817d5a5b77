"""The names of public classes and functions, which are the package's own, wherever their code stands.

So a pickle outlives a move of code. Python's `inspect` then finds the source of methods, but not of classes.
"""

from __future__ import annotations

from types import FunctionType
from typing import Iterable, Union, get_type_hints


def publish(package: str, items: Iterable[Union[type, FunctionType]]) -> None:
    """Makes classes, with their methods, and functions those of a package: in pickles, in texts of errors and in `help`.

    >>> class Example: pass
    >>> publish("yurewha", [Example])
    >>> Example
    <class 'yurewha.Example'>
    """
    for item in items:
        if isinstance(item, type):
            # The names in them are looked up in the package from now on, which doesn't have all of them.
            item.__annotations__ = get_type_hints(item)
            for member in vars(item).values():
                function = member.__func__ if isinstance(member, (staticmethod, classmethod)) else member
                if isinstance(function, FunctionType):
                    function.__module__ = package
        item.__module__ = package
