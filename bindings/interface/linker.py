"""What linkers and their tests read: which calls there are, and which version of the library first had each."""
from __future__ import annotations

from header import Header


def numbers(version: str) -> list[int]:
    return [int(it) for it in version.split(".")]


def symbol_version(version: str) -> str:
    """The version of the symbols that a version of the library added."""
    return f"YUREWHA_{version.removesuffix('.0')}"


def by_version(header: Header) -> dict[str, list[str]]:
    """The names of the calls that each version added, in their order."""
    added: dict[str, list[str]] = {}
    for export in sorted(header.exports, key=lambda it: (numbers(it.version), it.name)):
        added.setdefault(export.version, []).append(export.name)
    return added


def version_script(header: Header, made: str) -> str:
    """The versions of the shared library's symbols, for ld."""
    nodes, older = [], ""
    for version, names in by_version(header).items():
        shown = "".join(f"        {name};\n" for name in names)
        hidden = "" if older else "    local:\n        *;\n"
        nodes.append(f"{symbol_version(version)} {{\n    global:\n{shown}{hidden}}}{older};\n")
        older = f" {symbol_version(version)}"
    head = f"""\
/* {made}
 *
 * The versions of the shared library's symbols. An export has the version of the library that first had it, and keeps it. A program
 * then asks for the versions of what it calls, so that the dynamic linker refuses an older library that lacks one of them.
 * docs/ARCHITECTURE.md says when a number of the version changes.
 */
"""
    return head + "\n".join(nodes)


def debian_symbols(header: Header, made: str) -> str:
    """Which version of the Debian package a program needs that uses the symbols of a version; `~` also allows one before its release."""
    lines = [f" (symver){symbol_version(version)} {version}.0~\n" for version in by_version(header)]
    return f"# {made}\nlibyurewha.so.1 libyurewha1 #MINVER#\n* Build-Depends-Package: libyurewha-dev\n{''.join(lines)}"


def list_of_exports(header: Header, made: str) -> str:
    """Each call with the version of its symbol, in the order of names."""
    lines = sorted(f"{export.name} {symbol_version(export.version)}\n" for export in header.exports)
    return f"# {made}\n{''.join(lines)}"
