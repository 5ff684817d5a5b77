#!/usr/bin/env python3
"""The levels of x86-64 that this processor has, as the system says in /proc/cpuinfo. Tests ask here, and not the library that they test.

    dist/tools/this_processor.py      prints their names, the lowest first
"""

from __future__ import annotations

from pathlib import Path

#: What each level demands beyond those below it, as Linux calls it. It leaves out what needs registers that the system doesn't save.
DEMANDED = {
    "x86-64": "lm cmov cx8 fpu fxsr mmx syscall sse sse2",
    "x86-64-v2": "cx16 lahf_lm popcnt pni sse4_1 sse4_2 ssse3",
    "x86-64-v3": "abm avx avx2 bmi1 bmi2 f16c fma movbe xsave",
    "x86-64-v4": "avx512bw avx512cd avx512dq avx512f avx512vl",
}


def levels_of_this_processor() -> list[str]:
    has = {*Path("/proc/cpuinfo").read_text(encoding="utf-8").split()}
    found: list[str] = []
    for level, demanded in DEMANDED.items():
        if not {*demanded.split()} <= has:
            break
        found.append(level)
    return found


if __name__ == "__main__":
    print("\n".join(levels_of_this_processor()))
