"""Runs in gdb: steps through what merge() of unwinding.c calls, and unwinds the stack before each instruction of the library that is met.

    gdb-multiarch -batch -ex 'python SOCKET = ".."' -x frames.py PROGRAM

qemu runs the program, and waits at the socket. The way has to lead back to merge(), whose registers have to be as they were when it
called. It prints each place where they aren't, and at last how many places were seen.
"""
import gdb

#: Where qemu waits; gdb has it from the command line.
SOCKET: str = globals()["SOCKET"]

GENERAL = (*(f"x{number}" for number in range(19, 30)), "sp")
#: A call keeps the lower halves of these.
VECTORS = tuple(f"v{number}" for number in range(8, 16))


def registers(frame: gdb.Frame) -> list:
    """The registers that a call keeps."""
    return [*(int(frame.read_register(name)) for name in GENERAL), *(int(frame.read_register(name)["d"]["u"][0]) for name in VECTORS)]


def caller(frame: gdb.Frame) -> gdb.Frame:
    """The frame of merge(), or None."""
    while frame is not None and frame.name() != "merge":
        frame = frame.older()
    return frame


def is_of_library(name: str) -> bool:
    return name is not None and ("::" in name or name.startswith("yurewha_") and not name.startswith("yurewha_heap"))


def main() -> None:
    gdb.execute("set confirm off")
    gdb.execute("set pagination off")
    gdb.execute(f"target remote {SOCKET}")
    gdb.Breakpoint("merge")
    gdb.execute("continue", to_string=True)
    kept, seen = [], set()
    while (frame := gdb.newest_frame()).name() != "main":
        if frame.name() == "merge":
            kept = registers(frame)
        elif is_of_library(frame.name()) and frame.pc() not in seen:
            seen.add(frame.pc())
            found = caller(frame)
            if found is None or registers(found) != kept:
                print(f"{frame.name()}, {frame.pc():#x}: {'other registers' if found else 'no way to merge'}")
        gdb.execute("stepi" if is_of_library(frame.name()) or frame.name() == "merge" else "finish", to_string=True)
    print(f"{len(seen)} places")


main()
