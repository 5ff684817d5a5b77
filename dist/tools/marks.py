"""Marks of functions for aarch64, for processors that refuse jumps to elsewhere: where indirect jumps arrive (BTI), and that the address
to return to is the one that a function was called with (PAC).

If LLVM is asked for these marks, it changes other instructions of some functions, too. So they are put into the text, and what a function
does to its frame is followed in it (frames.py). Older processors do nothing at the marks.
"""

from __future__ import annotations

import re

from frames import CHECK, SIGN, Function
from proving import Fault
from systems import NOTES

#: The instructions `bti c` and `bti j`, where calls and jumps may arrive, as old assemblers know them, too.
CALLED, JUMPED_TO = "hint\t#34", "hint\t#36"

#: A section that says what the code is marked for.
NOTE = NOTES["aarch64"]
#: A function: its name, and the lines from the one after its label up to the label of its end.
FUNCTION = re.compile(r"(?m)^\t\.type\t(.*),@function\n\1:\n((?:.*\n)*?)(?=\.Lfunc_end)")
#: The line after which a function's table ends.
SIZE = re.compile(r"(?m)^(\t\.size\t.*, \.Lfunc_end\d+-.*\n)")
#: An entry of a table of jumps: the label to which it leads.
ENTRY = re.compile(r"(?m)^\t\.(?:byte|hword|word)\t\(?(\.LBB\d+_\d+)-\.LBB")
#: Whether the address to return to was in the memory, so that a function has to sign it; and where a function ends.
IS_LOADED = re.compile(r"(?m)^\tld[rp]\t.*\bx30\b")
LEAVING = re.compile(r"(?m)^\t(?:ret|b\t(?!\.L).*)$")
#: Calls and returns by another register, of which the marks say nothing.
OTHER_CALL = re.compile(r"(?m)^\t(?:blr.*|ret\t.*)$")


def marked(body: str, led_to: set[str], is_export: bool) -> str:
    """The lines of a function, with marks. It signs the address to return to, which is a mark of its beginning, too."""
    body = re.sub(r"(?m)^(\.LBB\d+_\d+):\n", lambda it: it[0] + (f"\t{JUMPED_TO}\n" if it[1] in led_to else ""), body)
    if IS_LOADED.search(body):
        return f"\t{SIGN}\n" + LEAVING.sub(lambda it: f"\t{CHECK}\n{it[0]}", body)
    return (f"\t{CALLED}\n" if is_export else "") + body


def with_marks(text: str, exports: list[str]) -> str:
    """Assembly for aarch64 with marks, tables for unwinding, and the note that says so."""
    if other := OTHER_CALL.search(text):
        raise Fault(f"a function is called, or left, by a register: {other[0].strip()}")
    led_to = set(ENTRY.findall(text))

    def finished(found: re.Match[str]) -> str:
        body = marked(found[2], led_to, found[1] in exports)
        own = led_to.intersection(re.findall(r"(?m)^(\.LBB\d+_\d+):$", body))
        try:
            lines = Function(body.splitlines(), own).with_table()
        except Fault as fault:
            raise Fault(f"{found[1]}: {fault}") from None
        return found[0].replace(found[2], "".join(f"{line}\n" for line in lines))

    text, count = FUNCTION.subn(finished, text)
    text, ends = SIZE.subn(r"\1\t.cfi_endproc\n", text)
    if not count == ends == text.count(",@function\n"):
        raise Fault("the assembly has functions whose lines aren't known")
    return NOTE + text
