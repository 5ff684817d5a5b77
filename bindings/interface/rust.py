"""The declarations of the Rust crate, src/ffi.rs, as rustfmt lays them out."""
from __future__ import annotations

from header import Export, Header, Member, Struct

WIDTH = 120
TYPES = {
    "uint8_t": "u8", "uint32_t": "u32", "uint64_t": "u64", "int32_t": "i32", "size_t": "usize", "char": "c_char",
}
HEAD = """\
//! The exports of the library, as `bindings/include/yurewha.h` declares them. All are declared, even if no enabled feature uses them.

#![allow(dead_code, non_camel_case_types)]

use std::ffi::c_char;
use std::mem::{align_of, size_of};
use std::ptr;

pub type yurewha_status = u32;
"""


def in_rust(c_type: str) -> str:
    """A type of C in Rust."""
    target, star, _ = c_type.rpartition(" *")
    if star:
        return f"*const {in_rust(target[6:])}" if target.startswith("const ") else f"*mut {in_rust(target)}"
    return TYPES.get(c_type, c_type)


def constants(numbers: dict[str, int], kind: str) -> str:
    return "".join(f"pub const {name}: {kind} = {number};\n" for name, number in numbers.items())


def declared(member: Member) -> str:
    kind = in_rust(member.type)
    return f"{member.name}: {kind if member.count == 1 else f'[{kind}; {member.count}]'}"


def is_long(struct: Struct) -> bool:
    """Whether it has an array for which Rust has no default."""
    return any(member.count > 32 for member in struct.members)


def struct_of(struct: Struct) -> str:
    """A struct. A handle can't be copied."""
    derived = "" if struct.is_handle else f"#[derive(Clone, Copy{'' if is_long(struct) else ', Default'})]\n"
    members = "".join(f"    pub {declared(member)},\n" for member in struct.members)
    return f"#[repr(C)]\n{derived}pub struct {struct.name} {{\n{members}}}\n"


def room(struct: Struct) -> str:
    zeros = ", ".join(f"{member.name}: [0; {member.count}]" for member in struct.members)
    return f"""\
impl {struct.name} {{
    // Room for one, which must be begun before use.
    pub const ROOM: Self = {struct.name} {{ {zeros} }};
}}
"""


def empty_handle(struct: Struct) -> str:
    nothing = ", ".join(f"{member.name}: ptr::null_mut()" for member in struct.members)
    return f"""\
impl Default for {struct.name} {{
    // The empty handle.
    fn default() -> Self {{
        {struct.name} {{ {nothing} }}
    }}
}}
"""


def layouts(structs: tuple[Struct, ...]) -> str:
    """What the compiler of C says of structs, which Rust's has to say, too."""
    lines = "".join(f"    assert_layout::<{it.name}>({it.size}, {it.alignment});\n" for it in structs)
    return f"""\
const fn assert_layout<T>(size: usize, align: usize) {{
    assert!(size_of::<T>() == size && align_of::<T>() == align);
}}

#[cfg(target_pointer_width = "64")]
const _: () = {{
{lines}}};
"""


def function(export: Export) -> str:
    parameters = [declared(it) for it in export.parameters]
    answer = "" if export.answer == "void" else f" -> {in_rust(export.answer)}"
    head = f"    pub fn {export.name}({', '.join(parameters)})"
    if len(head + answer) <= WIDTH - 2:
        return f"{head}{answer};\n"
    if len(head + answer) <= WIDTH:
        return f"{head}\n       {answer};\n"
    return f"    pub fn {export.name}(\n" + "".join(f"        {it},\n" for it in parameters) + f"    ){answer};\n"


def declarations(header: Header, made: str) -> str:
    handles = [it for it in header.structs if it.is_handle]
    parts = [
        f"// {made}\n\n{HEAD}", constants(header.statuses, "yurewha_status"), constants(header.lengths, "usize"),
        *map(struct_of, header.structs), *(room(it) for it in header.structs if is_long(it)), *map(empty_handle, handles),
        layouts(header.structs), f'extern "C" {{\n{"".join(map(function, header.for_languages))}}}\n',
        "#[cfg(test)]\nmod tests;\n",
    ]
    return "\n".join(parts)
