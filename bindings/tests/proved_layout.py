#!/usr/bin/env python3
"""Prints how the proved crate lays out the structs that cross to C, by its sources and the rule of `repr(C)`: the lines of
bindings/c/tests/layout.c that are of structs and their fields. A field that takes no bytes, which only proofs see, has no line.
"""
import pathlib
import re

ROOT = pathlib.Path(__file__).resolve().parent.parent.parent

# The structs by their names in rr.h, and where they stand.
STRUCTS = {
    "rr_hub_t": ("rr_c/src/held.rt", "Held"),
    "rr_id_t": ("rr_bytes/src/id.rt", "Id"),
    "rr_header_t": ("rr_c/src/messages.rt", "Header"),
    "rr_user_header_t": ("rr_c/src/messages.rt", "UserHeader"),
    "rr_limits_t": ("rr_c/src/settings.rt", "HubLimits"),
    "rr_client_settings_t": ("rr_c/src/settings.rt", "ClientOptions"),
    "rr_server_settings_t": ("rr_c/src/settings.rt", "ServerOptions"),
}

# Size and alignment of the types of fields, on a machine of 64 bits.
TYPES = {"*mut u8": (8, 8), "usize": (8, 8), "u64": (8, 8), "u32": (4, 4), "bool": (1, 1), "[u8; 16]": (16, 1)}


def fields_of(path, name):
    """Returns the names and types of a struct's fields, which has to be `repr(C)`."""
    text = re.sub(r"^ *//.*\n", "", (ROOT / "crates" / path).read_text(), flags=re.M)
    body = re.search(rf"#\[repr\(C\)\]\n(?:#\[derive\([^\n]*\)\]\n)?pub struct {name} \{{\n(.*?)^\}}", text, re.M | re.S)
    fields = re.findall(r"^    pub(?:\(crate\))? (\w+): ([^\n]*),$", body[1], re.M)
    ghosts = re.findall(r"^    pub\(crate\) ghost ", body[1], re.M)
    assert len(fields) + len(ghosts) == len(body[1].splitlines()), f"{path}: a field of {name} is written in another form"
    return fields


def layout_of(name, fields):
    """Returns the lines of a struct: each field goes to the next offset that its alignment allows."""
    lines, offset, widest = [], 0, 1
    for field, kind in fields:
        size, alignment = TYPES[kind]
        offset += -offset % alignment
        lines.append(f"{name}.{field} {offset} {size}")
        offset, widest = offset + size, max(widest, alignment)
    return [f"{name} {offset + -offset % widest} {widest}", *lines]


if __name__ == "__main__":
    for struct, (path, name) in STRUCTS.items():
        print("\n".join(layout_of(struct, fields_of(path, name))))
