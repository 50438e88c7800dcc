#!/usr/bin/env python3
"""Prints how the package `rr` declares what rr.h declares, in the lines of bindings/c/tests/layout.c."""
import ctypes
import inspect

import rr
from rr import _errors, _library

TYPES = {
    "rr_hub_t": _library.HubAt,
    "rr_id_t": _library.Id,
    "rr_header_t": _library.Header,
    "rr_user_header_t": _library.UserHeader,
    "rr_limits_t": _library.Limits,
    "rr_client_settings_t": _library.ClientSettings,
    "rr_server_settings_t": _library.ServerSettings,
}

CHOICES = {
    "RR_BACKPRESSURE": _library.BackpressureStrategy,
    "RR_ALLOCATION": _library.AllocationStrategy,
    "RR_KIND": _library.Kind,
}


def defaults(name, create):
    """Returns what a port of five bytes is created with."""
    _, _, *settings = inspect.signature(create).parameters.values()
    return f"{name} 5 {' '.join(str(int(it.default)) for it in settings)}"


def lines():
    """Gives each line."""
    for name, struct in TYPES.items():
        yield f"{name} {ctypes.sizeof(struct)} {ctypes.alignment(struct)}"
        for field, _ in struct._fields_:
            yield f"{name}.{field} {getattr(struct, field).offset} {getattr(struct, field).size}"
    yield from (f"RR_OK {_library.OK}", f"RR_NOTHING {_library.NOTHING}")
    for number, error in _errors.ERRORS.items():
        yield f"{error.code_name} {number}"
    for name, choices in CHOICES.items():
        for choice in choices:
            yield f"{name}_{choice.name} {choice.value}"
    limits = _library.Limits()
    yield f"rr_limits_default {' '.join(str(int(getattr(limits, field))) for field, _ in limits._fields_)}"
    yield defaults("rr_client_settings_default", rr.Hub.client)
    yield defaults("rr_server_settings_default", rr.Hub.server)


if __name__ == "__main__":
    print("\n".join(lines()))
