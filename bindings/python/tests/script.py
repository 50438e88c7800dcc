#!/usr/bin/env python3
"""Carries out a script of `rr script` by the package `rr` (docs/RULES.md, "Lines of an example").

Elements are bytes, and a user header is a number in the first eight bytes. Ports and messages are objects here, so that a number that names
none, or one that has no such call, is refused by this program. All other replies are what the calls return. Which request an active request
belongs to can't be had, so that `active A` is printed without it. The statuses are those of `rr script`.
"""
import sys

import rr

REFUSALS = {rr.Unknown: "refused Unknown", rr.WrongKind: "refused WrongKind", rr.Incomplete: "refused Incomplete"}
PREFIXES = ("ClientCreate", "ServerCreate", "HubCreate", "Loan", "Send", "Receive")
LOANS = (rr.LoanOutOfMemory, rr.LoanExceedsMaxLoans, rr.LoanExceedsMaxLoanSize)
GROWTHS = {"static": rr.AllocationStrategy.STATIC, "best": rr.AllocationStrategy.BEST_FIT, "pow2": rr.AllocationStrategy.POWER_OF_TWO}
STRATEGIES = {"retry": rr.BackpressureStrategy.RETRY_UNTIL_DELIVERED, "discard": rr.BackpressureStrategy.DISCARD_DATA}
FLAGS = {"ready": "is_deliverable", "conn": "is_connected", "hinted": "has_disconnect_hint"}

# What a port or message has to have for a command.
NEEDED = {
    **FLAGS,
    "loan": "loan_uninit",
    "default": "loan_in_place",
    "copy": "loan",
    "push": "push",
    "set": "set",
    "uset": "set",
    "init": "assume_init",
    "send": "send",
    "recv": "receive",
    "has": "receive",
    "hint": "set_disconnect_hint",
    "count": "number_of_server_connections",
    "head": "header",
    "user": "user_header",
    "data": "payload",
    "origin": "origin",
    "strategy": "backpressure_strategy",
    "maxlen": "initial_max_slice_len",
    "update": "update_connections",
    "drop": "release",
}


def reply_of(error, cause=""):
    """Returns the reply that tells an error."""
    if type(error) in REFUSALS:
        return REFUSALS[type(error)]
    name = type(error).__name__
    prefix = next(it for it in PREFIXES if name.startswith(it))
    return f"error {cause}{name[len(prefix):]}"


def flag(value):
    return "true" if value else "false"


class Script:
    """A hub, and what lives of it under numbers."""

    def __init__(self, hub):
        self.hub = hub
        self.handles = {}

    def kept(self, name, made):
        self.handles[made.number] = made
        return f"{name} {made.number}"

    def create(self, words):
        slots = 0 if words[4] == "-" else int(words[4])
        how = {"backpressure_strategy": STRATEGIES[words[1]], "allocation_strategy": GROWTHS[words[3]]}
        if words[0] == "client":
            return self.kept("created", self.hub.client(int(words[2]), slots, **how))
        return self.kept("created", self.hub.server(int(words[2]), slots, int(words[5]), **how))

    def reply(self, words):
        """Carries out a line, and returns its reply."""
        try:
            if words[0] in ("client", "server"):
                return self.create(words)
            handle = self.handles.get(int(words[1]))
            if handle is None:
                raise rr.Unknown()
            return self.call(words[0], handle, [int(it) for it in words[2:]])
        except rr.RrError as error:
            return reply_of(error)

    def call(self, name, handle, rest):
        """Makes a call on a handle."""
        if not hasattr(type(handle), NEEDED[name]):
            raise rr.WrongKind()
        if name in FLAGS:
            return flag(getattr(handle, FLAGS[name]))
        return getattr(self, f"call_{name}")(handle, *rest)

    def call_loan(self, handle, length):
        return self.kept("loaned", handle.loan_uninit(length))

    def call_default(self, handle, length):
        return self.kept("loaned", handle.loan_in_place(length))

    def call_copy(self, handle, byte):
        is_request = isinstance(handle, rr.Client)
        try:
            loaned = handle.loan(bytes([byte]))
        except LOANS as error:
            return reply_of(error, "SendError LoanError " if is_request else "LoanError ")
        return self.sent(loaned)

    def sent(self, message):
        """Sends a message. It is gone, or known by what it has become."""
        self.handles.pop(message.number, None)
        is_request = isinstance(message, rr.RequestMut)
        try:
            pending = message.send()
        except rr.SendUnableToDeliver as error:
            return reply_of(error, "SendError " if is_request else "")
        if not is_request:
            return f"sent {message.number}"
        return f"{self.kept('pending', pending)} {pending.number_of_server_connections}"

    def call_send(self, handle):
        if isinstance(handle, (rr.Client, rr.ActiveRequest)):
            raise rr.WrongKind()
        return self.sent(handle)

    def call_recv(self, handle):
        received = handle.receive()
        if received is None:
            return "none"
        return self.kept("active" if isinstance(handle, rr.Server) else "response", received)

    def call_push(self, handle, byte):
        return flag(handle.push(byte))

    def call_set(self, handle, index, byte):
        """Replaces a byte, where it can be by a view."""
        if isinstance(handle, (rr.RequestMut, rr.ResponseMut)) and index % 2 == 0:
            view = handle.view
            if index < len(view):
                view[index] = byte
            return flag(index < len(view))
        return flag(handle.set(index, byte))

    def call_uset(self, handle, number):
        handle.user_header = number.to_bytes(8, "little")
        return "done"

    def call_init(self, handle):
        self.handles[handle.number] = handle.assume_init()
        return "done"

    def call_has(self, handle):
        return flag(handle.has_requests if isinstance(handle, rr.Server) else handle.has_response)

    def call_hint(self, handle):
        handle.set_disconnect_hint()
        return "done"

    def call_count(self, handle):
        return f"count {handle.number_of_server_connections}"

    def call_head(self, handle):
        it = handle.header
        name = "response-header" if it.is_response else "request-header"
        return f"{name} {it.port_id} {it.request_id} {it.number_of_elements} {it.node_id}"

    def call_user(self, handle):
        return f"user {int.from_bytes(handle.user_header, 'little')}"

    def call_data(self, handle):
        """Prints the bytes, of each second message by a view."""
        payload = bytes(handle.view) if handle.number % 2 else handle.payload
        return " ".join(["data", *map(str, payload)])

    def call_origin(self, handle):
        return f"id {handle.origin}"

    def call_strategy(self, handle):
        return "retry" if handle.backpressure_strategy == STRATEGIES["retry"] else "discard"

    def call_maxlen(self, handle):
        return f"count {handle.initial_max_slice_len}"

    def call_update(self, handle):
        handle.update_connections()
        return "done"

    def call_drop(self, handle):
        handle.release()
        del self.handles[handle.number]
        return "done"


def main():
    first = sys.stdin.readline().split()
    flags = [it in first[8] for it in "qpf"]
    names = [name for name, _ in rr.Limits._fields_]
    try:
        hub = rr.Hub(rr.Limits(**dict(zip(names, [*map(int, first[2:8]), *map(int, first[9:11]), *flags]))))
    except rr.RrError as error:
        print(reply_of(error))
        return 4
    print("done")
    script = Script(hub)
    for line in sys.stdin:
        print(script.reply(line.split()))
    hub.close()
    return 0


if __name__ == "__main__":
    sys.exit(main())
