"""Two threads: one asks for the double of a number, the other one answers."""
import ctypes
import threading

import rr

Number = ctypes.c_uint64


def answer(server: rr.Server) -> None:
    active = server.receive(timeout=10)
    assert active is not None, "nobody asked"
    with active:
        asked = active.payload_as(Number).value
        print("the server received", asked)
        active.send(Number(2 * asked))


with rr.Hub() as hub, hub.client(8) as client, hub.server(8) as server:
    answering = threading.Thread(target=answer, args=[server])
    answering.start()
    with client.send(Number(21)) as pending:
        response = pending.receive(timeout=10)
        assert response is not None, "nobody answered"
        with response:
            print("the client received", response.payload_as(Number).value)
    answering.join()
