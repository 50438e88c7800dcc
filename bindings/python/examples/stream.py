"""A server streams the powers of two until its client has seen enough."""
import array
import threading

import rr


def stream(server: rr.Server) -> None:
    active = server.receive(timeout=10)
    assert active is not None, "nobody asked"
    with active:
        power = 1
        while active.is_connected and not active.has_disconnect_hint:
            active.send(array.array("Q", [power]), timeout=10)
            power = 2 * power % 2**64


# Without overflow no response is dropped: a send waits for room.
limits = rr.Limits(enable_safe_overflow_for_responses=False)
with rr.Hub(limits) as hub, hub.client(0) as client:
    server = hub.server(8, backpressure_strategy=rr.BackpressureStrategy.RETRY_UNTIL_DELIVERED)
    streaming = threading.Thread(target=stream, args=[server])
    streaming.start()
    with client.send(b"") as pending:
        while response := pending.receive(timeout=10):
            with response:
                [power] = response.payload_as("Q").tolist()
            print(power)
            if power == 32:
                pending.set_disconnect_hint()
                break
    streaming.join()
    print("the server has stopped")
