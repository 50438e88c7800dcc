"""Tasks: a server answers each request by a countdown, and a client counts along."""
import asyncio

import rr


async def serve(server: rr.Server) -> None:
    async for active in server:
        with active:
            for number in range(active.payload[0], 0, -1):
                active.send(bytes([number]))


async def main() -> None:
    with rr.Hub(rr.Limits(max_response_buffer_size=8)) as hub:
        serving = asyncio.create_task(serve(hub.server(1)))
        with hub.client(1).send(bytes([3])) as pending:
            async for response in pending:
                with response:
                    print(response.payload[0])
    await serving  # it ends with the hub


asyncio.run(main())
