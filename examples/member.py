#!/usr/bin/env python3
"""A member over UDP, by the package of python/: each line of its input is drawn on page 1/1, which is shown whenever it has changed. If it ends,
by its own will or not, it goes on from its record when it is started again.

    PYTHONPATH=python examples/member.py ME PORT RECORD OTHER ..

ME is its member number, PORT its own port, RECORD a file that is its own, or `-` for none, and each OTHER the port of another member on this
machine. Input is as in keep.py; it is drawn once the member has listened for some seconds."""
import asyncio, sys

import wb


async def main(me, port, record, *others):
    to = [("127.0.0.1", int(other)) for other in others]
    async with await wb.Member.open(int(me), record=None if record == "-" else record, bind=("127.0.0.1", int(port)), to=to) as member:
        lines = asyncio.StreamReader()
        await asyncio.get_running_loop().connect_read_pipe(lambda: asyncio.StreamReaderProtocol(lines), sys.stdin)

        async def draw():
            await member.ready()
            async for line in lines:
                try:
                    member.draw("1/1", line.decode().strip())
                except wb.Refused as refused:
                    print(refused, file=sys.stderr)
            member.end()

        async def show():
            async for page in member.changes():
                print("\n".join(member.host.show(page, 40, 12)), flush=True)

        await asyncio.gather(draw(), show())


asyncio.run(main(*sys.argv[1:]))
