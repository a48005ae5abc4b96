#!/usr/bin/env python3
"""Listens at a port of 127.0.0.1, and hands each connection on to a server over TLS: so a proxy that speaks plain HTTP alone stands in
front of a server of `https`. The server's certificate is checked against those that the system trusts, or against a file's.

Each user of this machine can connect here, and talks to that server then.

    to_tls.py PORT HOST[:PORT] [CERTIFICATES]
"""

import asyncio
import ssl
import sys


async def copy(reader: asyncio.StreamReader, writer: asyncio.StreamWriter) -> None:
    """Hands bytes on until there are no more, or one side fails; then the other side is closed."""
    try:
        while piece := await reader.read(65536):
            writer.write(piece)
            await writer.drain()
    except OSError:
        pass
    finally:
        writer.close()


async def listen(words: list[str]) -> None:
    host, _, port = words[1].partition(":")
    context = ssl.create_default_context(cafile=words[2] if words[2:] else None)

    async def serve(reader: asyncio.StreamReader, writer: asyncio.StreamWriter) -> None:
        try:
            from_server, to_server = await asyncio.open_connection(host, int(port or 443), ssl=context)
        except OSError as why:
            print(f"to_tls.py: {words[1]}: {why}", file=sys.stderr)
            writer.close()
            return
        await asyncio.gather(copy(reader, to_server), copy(from_server, writer))

    async with await asyncio.start_server(serve, "127.0.0.1", int(words[0])) as server:
        await server.serve_forever()


def main(words: list[str]) -> int:
    if len(words) not in (2, 3):
        print(__doc__.strip().rsplit("\n", 1)[-1].strip(), file=sys.stderr)
        return 1
    try:
        asyncio.run(listen(words))
    except KeyboardInterrupt:
        pass
    return 0


if __name__ == "__main__":
    sys.exit(main(sys.argv[1:]))
