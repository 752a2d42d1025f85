"""A client of a presence server: client.py NAME [ADDRESS]. It wants the package websockets."""
import asyncio
import json
import sys
from pathlib import Path

sys.path.insert(0, str(Path(__file__).resolve().parent.parent / "clients" / "python"))
from presence_client import ActionLostError, Increment, OfflineError, connect


async def stay(db, name):
    async for is_open in db.connected():
        try:
            if is_open:  # a new session has no actions
                await db.ref(f"/presence/{name}").on_disconnect().remove()
                await db.ref(f"/presence/{name}").set(True)
        except (ActionLostError, OfflineError):
            pass  # the connection broke, and the next session does it


async def main(name, address="127.0.0.1:8080"):
    async with connect(f"ws://{address}/", client=name) as db:
        staying = asyncio.create_task(stay(db, name))
        db.ref("/presence").on_value(lambda shown: print("/presence", json.dumps(shown.value), flush=True))
        visits = db.ref("/visits")
        await visits.set(Increment(1))
        print("visits", (await visits.get()).value, flush=True)
        await staying


asyncio.run(main(*sys.argv[1:]))
