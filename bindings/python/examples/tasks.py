"""Sixty L4 threads in one thread of the program: each is a task of asyncio, and a number goes from one to the next."""
import asyncio

from l4 import Call, Message, SharedKernel, ThreadId

MEMBERS, ROUNDS = 60, 3
kernel = SharedKernel()
ring = [ThreadId.of(number) for number in range(3, 3 + MEMBERS)]


async def pass_on(place: int) -> int:
    """Receives a number from the thread before, adds 1, and sends it to the next thread. Returns the last number that it received."""
    seat, before, after = kernel.seat(ring[place].number), ring[place - 1], ring[(place + 1) % MEMBERS]
    received = 0
    if place == 0:
        await seat.call_async(Call.send(after, Message.of(untyped=[1])))
    for turn in range(ROUNDS):
        (received,) = (await seat.call_async(Call.receive(before))).message.untyped
        if place or turn + 1 < ROUNDS:
            await seat.call_async(Call.send(after, Message.of(untyped=[received + 1])))
    return received


async def main() -> None:
    root = kernel.seat(2)
    for thread in ring:
        await root.call_async(Call.create(thread, thread))
    first, *_ = await asyncio.gather(*(pass_on(place) for place in range(MEMBERS)))
    print("the number came back as", first, "after", kernel.steps(), "steps")


asyncio.run(main())
