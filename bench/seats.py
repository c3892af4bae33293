"""Two threads of the program exchange messages through one shared kernel, while IDLE others wait in a receive. usage: seats.py IDLE ROUNDS.
Prints the round trips per second."""
import sys
import threading
import time

from l4 import Call, Message, SharedKernel, ThreadId

idle, rounds = map(int, sys.argv[1:])
kernel, message = SharedKernel(16), Message.of(untyped=[1])
root = kernel.seat(2)
for number in range(3, 5 + idle):
    root.call(Call.create(ThreadId.of(number), ThreadId.of(number)))
client, server = kernel.seat(3), kernel.seat(4)


def serve() -> None:
    server.call(Call.receive())
    for _ in range(rounds - 1):
        server.call(Call.reply_and_wait(ThreadId.of(3), message))
    server.call(Call.send(ThreadId.of(3), message))


waiting = [threading.Thread(target=kernel.seat(number).call, args=(Call.receive(ThreadId.ROOT),)) for number in range(5, 5 + idle)]
for thread in waiting:
    thread.start()
time.sleep(0.2)
start = time.monotonic()
answers = threading.Thread(target=serve)
answers.start()
for _ in range(rounds):
    client.call(Call.call(ThreadId.of(4), message))
print(f"{rounds / (time.monotonic() - start):.0f}")
answers.join()
for number in range(5, 5 + idle):
    root.call(Call.send(ThreadId.of(number), message))
for thread in waiting:
    thread.join()
