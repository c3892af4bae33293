"""A client calls a server that does not receive yet: its call times out, and is made again once the server receives. At the end, the program
cancels the receive with which the server waits for its next call, and the server's thread returns."""
import threading
import time

from l4 import Call, Message, Refused, SharedKernel, ThreadId, Timeout

SERVER = ThreadId.of(3)
# ErrorCodes of the manual
SEND_TIMED_OUT, RECEIVE_CANCELED = 2, 7

kernel = SharedKernel(16)
client, server = kernel.seat(2), kernel.seat(3)
answers = 0


def serve() -> None:
    """Doubles the number in each message, until the receive is canceled."""
    global answers
    reply = server.call(Call.receive())
    while reply.error == 0:
        answers += 1
        doubled = Message.of(untyped=[2 * reply.untyped[0]])
        # a client that does not receive is not waited for
        reply = server.call(Call.reply_and_wait(reply.sender, doubled, send=Timeout.ZERO))
    assert reply.error == RECEIVE_CANCELED


def cancel(thread: int) -> None:
    """Cancels the wait of a thread. While the thread runs, it has none, and the kernel refuses this with K1: so it is tried again."""
    while True:
        try:
            return kernel.cancel(thread)
        except Refused as refused:
            if refused.code != "K1":
                raise
            time.sleep(0.001)


client.call(Call.create(SERVER, SERVER))
call = Call.call(SERVER, Message.of(untyped=[21]))
if client.call(call, timeout=0.01).error == SEND_TIMED_OUT:
    print("the call timed out while it was sending")

thread = threading.Thread(target=serve)
thread.start()
print("made again, it returned", client.call(call).untyped[0])

cancel(server.number)
thread.join()
print("the server shut down after", answers, "call")
kernel.close([client, server])
