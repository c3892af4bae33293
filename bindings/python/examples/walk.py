"""A walk through the package in cells, which you can also run one after another in a notebook or an editor."""
# %% sigma0 maps its page 16 to root, and root maps it on to thread 3
import time
from threading import Thread

from l4 import PAGE_BYTES, Call, Fpage, Item, Kernel, Message, Region, Rights, SharedKernel, ThreadId, draw

ANYWHERE = Fpage.complete()
kernel, client = Kernel(64), ThreadId.of(3)


def give(sender: int, receiver: ThreadId, message: Message) -> None:
    kernel.enter(receiver.number, Call.receive(window=ANYWHERE))
    kernel.enter(sender, Call.send(receiver, message))


kernel.enter(2, Call.create(client, client))
give(1, ThreadId.ROOT, Message.of(items=[Item.map(Fpage.page(16, Rights.ALL), 32 * PAGE_BYTES)]))
give(2, client, Message.of(items=[Item.map(Fpage.page(32, Rights.ALL), 7 * PAGE_BYTES)]))
print(*(mapping.rights for mapping in draw.frame(kernel, 16).mappings))

# %% root revokes the right to write; a notebook draws the tree, and print writes it as DOT text
kernel.enter(2, Call.unmap([Fpage.page(32, Rights.WRITE)]))
print(draw.frame(kernel, 16), end="")

# %% sigma0 delegates its pages 4 to 15 to pages 12 to 23 by the shortest message, and takes all its pages back
plan = Region(4, 12, 12, Rights.READ).plan()
give(1, client, plan.only())
print(plan, "move frames", *(mapping.frame for mapping in kernel.mappings(2) if mapping.place.page >= 12))
kernel.enter(1, Call.unmap([Fpage.complete(Rights.ALL)]))
print("pages left:", len(list(kernel.mappings(1))), len(list(kernel.mappings(2))))


# %% two threads share a kernel; at the end of the block, one of them still waits
def wait() -> None:
    try:
        print(root.call(Call.receive()))
        root.call(Call.receive())
    except ValueError as error:
        print(error)


with SharedKernel(1) as shared:
    sigma0, root = shared.seat(1), shared.seat(2)
    waits = Thread(target=wait)
    waits.start()
    sigma0.call(Call.send(ThreadId.ROOT, Message.of(untyped=[5])))
    while shared.steps() < 4:
        time.sleep(0.001)
    print("entry 2:", shared.history()[2])
waits.join()
