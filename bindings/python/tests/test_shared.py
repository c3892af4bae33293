"""Threads share a kernel."""
import asyncio
import copy
import pickle
import signal
import threading
import time
import unittest

from l4 import (
    PAGE_BYTES,
    Call,
    Cancel,
    Fpage,
    Item,
    Message,
    Place,
    Refused,
    ReplyKind,
    Rights,
    SharedKernel,
    Start,
    Thread,
    ThreadId,
    ThreadState,
    Transfer,
)
from l4.segments import SavedSegment, read

PAGE = Message.of(items=[Item.map(Fpage.page(16, Rights.ALL), 16 * PAGE_BYTES)])


def create(number, pager=ThreadId.NIL):
    return Call.create(ThreadId.of(number), ThreadId.of(number), pager)


def wait_for(kernel, steps):
    """Other threads act until the history has this many steps."""
    while kernel.steps() < steps:
        time.sleep(0.001)


def interrupt(kernel, steps):
    """Interrupts the main thread, as Ctrl-C does, once the history has this many steps."""
    wait_for(kernel, steps)
    time.sleep(0.05)
    signal.pthread_kill(threading.main_thread().ident, signal.SIGINT)


class Parties:
    """Threads that act at the same time, each with what it gave."""

    def __init__(self):
        self.threads = []
        self.given = {}

    def begin(self, name, work):
        thread = threading.Thread(target=lambda: self.given.__setitem__(name, work()))
        self.threads.append(thread)
        thread.start()

    def end(self):
        for thread in self.threads:
            thread.join()
        return self.given


class Shared(unittest.TestCase):
    def test_a_fault_waits_for_its_pager(self):
        kernel = SharedKernel()
        sigma0, root, pager, client = map(kernel.seat, (1, 2, 3, 4))
        root.call(create(3))
        root.call(create(4, ThreadId.of(3)))
        fault = Call.fault(0x10123, 0, Rights.READ)

        def serve():
            pager.call(Call.receive(ThreadId.SIGMA0, Fpage.complete()))
            asked = pager.call(Call.receive(ThreadId.of(4)))
            pager.call(Call.send(ThreadId.of(4), PAGE))
            return asked.untyped[0]

        parties = Parties()
        parties.begin("faults", lambda: (client.call(fault).kind, client.call(fault).kind))
        wait_for(kernel, 3)
        parties.begin("page", lambda: sigma0.call(Call.send(ThreadId.of(3), PAGE)).kind)
        parties.begin("asked", serve)
        given = {"faults": (ReplyKind.ANSWERED, ReplyKind.HIT), "page": ReplyKind.IPC, "asked": 0x10123}
        self.assertEqual(parties.end(), given)
        receipts = client.receipts
        self.assertEqual((len(receipts), client.starts, receipts[0].start, receipts[0].reply.kind), (2, 2, 2, ReplyKind.ANSWERED))
        steps = kernel.steps()
        history = kernel.close([client, pager, root, sigma0])
        self.assertEqual(len(history), steps)
        self.assertEqual(str(history[0]), "start 2 create 0x0000c001 0x0000c001 0x00000000")
        self.assertEqual(str(history[2]), "start 4 fault 0x00010123 0x00000000 0x00000004")
        self.assertEqual(history[receipts[0].end].step, Transfer(3, 4))
        with self.assertRaises(ValueError):
            client.call(fault)
        with self.assertRaises(ValueError):
            kernel.seat(5)

    def test_many_threads_send_to_one(self):
        kernel = SharedKernel(1)
        root = kernel.seat(2)
        for number in range(3, 11):
            root.call(create(number))
        seats = {number: kernel.seat(number) for number in range(3, 11)}

        def act(number):
            call = Call.receive() if number == 3 else Call.send(ThreadId.of(3), Message.of(untyped=[number]))
            for _ in range(700 if number == 3 else 100):
                seats[number].call(call)

        parties = Parties()
        for number in seats:
            parties.begin(number, lambda number=number: act(number))
        parties.end()
        counts = {2: 8, 3: 700, **dict.fromkeys(range(4, 11), 100)}
        self.assertEqual({2: root.starts, **{number: seat.starts for number, seat in seats.items()}}, counts)
        self.assertEqual(kernel.steps(), 2108)
        history = kernel.close([root, *seats.values()])
        self.assertEqual(len(history), 2108)
        starts = [entry.step.thread for entry in history if isinstance(entry.step, Start)]
        self.assertEqual({number: starts.count(number) for number in counts}, counts)

    def test_a_thread_hands_out_segments_meanwhile(self):
        kernel = SharedKernel(1)
        sigma0, root = kernel.seat(1), kernel.seat(2)
        segments = []

        def collect():
            while kernel.steps() < 600:
                segments.append(kernel.hand_out())

        parties = Parties()
        parties.begin("collects", collect)
        parties.begin("receives", lambda: [root.call(Call.receive()) for _ in range(200)])
        parties.begin("sends", lambda: [sigma0.call(Call.send(ThreadId.ROOT, Message.of(untyped=[5]))) for _ in range(200)])
        parties.end()
        rest = kernel.history()
        place = 0
        for segment in segments:
            self.assertEqual((segment.first, len(list(segment))), (place, len(segment)))
            place += len(segment)
        steps = [entry.step for segment in segments for entry in segment] + [entry.step for entry in rest]
        self.assertEqual((len(steps), kernel.steps(), steps.count(Transfer(1, 2))), (600, 600, 200))
        self.assertEqual((root.starts, sigma0.starts), (200, 200))
        self.assertEqual(len(kernel.close([root, sigma0])), len(rest))

    def test_a_kernel_without_a_history_drops_its_steps(self):
        kernel = SharedKernel(1, history=False)
        sigma0, root = kernel.seat(1), kernel.seat(2)
        parties = Parties()
        parties.begin("receives", lambda: [root.call(Call.receive()) for _ in range(1000)])
        parties.begin("sends", lambda: [sigma0.call(Call.send(ThreadId.ROOT, Message.of(untyped=[5]))) for _ in range(1000)])
        parties.end()
        self.assertEqual((kernel.steps(), root.starts, sigma0.starts), (3000, 1000, 1000))
        self.assertLess(len(kernel.history()), 1024)
        self.assertLess(len(root.receipts), 1024)
        for needs_all in (lambda: kernel.entries(0), lambda: kernel.provenance(0, 0)):
            with self.assertRaisesRegex(Refused, "^L8: "):
                needs_all()
        kernel.close([root, sigma0])

    def test_receipts_and_steps_of_later_calls_continue_their_numbers(self):
        kernel = SharedKernel(1)
        root = kernel.seat(2)
        root.call(create(3))
        with kernel.hand_out() as segment:
            self.assertEqual((segment.first, len(segment)), (0, 1))
            self.assertEqual([str(entry) for entry in segment], ["start 2 create 0x0000c001 0x0000c001 0x00000000"])
            self.assertEqual(read(segment.to_bytes()), [SavedSegment(1, 4096, 0, tuple(segment))])
        self.assertEqual((kernel.history(), root.receipts, root.starts, kernel.steps()), ((), (), 1, 1))
        root.call(Call.delete(ThreadId.of(3)))
        self.assertEqual([(receipt.start, receipt.end) for receipt in root.receipts], [(1, 1)])
        with self.assertRaisesRegex(Refused, "^L8: "):
            kernel.provenance(0, 0)
        with self.assertRaisesRegex(Refused, "^L8: "):
            kernel.check_provenance(0, 0, [])
        later = kernel.hand_out()
        self.assertEqual((later.first, len(later), len(kernel.hand_out())), (1, 1, 0))
        self.assertEqual(read(later.to_bytes() + kernel.hand_out().to_bytes())[1], SavedSegment(1, 4096, 2, ()))
        with self.assertRaisesRegex(ValueError, "^the Segment is closed$"):
            list(segment)
        with self.assertRaisesRegex(ValueError, "^the Segment is closed$"):
            segment.to_bytes()
        self.assertEqual(kernel.close([root]), ())
        self.assertEqual(len(list(later)), 1)

    def test_later_steps_are_read_alone(self):
        kernel = SharedKernel()
        root = kernel.seat(2)
        for number in range(3, 6):
            root.call(create(number))
        history = kernel.history()
        self.assertEqual(len(history), 3)
        self.assertEqual(kernel.entries(0), history)
        self.assertEqual(kernel.entries(2), history[2:])
        self.assertEqual((kernel.entries(3), kernel.entries(2**64 - 1)), ((), ()))
        self.assertEqual((kernel.entry(1), kernel.entry(3)), (history[1], None))
        kernel.hand_out()
        root.call(create(6))
        for read_step in (kernel.entries, kernel.entry):
            with self.assertRaises(Refused) as refused:
                read_step(2)
            self.assertEqual(refused.exception.code, "L8")
        self.assertEqual(kernel.entries(3), kernel.history())
        self.assertEqual(len(kernel.history()), 1)
        for bad in (-1, 2**64):
            self.assertRaises(ValueError, kernel.entries, bad)
            self.assertRaises(ValueError, kernel.entry, bad)

    def test_a_call_goes_on_after_its_wait(self):
        kernel = SharedKernel(1)
        sigma0, root = kernel.seat(1), kernel.seat(2)
        self.assertIsNone(root.call_for(Call.receive(), 0.001))
        with self.assertRaisesRegex(Refused, "^K3: "):
            root.call(Call.receive())
        self.assertEqual((root.take(), root.wait_for(0.001)), (None, None))
        parties = Parties()
        parties.begin("waits", lambda: root.wait_for(100))
        while "waits" not in parties.given:
            kernel.end_wait(2)
            time.sleep(0.001)
        self.assertEqual(parties.end(), {"waits": None})
        sigma0.call(Call.send(ThreadId.ROOT, Message.of(untyped=[5])))
        with self.assertRaisesRegex(Refused, "^L3: "):
            root.call_for(Call.receive(), 0.001)
        self.assertEqual(root.wait_for(0.001).untyped, (5,))
        self.assertIsNone(root.take())
        kernel.end_wait(2)
        self.assertEqual(root.call_for(create(3), 0).kind, ReplyKind.CONTROLLED)
        self.assertEqual(len(kernel.close([sigma0, root])), 4)

    def test_tasks_await_the_calls_of_their_seats(self):
        kernel = SharedKernel(1)
        sigma0, root = kernel.seat(1), kernel.seat(2)

        def send(word):
            return sigma0.call_async(Call.send(ThreadId.ROOT, Message.of(untyped=[word])))

        async def run():
            received, _ = await asyncio.gather(root.call_async(Call.receive()), send(5))
            self.assertEqual(received.untyped, (5,))
            # the wait of a task can be ended; its call continues, and a call of another seat ends it
            waiting = asyncio.ensure_future(root.call_async(Call.receive()))
            await asyncio.sleep(0)
            kernel.end_wait(2)
            with self.assertRaisesRegex(Refused, "K3"):
                await waiting
            await send(6)
            self.assertEqual(root.take().untyped, (6,))
            # a task and a thread wait for each other
            waiting = asyncio.ensure_future(root.call_async(Call.receive()))
            await asyncio.sleep(0)
            await asyncio.get_running_loop().run_in_executor(None, sigma0.call, Call.send(ThreadId.ROOT, Message.of(untyped=[8])))
            self.assertEqual((await waiting).untyped, (8,))
            # the kernel is closed meanwhile
            waiting = asyncio.ensure_future(root.call_async(Call.receive()))
            await asyncio.sleep(0)
            kernel.close([sigma0, root])
            with self.assertRaisesRegex(ValueError, "closed"):
                await waiting

        asyncio.run(run())

    def test_the_wait_of_a_call_can_be_ended(self):
        kernel = SharedKernel(1)
        sigma0, root = kernel.seat(1), kernel.seat(2)
        refused = []

        def wait():
            try:
                root.call(Call.receive())
            except Refused as error:
                refused.append(error.code)

        parties = Parties()
        parties.begin("waits", wait)
        while not refused:
            kernel.end_wait(2)
            time.sleep(0.001)
        parties.end()
        self.assertEqual(refused, ["K3"])
        sigma0.call(Call.send(ThreadId.ROOT, Message.of(untyped=[5])))
        self.assertEqual(root.take().untyped, (5,))
        self.assertEqual((repr(kernel), repr(root)), ("<SharedKernel: 3 steps>", "<Seat of thread 2>"))
        self.assertEqual(len(kernel.close([sigma0, root])), 3)
        self.assertEqual(repr(kernel), "<SharedKernel: closed>")

    def test_a_seat_calls_again_after_a_wait_that_ended(self):
        kernel = SharedKernel(1)
        sigma0, root = kernel.seat(1), kernel.seat(2)
        # the timeout of a call passes
        self.assertEqual(root.call(Call.receive(), timeout=0.001).error, 3)
        # another thread cancels the wait of a call
        parties = Parties()
        parties.begin("canceled", lambda: root.call(Call.receive()).error)
        wait_for(kernel, 3)
        kernel.cancel(2)
        self.assertEqual(parties.end(), {"canceled": 7})
        # the same in a send phase, whose receive phase does not begin
        self.assertIsNone(sigma0.call_for(Call.call(ThreadId.ROOT, Message.of(untyped=[5])), 0))
        kernel.timeout(1)
        self.assertEqual(sigma0.take().error, 2)
        # a thread that runs has no wait, and a thread that does not exist has none either
        for thread in (1, 2, 3):
            with self.assertRaisesRegex(Refused, "^K1: "):
                kernel.cancel(thread)
        # both seats call again
        self.assertIsNone(root.call_for(Call.receive(), 0))
        sigma0.call(Call.send(ThreadId.ROOT, Message.of(untyped=[6])))
        self.assertEqual(root.take().untyped, (6,))
        ends = [(entry.seat, str(entry)) for entry in kernel.history() if isinstance(entry.step, Cancel)]
        self.assertEqual(ends, [(0, "timeout 2"), (0, "cancel 2"), (0, "timeout 1")])
        self.assertEqual([receipt.end for receipt in root.receipts], [1, 3, 8])
        self.assertEqual([entry.step for entry in read(kernel.hand_out().to_bytes())[0].entries if entry.seat == 0][0], Cancel(2, timed_out=True))

    def test_tasks_call_again_after_a_wait_that_ended(self):
        kernel = SharedKernel(1)
        sigma0, root = kernel.seat(1), kernel.seat(2)

        async def run():
            self.assertEqual((await root.call_async(Call.receive(), timeout=0.001)).error, 3)
            waiting = asyncio.ensure_future(root.call_async(Call.receive()))
            await asyncio.sleep(0)
            kernel.cancel(2)
            self.assertEqual((await waiting).error, 7)
            # the call of a task that is cancelled is canceled too
            waiting = asyncio.ensure_future(root.call_async(Call.receive()))
            await asyncio.sleep(0)
            waiting.cancel()
            with self.assertRaises(asyncio.CancelledError):
                await waiting
            self.assertIsNone(root.take())
            self.assertEqual((await root.call_async(Call.receive(), timeout=0)).error, 3)
            # but a call that has ended keeps its reply
            waiting = asyncio.ensure_future(root.call_async(Call.receive()))
            await asyncio.sleep(0)
            sigma0.call(Call.send(ThreadId.ROOT, Message.of(untyped=[7])))
            waiting.cancel()
            with self.assertRaises(asyncio.CancelledError):
                await waiting
            self.assertEqual(root.take().untyped, (7,))

        asyncio.run(run())
        ends = [str(entry) for entry in kernel.history() if entry.seat == 0]
        self.assertEqual(ends, ["timeout 2", "cancel 2", "cancel 2", "timeout 2"])

    def test_a_server_thread_shuts_down(self):
        kernel = SharedKernel(1)
        sigma0, root = kernel.seat(1), kernel.seat(2)

        def serve():
            """Answers each message with its first word plus 1, until the receive is canceled, and returns the number of answers."""
            answers, reply = 0, root.call(Call.receive())
            while reply.error != 7:
                answers += 1
                reply = root.call(Call.reply_and_wait(reply.sender, Message.of(untyped=[reply.untyped[0] + 1])))
            return answers

        parties = Parties()
        parties.begin("server", serve)
        for word in (5, 6):
            self.assertEqual(sigma0.call(Call.call(ThreadId.ROOT, Message.of(untyped=[word]))).untyped, (word + 1,))
        while not kernel.thread(2).waits:
            time.sleep(0.001)
        kernel.cancel(2)
        self.assertEqual(parties.end(), {"server": 2})

    def test_a_copy_answers_as_the_kernel_does(self):
        kernel = SharedKernel()
        sigma0, root, first = map(kernel.seat, (1, 2, 3))
        root.call(create(3))
        self.move(sigma0, first, Item.map(Fpage.page(16, Rights.ALL), 32 * PAGE_BYTES))
        copied = kernel.copy()
        self.assertEqual([(mapping.place.page, mapping.frame) for mapping in copied.mappings(2)], [(32, 16)])
        self.assertEqual((copied.threads(), copied.frames), ((1, 2, 3), 256))
        root.call(Call.delete(ThreadId.of(3)))
        self.assertEqual((copied.threads(), kernel.copy().threads()), ((1, 2, 3), (1, 2)))
        self.assertEqual(len(kernel.close([sigma0, root, first])), 5)

    def test_a_deleted_thread_is_gone(self):
        kernel = SharedKernel(1)
        root, waiting = kernel.seat(2), kernel.seat(3)
        root.call(create(3))
        parties = Parties()
        parties.begin("waits", lambda: waiting.call(Call.receive()).kind)
        wait_for(kernel, 2)
        self.assertEqual(root.call(Call.delete(ThreadId.of(3))).kind, ReplyKind.CONTROLLED)
        self.assertEqual(parties.end(), {"waits": ReplyKind.GONE})
        with self.assertRaisesRegex(Refused, "^K2"):
            waiting.call(Call.receive())
        self.assertEqual(len(kernel.close([waiting, root])), 3)

    def move(self, sender, receiver, item):
        """One seat sends an item to another's thread, which receives it."""
        parties = Parties()
        parties.begin("received", lambda: receiver.call(Call.receive(window=Fpage.complete())))
        sender.call(Call.send(ThreadId.of(receiver.number), Message.of(items=[item])))
        parties.end()

    def test_a_page_came_by_two_links(self):
        kernel = SharedKernel()
        sigma0, root, first, second = map(kernel.seat, (1, 2, 3, 4))
        root.call(create(3))
        root.call(create(4))
        self.move(sigma0, first, Item.map(Fpage.page(16, Rights.ALL), 32 * PAGE_BYTES))
        self.move(first, second, Item.grant(Fpage.page(32, Rights.READ), 7 * PAGE_BYTES))
        links = kernel.provenance(3, 7)
        lines = ["entry 4 transfer 1 3 map 16 32 rwx rwx", "entry 7 transfer 3 4 grant 32 7 rwx r--"]
        self.assertEqual([str(link) for link in links], lines)
        self.assertEqual((links[1].source, links[1].target, links[1].grant), (Place(2, 32), Place(3, 7), True))
        kernel.check_provenance(3, 7, links)
        for others in (links[:1], links[1:], []):
            with self.assertRaisesRegex(Refused, "^L7: "):
                kernel.check_provenance(3, 7, others)
        self.assertIsNone(kernel.provenance(2, 32))
        self.assertEqual(kernel.provenance(0, 16), [])
        with self.assertRaises(TypeError):
            kernel.check_provenance(3, 7, lines)

    def test_a_page_came_by_many_links(self):
        kernel = SharedKernel(1)
        sigma0, root = kernel.seat(1), kernel.seat(2)
        for _ in range(10):
            self.move(sigma0, root, Item.grant(Fpage.page(0, Rights.ALL), 0))
            self.move(root, sigma0, Item.grant(Fpage.page(0, Rights.ALL), 0))
        links = kernel.provenance(0, 0)
        self.assertEqual([link.entry for link in links], list(range(2, 60, 3)))
        kernel.check_provenance(0, 0, links)

    def test_a_seat_is_missing(self):
        kernel, other = SharedKernel(1), SharedKernel(1)
        root, third = kernel.seat(2), kernel.seat(3)
        with self.assertRaisesRegex(Refused, "^L4: "):
            kernel.seat(3)
        with self.assertRaisesRegex(Refused, "^X1 3: "):
            kernel.close([root])
        with self.assertRaisesRegex(Refused, "^X2 3: "):
            kernel.close([root, other.seat(3)])
        with self.assertRaisesRegex(Refused, "^X2 3: "):
            kernel.close([root, third, third])
        self.assertEqual(kernel.close([third, root]), ())

    def test_a_call_is_canceled_if_its_wait_is_interrupted(self):
        handler = signal.signal(signal.SIGINT, signal.default_int_handler)
        self.addCleanup(signal.signal, signal.SIGINT, handler)
        kernel = SharedKernel(1)
        sigma0, root = kernel.seat(1), kernel.seat(2)
        self.assertIsNone(root.take())
        threading.Thread(target=interrupt, args=(kernel, 1)).start()
        with self.assertRaises(KeyboardInterrupt):
            root.call(Call.receive())
        self.assertIsNone(root.take())
        self.assertEqual(str(kernel.history()[-1]), "cancel 2")
        # the seat calls again, and leaves this call open
        self.assertIsNone(root.call_for(Call.receive(), 0))
        with self.assertRaisesRegex(Refused, "^K3: "):
            root.call(Call.receive())
        sigma0.call(Call.send(ThreadId.ROOT, Message.of(untyped=[5])))
        with self.assertRaisesRegex(Refused, "^L3: "):
            root.call(Call.receive())
        self.assertEqual(root.take().untyped, (5,))
        self.assertIsNone(root.take())
        self.assertEqual(root.call(create(3)).kind, ReplyKind.CONTROLLED)
        self.assertEqual([(receipt.end, receipt.reply.kind) for receipt in root.receipts], [(1, ReplyKind.IPC), (4, ReplyKind.IPC), (5, ReplyKind.CONTROLLED)])
        self.assertEqual(len(kernel.close([root, sigma0])), 6)

    def wakes_waiting_threads(self, close):
        """Two threads wait for calls while this one closes the kernel."""
        kernel, texts = SharedKernel(1), []
        seats = kernel.seat(1), kernel.seat(2)

        def wait(seat):
            try:
                seat.call(Call.receive())
            except ValueError as error:
                texts.append(str(error))

        # a thread that is never woken does not keep the process
        threads = [threading.Thread(target=wait, args=[seat], daemon=True) for seat in seats]
        for thread in threads:
            thread.start()
        wait_for(kernel, 2)
        close(kernel, seats)
        for thread in threads:
            thread.join(10)
        self.assertEqual(texts, ["the SharedKernel is closed"] * 2)

    def test_closing_wakes_waiting_threads(self):
        self.wakes_waiting_threads(lambda kernel, seats: self.assertEqual(len(kernel.close(seats)), 2))

    def test_the_end_of_a_block_wakes_waiting_threads(self):
        def leave(kernel, _seats):
            with kernel:
                pass

        self.wakes_waiting_threads(leave)

    def test_a_closed_kernel_is_named_in_errors(self):
        with SharedKernel(1) as kernel:
            root = kernel.seat(2)
            self.assertFalse(kernel.closed)
        other = SharedKernel(1)
        other.close([])
        self.assertEqual((kernel.closed, other.closed), (True, True))
        with kernel:
            pass
        for step, *values in (
            (kernel.seat, 3),
            (kernel.history,),
            (kernel.hand_out,),
            (kernel.copy,),
            (kernel.provenance, 0, 0),
            (kernel.check_provenance, 0, 0, []),
            (kernel.close, [root]),
            (other.close, []),
            (root.call, Call.receive()),
            (root.call_for, Call.receive(), 0),
            (root.wait_for, 0),
            (root.take,),
            (getattr, root, "starts"),
            (getattr, root, "receipts"),
            (kernel.thread, 2),
            (kernel.threads,),
            (kernel.mappings, 0),
        ):
            with self.assertRaisesRegex(ValueError, "^the SharedKernel is closed$"):
                step(*values)

    def test_a_shared_kernel_answers_queries(self):
        kernel = SharedKernel(256)
        sigma0, root = kernel.seat(1), kernel.seat(2)
        self.assertIsNone(root.call_for(Call.receive(ThreadId.SIGMA0, Fpage.complete()), 0))
        waiting = Thread(ThreadId.ROOT, 1, ThreadId.SIGMA0, ThreadState.RECEIVING, ThreadId.SIGMA0)
        self.assertEqual((kernel.thread(2), kernel.reply(2), root.poll()), (waiting, None, False))
        sigma0.call(Call.send(ThreadId.ROOT, PAGE))
        self.assertEqual((root.poll(), sigma0.poll()), (True, False))
        self.assertEqual((kernel.threads(), kernel.threads_in(1), kernel.spaces()), ((1, 2), (2,), (0, 1)))
        self.assertEqual((kernel.space_of(2), kernel.space_of(3), kernel.page_bytes), (1, None, PAGE_BYTES))
        mapping = kernel.mapping(1, 16)
        self.assertEqual((mapping.frame, mapping.rights, mapping.parent), (16, Rights.ALL, Place(0, 16)))
        self.assertEqual((list(kernel.mappings(1)), kernel.next_page(1, 17)), ([mapping], None))
        self.assertEqual(kernel.descendants(0, 16), (Place(1, 16),))
        self.assertIs(kernel.thread(2).state, ThreadState.RUNNING)
        self.assertEqual(kernel.reply(2), root.take())
        self.assertFalse(root.poll())
        self.assertIsNone(kernel.thread(3))

    def test_kernels_and_seats_are_not_copied(self):
        kernel = SharedKernel(1)
        for value, name in ((kernel, "SharedKernel"), (kernel.seat(2), "Seat")):
            for way in (copy.copy, copy.deepcopy, pickle.dumps):
                with self.assertRaisesRegex(TypeError, f"^a {name} can't be pickled, nor copied"):
                    way(value)

    def test_arguments_that_are_refused(self):
        with self.assertRaisesRegex(Refused, "^K6"):
            SharedKernel(0)
        kernel = SharedKernel(1, 1024)
        with self.assertRaises(ValueError):
            kernel.seat(1 << 32)
        with self.assertRaises(TypeError):
            kernel.seat(2).call(create)
        with self.assertRaises(TypeError):
            kernel.close([3])


if __name__ == "__main__":
    unittest.main()
