"""Each call of the package on a kernel, and what a caller can't do."""
import copy
import gc
import os
import pickle
import threading
import time
import unittest

from l4 import (
    MAX_FRAMES,
    MAX_THREADS,
    SMALL_PAGE_BYTES,
    Call,
    Done,
    Expire,
    Fpage,
    IpcFailed,
    Item,
    Kernel,
    Mapping,
    Message,
    Outcome,
    Place,
    Refused,
    Reply,
    ReplyKind,
    Rights,
    Thread,
    ThreadId,
    ThreadState,
    Timeout,
    Transfer,
)

WINDOW = Fpage.complete()
THREAD = ThreadId.of(3)


def delivered():
    """A kernel whose thread 3, in space 2, shows page 16 of sigma0's as its page 32."""
    kernel = Kernel(256)
    kernel.start(2, Call.create(THREAD, THREAD, ThreadId.ROOT))
    kernel.start(3, Call.receive(window=WINDOW))
    kernel.start(1, Call.send(THREAD, Message((0x80, 0x20008, 0x100C7))))
    kernel.transfer(1, 3)
    return kernel


def resident_pages():
    """The pages of memory that the process has in use."""
    with open("/proc/self/statm") as file:
        return int(file.read().split()[1])


class Kernels(unittest.TestCase):
    def refuses(self, code, detail, step, *values):
        with self.assertRaises(Refused) as caught:
            step(*values)
        self.assertEqual((caught.exception.code, caught.exception.detail), (code, detail))

    def test_a_kernel_may_have_small_pages(self):
        with Kernel(256, SMALL_PAGE_BYTES) as kernel:
            kernel.enter(2, Call.receive(window=WINDOW))
            kernel.enter(1, Call.send(ThreadId.ROOT, Message((0x80, 0x20008, 0x100C7))))
            shown = [(mapping.place.page, mapping.frame) for mapping in kernel.mappings(1)]
            self.assertEqual((kernel.page_bytes, shown), (1024, [(128, 64), (129, 65), (130, 66), (131, 67)]))
        self.refuses("B4", None, Kernel, 256, 2048)
        self.refuses("B4", None, Kernel, 0, 1)
        with self.assertRaises(ValueError):
            Kernel(256, 1 << 32)

    def test_a_kernel_boots_with_its_frames(self):
        self.refuses("K6", None, Kernel, 0)
        self.refuses("K6", None, Kernel, MAX_FRAMES + 1)
        with Kernel(MAX_FRAMES) as kernel:
            self.assertEqual(sum(1 for _ in kernel.mappings(0)), MAX_FRAMES)
            self.assertEqual(list(kernel.mappings(1)), [])
            self.assertEqual([kernel.space_of(thread) for thread in (1, 2, 3)], [0, 1, None])
            self.assertIsNone(kernel.reply(1))

    def test_two_kernels_are_independent(self):
        one, other = delivered(), Kernel(1)
        one.close()
        self.assertEqual(len(list(other.mappings(0))), 1)

    def test_steps_are_executed_one_by_one(self):
        kernel = Kernel(256)
        answer = kernel.start(2, Call.create(THREAD, THREAD))
        self.assertEqual((answer.outcome, answer.ended), (Outcome.STARTED, (2,)))
        self.assertEqual(kernel.start(3, Call.receive(window=WINDOW)).ended, ())
        self.assertIsNone(kernel.enabled())
        kernel.start(1, Call.send(THREAD, Message((0,))))
        self.assertEqual(kernel.enabled(), Transfer(1, 3))
        self.refuses("K1", None, kernel.transfer, 3, 1)
        self.assertEqual(kernel.next(), Done(Transfer(1, 3), Outcome.DELIVERED, (1, 3)))
        self.assertIsNone(kernel.next())
        kernel.start(3, Call.receive(timeout=Timeout.ZERO))
        self.assertEqual(list(kernel.steps()), [Done(Expire(3), Outcome.EXPIRED, (3,))])

    def test_a_message_maps_a_page(self):
        kernel = delivered()
        reply = kernel.reply(3).check()
        self.assertEqual((reply.kind, reply.tag, reply.sender), (ReplyKind.IPC, 0x80, ThreadId.SIGMA0))
        self.assertEqual((reply.label, reply.untyped, reply.words), (0, (), (0x20008, 0x100C7)))
        self.assertEqual(reply.items, (Item.map(Fpage.page(16, Rights.ALL), 0x20000),))
        mapping = Mapping(Place(2, 32), 16, Rights.ALL, Place(0, 16))
        self.assertEqual((kernel.mapping(2, 32), list(kernel.mappings(2))), (mapping, [mapping]))
        self.assertEqual((kernel.next_page(2, 0), kernel.next_page(2, 33)), (32, None))
        self.assertIsNone(kernel.mapping(0, 16).parent)
        self.assertEqual([kernel.mapping(*place) for place in ((2, 31), (9, 32), (1 << 63, 0), (2, 1 << 31))], [None] * 4)

    def test_descendants_of_a_page_are_listed_once(self):
        kernel = delivered()
        first = Place(2, 32)
        self.assertEqual(kernel.descendants(0, 16), (first,))
        # thread 3 maps its page 32 to pages 0 to 19 of root
        for page in range(20):
            kernel.start(2, Call.receive(window=WINDOW))
            kernel.enter(3, Call.send(ThreadId.ROOT, Message.of(items=[Item.map(Fpage.page(32, Rights.READ), page << 12)])))
        below = [Place(1, page) for page in range(20)]
        self.assertEqual(sorted(kernel.descendants(2, 32), key=lambda place: place.page), below)
        everything = kernel.descendants(0, 16)
        self.assertEqual((len(everything), set(everything)), (21, {first, *below}))
        self.assertEqual([kernel.descendants(*place) for place in ((0, 17), (1, 0), (1, 20), (9, 0), (0, 1 << 31))], [()] * 5)

    def test_threads_and_spaces_are_listed(self):
        kernel = delivered()
        kernel.enter(2, Call.create(ThreadId.of(9), THREAD))
        self.refuses("H3", None, kernel.enter, 2, Call.create(ThreadId.of(9), THREAD))
        self.assertEqual((kernel.threads(), kernel.spaces()), ((1, 2, 3, 9), (0, 1, 2)))
        kernel.start(2, Call.delete(THREAD))
        self.assertEqual((kernel.threads(), kernel.spaces()), ((1, 2, 9), (0, 1, 2)))
        kernel.start(2, Call.delete(ThreadId.of(9)))
        self.assertEqual((kernel.threads(), kernel.spaces()), ((1, 2), (0, 1)))

    def test_threads_of_a_space_are_listed(self):
        kernel = delivered()
        kernel.enter(2, Call.create(ThreadId.of(9), THREAD))
        self.assertEqual([kernel.threads_in(space) for space in range(4)], [(1,), (2,), (3, 9), ()])
        with self.assertRaises(ValueError):
            kernel.threads_in(-1)

    def test_a_thread_is_absent_or_new_or_runs_or_waits(self):
        kernel = Kernel(256)
        self.assertIsNone(kernel.thread(3))
        self.assertEqual(kernel.thread(1), Thread(ThreadId.SIGMA0, 0, ThreadId.NIL, ThreadState.NEW))
        kernel.start(2, Call.create(THREAD, THREAD, ThreadId.ROOT))
        self.assertEqual(kernel.thread(3), Thread(THREAD, 2, ThreadId.ROOT, ThreadState.NEW))
        self.assertEqual((kernel.thread(2).state, kernel.thread(2).waits), (ThreadState.RUNNING, False))
        kernel.start(3, Call.fault(0x20123, 0x1000, Rights.READ))
        self.assertEqual(kernel.thread(3), Thread(THREAD, 2, ThreadId.ROOT, ThreadState.SENDING, ThreadId.ROOT, fault=True))
        kernel.start(2, Call.receive(timeout=Timeout.ZERO))
        waiting = kernel.thread(2)
        self.assertEqual((waiting.state, waiting.partner, waiting.expires, waiting.waits), (ThreadState.RECEIVING, ThreadId.ANY, True, True))

    def test_steps_and_replies_have_the_lines_of_scripts(self):
        kernel = delivered()
        self.assertEqual((kernel.reply(3).line(3), kernel.reply(2).line(2)), ("3 ipc 00000080 0 1 00020008 000100c7", "2 control ok"))
        kernel.start(2, Call.receive(timeout=Timeout.ZERO))
        self.assertEqual((kernel.enabled().line, kernel.next().line), ("expire 2", "expire 2"))
        self.assertEqual(kernel.reply(2).line(2), "2 ipc 00008000 3 nil")
        kernel.start(3, Call.receive())
        step = kernel.enter(1, Call.send(THREAD, Message((0x80, 0x20008, 0x100C7)))).steps[0]
        self.assertEqual((step.step.line, step.line, step.outcome), ("transfer 1 3", "transfer 1 3 no-window", Outcome.NO_WINDOW))
        lines = [Reply(kind, error=5 if kind is ReplyKind.FAILED else 0).line(4) for kind in ReplyKind]
        self.assertEqual(
            lines, ["4 ipc 00000000 0 nil", "4 fault hit", "4 fault answered", "4 fault failed 5", "4 unmap ok", "4 control ok", "4 gone"]
        )
        self.assertEqual(len(Reply(ReplyKind.IPC, 0x3F, 0, ThreadId(0xFFFFC001), (1,) * 63).line(262143)), 6 + 13 + 2 + 7 + 63 * 9)

    def test_a_run_has_two_continuations(self):
        kernel = delivered()
        kernel.start(1, Call.send(ThreadId.ROOT, Message((1, 5)), Timeout.ZERO))
        copied = kernel.copy()
        self.assertEqual((copied.frames, copied.page_bytes, copied.threads()), (256, 4096, (1, 2, 3)))
        self.assertEqual(kernel.enter(2, Call.receive()).steps[0].step, Transfer(1, 2))
        self.assertEqual(kernel.reply(2).words, (5,))
        self.assertEqual((copied.enabled(), copied.reply(2).kind), (Expire(1), ReplyKind.CONTROLLED))
        copied.expire(1)
        copied.start(2, Call.delete(THREAD))
        self.assertEqual((copied.reply(1).error, copied.spaces()), (2, (0, 1)))
        self.assertEqual((kernel.spaces(), kernel.mapping(2, 32).frame), ((0, 1, 2), 16))
        kernel.close()
        self.assertEqual(copied.mapping(0, 16).frame, 16)
        self.assertEqual(copied.copy().threads(), (1, 2))
        with self.assertRaises(ValueError):
            kernel.copy()

    def test_the_other_kinds_of_calls(self):
        kernel = delivered()
        kernel.start(3, Call.fault(0x20123, 0, Rights.READ))
        self.assertIs(kernel.reply(3).kind, ReplyKind.HIT)
        kernel.start(1, Call.unmap([Fpage.complete(Rights.WRITE)]))
        self.assertIs(kernel.reply(1).kind, ReplyKind.UNMAPPED)
        self.assertEqual(kernel.mapping(2, 32).rights, Rights.READ | Rights.EXECUTE)
        kernel.start(3, Call.receive(timeout=Timeout.ZERO))
        self.assertEqual(kernel.enabled(), Expire(3))
        self.refuses("K1", None, kernel.expire, 1)
        self.assertIs(kernel.expire(3).outcome, Outcome.EXPIRED)
        with self.assertRaises(IpcFailed) as caught:
            kernel.reply(3).check()
        self.assertEqual(str(caught.exception), "ErrorCode 3: the timeout of the receive phase expired")
        self.refuses("H1", None, kernel.start, 3, Call.set_pager(THREAD, ThreadId.SIGMA0))
        kernel.start(2, Call.set_pager(THREAD, ThreadId.SIGMA0))
        self.assertIs(kernel.reply(2).kind, ReplyKind.CONTROLLED)
        kernel.start(3, Call.fault(0, 0, Rights.WRITE))
        self.assertEqual(kernel.start(2, Call.delete(THREAD)).ended, (2, 3))
        self.assertIsNone(kernel.reply(3))

    def test_waits_that_end_without_their_partners(self):
        kernel = Kernel(256)
        kernel.start(2, Call.create(THREAD, THREAD, ThreadId.ROOT))
        for end in (kernel.timeout, kernel.cancel):
            for thread in (2, 3, 4):
                self.refuses("K1", None, end, thread)
        # the phase of each call, and with the transfer of a send enabled; its receive phase does not begin
        sends, fault = Call.call(THREAD, Message.of(untyped=[5])), Call.fault(0x5000, 0x44, Rights.READ)
        for thread, call, errors in ((3, Call.receive(), (3, 7)), (1, sends, (2, 6)), (3, fault, (2, 6))):
            for end, error in zip((kernel.timeout, kernel.cancel), errors):
                kernel.start(thread, call)
                answer = end(thread)
                self.assertEqual((answer.outcome, answer.ended), (Outcome.WAIT_ENDED, (thread,)))
                self.assertEqual((kernel.reply(thread).error, kernel.thread(thread).waits), (error, False))
        self.assertIs(kernel.reply(3).kind, ReplyKind.FAILED)
        kernel.start(3, Call.receive())
        kernel.start(1, sends)
        self.assertEqual(kernel.enabled(), Transfer(1, 3))
        kernel.cancel(1)
        self.assertIsNone(kernel.enabled())
        kernel.cancel(3)
        with self.assertRaises(IpcFailed) as caught:
            kernel.reply(3).check()
        self.assertEqual(str(caught.exception), "ErrorCode 7: the receive phase was canceled")

    def test_a_call_is_entered_with_its_steps(self):
        kernel = Kernel(1)
        entered = kernel.enter(2, Call.receive())
        self.assertEqual((entered.start.ended, entered.steps), ((), ()))
        entered = kernel.enter(1, Call.send(ThreadId.ROOT, Message((1, 5))))
        self.assertEqual(entered.steps, (Done(Transfer(1, 2), Outcome.DELIVERED, (1, 2)),))
        self.refuses("K2", None, kernel.enter, 9, Call.delete(THREAD))

    def test_a_message_without_a_window_and_an_entangled_one(self):
        kernel = Kernel(64)
        page = Fpage.page(5, Rights.ALL)
        twice = Message.of(items=[Item.grant(page, 0x5000), Item.map(page, 0x5000)])
        for window, outcome in ((None, Outcome.NO_WINDOW), (WINDOW, Outcome.ENTANGLED)):
            kernel.start(2, Call.receive(ThreadId.SIGMA0, window))
            self.assertIs(kernel.enter(1, Call.send(ThreadId.ROOT, twice)).steps[0].outcome, outcome)
            self.assertEqual((kernel.reply(1).error, kernel.reply(2).error), (8, 9))

    def test_refusals_carry_their_numbers(self):
        kernel = Kernel(1)
        for words, code, detail in (
            ((), "M7", None),
            ((0xFFF,) * 64, "M1", None),
            ((0x1000,), "M5", None),
            ((0x40, 0), "M2", None),
            ((0x100, 8, 0, 14, 0), "M3", 1),
            ((0x100, 8, 0, 0, 0), "M4", 1),
        ):
            self.refuses(code, detail, kernel.start, 1, Call.send(ThreadId.ROOT, Message(words)))
        self.refuses("M6", None, kernel.start, 1, Call.ipc(ThreadId.NIL, ThreadId.ANY, 0, 0x20, Message()))
        self.refuses("K4", None, kernel.start, 1, Call.ipc(ThreadId.NIL, ThreadId.ANY, 1, 0x20, Message()))
        self.refuses("U1", 1, kernel.start, 1, Call.unmap_words(1, [0x17, 0x20]))
        self.refuses("U2", None, kernel.start, 1, Call.unmap_words(1, [0x17]))
        kernel.start(2, Call.receive())
        self.refuses("K3", None, kernel.start, 2, Call.delete(THREAD))
        with self.assertRaisesRegex(Refused, "^M3 1: the item has an unknown kind, or its fpage is invalid$"):
            kernel.start(1, Call.send(ThreadId.ROOT, Message((0x100, 8, 0, 14, 0))))

    def test_refusals_are_pickled(self):
        refused = pickle.loads(pickle.dumps(Refused(0x4D33, 1)))
        self.assertEqual((refused.code, refused.detail), ("M3", 1))

    def test_sixty_two_calls_end_at_once(self):
        kernel = Kernel(1)
        for thread in range(3, MAX_THREADS + 1):
            kernel.enter(2, Call.create(ThreadId.of(thread), ThreadId.of(thread)))
            kernel.enter(thread, Call.send(THREAD, Message((0,))))
        self.refuses("H5", None, kernel.start, 2, Call.create(ThreadId.of(65), ThreadId.ROOT))
        self.assertEqual(kernel.start(2, Call.delete(THREAD)).ended, (2, *range(4, MAX_THREADS + 1)))

    def test_sixty_four_waits_end_after_a_call(self):
        kernel = Kernel(1)
        for thread in range(3, MAX_THREADS + 1):
            kernel.enter(2, Call.create(ThreadId.of(thread), ThreadId.of(thread)))
        for thread in range(2, MAX_THREADS + 1):
            kernel.start(thread, Call.receive(timeout=Timeout.ZERO))
        entered = kernel.enter(1, Call.receive(timeout=Timeout.ZERO))
        self.assertEqual([done.ended for done in entered.steps], [(thread,) for thread in range(1, MAX_THREADS + 1)])

    def test_numbers_that_do_not_fit_raise_value_error(self):
        kernel = Kernel(1)
        for step, values in (
            (Kernel, (1 << 32,)),
            (kernel.start, (1 << 32, Call.receive())),
            (kernel.enter, (-1, Call.receive())),
            (kernel.transfer, (1, 1 << 32)),
            (kernel.transfer, (-1, 1)),
            (kernel.expire, (1 << 32,)),
            (kernel.timeout, (1 << 32,)),
            (kernel.cancel, (-1,)),
            (kernel.reply, (1 << 32,)),
            (kernel.space_of, (1 << 32 | 1,)),
            (kernel.thread, (1 << 32 | 1,)),
            (kernel.mapping, (1 << 64, 0)),
            (kernel.mapping, (0, 1 << 32)),
            (kernel.next_page, (1 << 64, 0)),
            (kernel.next_page, (0, -1)),
        ):
            with self.assertRaises(ValueError):
                step(*values)

    def test_values_of_other_types_raise_type_error(self):
        kernel = Kernel(7)
        self.assertEqual(kernel.frames, 7)
        for step, values, text in (
            (kernel.enter, (ThreadId.ROOT, Call.receive()), "a thread number is a number"),
            (kernel.reply, (ThreadId.ROOT,), "a thread number is a number"),
            (kernel.space_of, ("1",), "a thread number is a number"),
            (kernel.enter, (2, Message()), "what a thread starts is a Call"),
            (kernel.start, (2, None), "what a thread starts is a Call"),
        ):
            with self.assertRaisesRegex(TypeError, text):
                step(*values)

    def test_replies_are_shown_in_words(self):
        kernel = Kernel(1)
        kernel.enter(1, Call.send(ThreadId.of(9), Message((0,))))
        self.assertEqual(repr(kernel.reply(1)), "<Reply ipc 0x00008000: ErrorCode 4: there is no thread to send to>")
        kernel.enter(1, Call.send(ThreadId.NIL, Message((0,))))
        self.assertEqual(repr(kernel.reply(1)), "<Reply ipc 0x00000000: no message was received>")
        kernel.enter(1, Call.fault(0, 0, Rights.READ))
        self.assertEqual(repr(kernel.reply(1)), "<Reply hit: the page is there with the rights that the access needs>")

    def test_a_closed_kernel_is_refused(self):
        with delivered() as kernel:
            self.assertFalse(kernel.closed)
        self.assertTrue(kernel.closed)
        kernel.close()
        for step, *values in (
            (kernel.start, 1, Call.receive()),
            (kernel.enter, 1, Call.receive()),
            (kernel.transfer, 1, 2),
            (kernel.expire, 1),
            (kernel.timeout, 1),
            (kernel.cancel, 1),
            (kernel.enabled,),
            (kernel.next,),
            (kernel.reply, 1),
            (kernel.space_of, 1),
            (kernel.thread, 1),
            (kernel.mapping, 0, 0),
            (kernel.next_page, 0, 0),
            (kernel.threads,),
            (kernel.threads_in, 0),
            (kernel.descendants, 0, 0),
            (kernel.mappings, 0),
        ):
            with self.assertRaisesRegex(ValueError, "closed"):
                step(*values)

    def test_a_kernel_is_not_copied(self):
        kernel = Kernel(1)
        for way in (copy.copy, copy.deepcopy, pickle.dumps):
            with self.assertRaises(TypeError):
                way(kernel)

    @unittest.skipUnless(os.path.exists("/proc/self/statm"), "the system doesn't tell what memory is in use")
    def test_kernels_are_freed(self):
        def use(close):
            kernel = Kernel(MAX_FRAMES)
            kernel.enter(1, Call.send(ThreadId.NIL, Message((0,))))
            if close:
                kernel.close()

        use(True)
        before = resident_pages()
        for turn in range(400):
            use(turn % 2)
        gc.collect()
        self.assertLess(resident_pages(), before + 400 * 4)

    def test_threads_take_turns(self):
        kernel, under_way, most = Kernel(1), [], []

        def slow(_handle):
            under_way.append(None)
            most.append(len(under_way))
            time.sleep(0.02)
            under_way.pop()

        workers = [threading.Thread(target=kernel._ask, args=(slow,)) for _ in range(4)]
        for worker in workers:
            worker.start()
        for worker in workers:
            worker.join()
        self.assertEqual(most, [1] * 4)

    def test_a_kernel_is_freed_after_the_call_that_is_under_way(self):
        kernel, held = Kernel(1), []
        closing = threading.Thread(target=kernel.close)

        def slow(_handle):
            closing.start()
            time.sleep(0.05)
            held.append(kernel._handle.hidden is not None)

        kernel._ask(slow)
        closing.join()
        self.assertEqual((held, kernel._handle.hidden), ([True], None))


if __name__ == "__main__":
    unittest.main()
