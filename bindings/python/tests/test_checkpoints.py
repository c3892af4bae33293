"""A kernel is written to a checkpoint and read back, and other bytes are refused."""
import unittest

from l4 import (
    PAGE_BYTES,
    SMALL_PAGE_BYTES,
    BadCheckpoint,
    Call,
    CheckpointFault,
    Fpage,
    Kernel,
    Message,
    Refused,
    Rights,
    SharedKernel,
    ThreadId,
    Timeout,
)

WINDOW = Fpage.complete()


def send(number, words, timeout=Timeout.NEVER):
    return Call.send(ThreadId.of(number), Message(words), timeout)


def begun(page_bytes=PAGE_BYTES):
    """Threads 3 and 4 share space 2, and thread 5 has space 3. sigma0's page at byte 0x10000 was mapped to 0x20000 in space 2. Then thread
    3 waits for any message, 4 waits to send to root, 5 has a page fault whose message its pager 3 can get, and sigma0's send to root can
    expire."""
    kernel, says = Kernel(128, page_bytes), (2, 7, 9)
    third, fourth, fifth = map(ThreadId.of, (3, 4, 5))
    kernel.enter(2, Call.create(third, third, ThreadId.ROOT))
    kernel.enter(2, Call.create(fourth, third, third))
    kernel.enter(2, Call.create(fifth, fifth, third))
    kernel.enter(3, Call.receive(window=WINDOW))
    kernel.enter(1, send(3, (0x80, 0x20008, 0x100C7)))
    kernel.start(3, Call.receive(window=WINDOW))
    kernel.start(4, send(2, says))
    kernel.start(5, Call.fault(0x50123, 0x1000, Rights.READ))
    kernel.start(1, send(2, says, Timeout.ZERO))
    return kernel


def seen(kernel):
    """All that the queries of a kernel return."""
    threads = [(kernel.thread(thread), kernel.reply(thread)) for thread in kernel.threads()]
    pages = [(space, list(kernel.mappings(space))) for space in kernel.spaces()]
    return kernel.page_bytes, kernel.enabled(), threads, pages


class Checkpoints(unittest.TestCase):
    def refused(self, data):
        with self.assertRaises(BadCheckpoint) as raised:
            Kernel.from_checkpoint(data)
        self.assertEqual(raised.exception.code, "B6")
        return raised.exception

    def test_a_kernel_continues_from_its_checkpoint(self):
        for page_bytes in PAGE_BYTES, SMALL_PAGE_BYTES:
            kernel = begun(page_bytes)
            data = kernel.checkpoint(1000)
            again, entries = Kernel.from_checkpoint(data)
            self.assertEqual((again.frames, again.page_bytes, entries), (128, page_bytes, 1000))
            self.assertEqual(seen(again), seen(kernel))
            self.assertEqual(again.checkpoint(1000), data)
            steps = list(kernel.steps())
            self.assertEqual((len(steps), list(again.steps())), (2, steps))
            for thread, call in (2, Call.receive()), (3, send(5, (0x80, 0x50008, 0x200C4))):
                self.assertEqual(kernel.enter(thread, call), again.enter(thread, call))
                self.assertEqual(seen(again), seen(kernel))
            self.assertEqual(again.mapping(3, 0x50000 // page_bytes).rights, Rights.READ)

    def test_other_bytes_are_refused(self):
        data = begun().checkpoint()
        for length in range(len(data)):
            self.assertEqual(self.refused(data[:length]).fault, CheckpointFault.CUT)
        bad = self.refused(data + b"x")
        self.assertEqual((bad.fault, bad.position), (CheckpointFault.EXTRA, len(data)))
        for place in range(0, len(data), 7):
            altered = bytearray(data)
            altered[place] ^= 1 << place % 8
            self.refused(bytes(altered))
        bad = self.refused(data[:40] + bytes([data[40] ^ 1]) + data[41:])
        self.assertEqual(str(bad), f"byte {len(data) - 32}: the checksum is not that of the checkpoint")
        with self.assertRaises(TypeError):
            Kernel.from_checkpoint("LCP4")

    def test_a_number_that_no_history_has_is_refused(self):
        kernel = Kernel(1)
        with self.assertRaises(Refused) as raised:
            kernel.checkpoint((1 << 63) + 1)
        self.assertEqual(raised.exception.code, "B7")
        self.assertEqual(Kernel.from_checkpoint(kernel.checkpoint(1 << 63))[1], 1 << 63)
        kernel.close()
        with self.assertRaises(ValueError):
            kernel.checkpoint()

    def test_the_state_of_a_shared_kernel_is_written_by_its_copy(self):
        again, entries = Kernel.from_checkpoint(SharedKernel(3).copy().checkpoint(7))
        self.assertEqual((again.frames, len(list(again.mappings(0))), entries), (3, 3, 7))


if __name__ == "__main__":
    unittest.main()
