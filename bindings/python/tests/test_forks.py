"""What works in a process that was forked."""
import os
import subprocess
import sys
import unittest

# what each program begins with: a kernel of each kind, and every kind of call of the library
BEGIN = """
import os, signal, threading, l4
from l4 import Call, FrameRequest, Kernel, Message, PageFault, Pager, Region, Rights, SharedKernel, Sigma0, ThreadId

kernel, shared, pager, sigma0 = Kernel(1), SharedKernel(1), Pager(), Sigma0(1)
seat, fault, region = shared.seat(2), Message.of(0xffe4, [0, 0]), Region(4, 12, 12, Rights.ALL)
plan = region.plan()
pager.add(region)
nothing = Call.send(ThreadId.NIL, Message.of())
calls = [
    Kernel, SharedKernel, Pager, Sigma0,
    lambda: kernel.enter(1, nothing), kernel.spaces, kernel.enabled, kernel.copy,
    lambda: shared.seat(1), shared.history, lambda: shared.provenance(0, 0), lambda: shared.check_provenance(0, 0, []),
    lambda: seat.call(nothing), seat.take, lambda: seat.starts, lambda: seat.receipts,
    lambda: pager.find(12, Rights.READ), lambda: pager.answer(fault), lambda: sigma0.answer(2, fault),
    region.plan, plan.only, plan.pages, lambda: region.check(words, pages), lambda: PageFault.read(fault), lambda: FrameRequest.read(fault),
    lambda: shared.close([seat]),
]
words, pages = plan.words(), plan.pages()

def in_child(work):
    # a child that waits for a lock is ended by the alarm
    if os.fork() == 0:
        signal.alarm(20)
        os._exit(work())
    return os.wait()[1]

def failures():
    failed = []
    for call in calls:
        try:
            call()
        except l4.Refused:
            pass
        except RuntimeError as error:
            failed.append(str(error))
    return failed
"""

WITHOUT_THREADS = """
assert in_child(lambda: len(failures())) == 0
assert kernel.space_of(2) == 1 and shared.steps() == 0
"""

AMONG_THREADS = """
begun, release = threading.Event(), threading.Event()

def hold(_handle):
    begun.set()
    release.wait()

for owner in (kernel, shared._lock):
    begun.clear()
    threading.Thread(target=owner._ask, args=(hold,)).start()
    begun.wait()

def work():
    failed = failures()
    suggest = ["multiprocessing.get_context('spawn')" in text for text in failed]
    with kernel, pager, sigma0, shared:
        pass
    repr([nothing, fault, region, plan])
    return suggest != [True] * len(calls)

status = in_child(work)
release.set()
assert status == 0
"""


@unittest.skipUnless(hasattr(os, "fork"), "no fork")
class Forks(unittest.TestCase):
    def succeeds(self, program):
        done = subprocess.run([sys.executable, "-W", "ignore", "-c", BEGIN + program], stderr=subprocess.PIPE, text=True)
        self.assertEqual((done.returncode, done.stderr), (0, ""))

    def test_a_child_of_a_process_with_one_thread_can_make_every_call(self):
        self.succeeds(WITHOUT_THREADS)

    def test_a_child_of_a_process_with_threads_can_make_no_call(self):
        self.succeeds(AMONG_THREADS)


if __name__ == "__main__":
    unittest.main()
