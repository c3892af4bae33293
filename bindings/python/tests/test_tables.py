"""The tables of pagers, and sigma0's."""
import copy
import unittest

from l4 import (
    MAX_FRAMES,
    SMALL_PAGE_BYTES,
    SMALL_SPACE_PAGES,
    SPACE_PAGES,
    Call,
    Kernel,
    Message,
    Pager,
    Refused,
    Region,
    ReplyKind,
    Rights,
    Sigma0,
    ThreadId,
)

NOTHING = Message((0x80, 0x8, 0))


def fault(address):
    """A fault that reads at this address."""
    return Message.of(0xFFE4, [address, 0])


class Tables(unittest.TestCase):
    def refuses(self, code, detail, step, *values):
        with self.assertRaises(Refused) as caught:
            step(*values)
        self.assertEqual((caught.exception.code, caught.exception.detail), (code, detail))

    def test_regions_are_added_and_found(self):
        pager = Pager()
        self.refuses("P2", None, pager.find, 4, Rights.NONE)
        pager.add(Region(100, 4, 4, Rights.READ))
        self.refuses("P1", None, pager.add, Region(100, 7, 4, Rights.READ))
        self.refuses("P4", None, pager.add, Region(100, 4, 0, Rights.READ))
        self.refuses("P4", None, pager.add, Region(SPACE_PAGES, 4, 1, Rights.READ))
        self.assertEqual((pager.find(7, Rights.READ), pager.find(7, Rights.NONE)), (103, 103))
        self.refuses("P2", None, pager.find, 7, Rights.ALL)
        self.refuses("P2", None, pager.find, 8, Rights.NONE)
        for place in range(1, 64):
            pager.add(Region(100, 100 * place, 4, Rights.READ))
        self.refuses("P3", None, pager.add, Region(100, 9000, 4, Rights.READ))

    def test_a_pager_answers_messages(self):
        pager = Pager()
        pager.add(Region(100, 4, 4, Rights.READ))
        self.assertEqual(pager.answer(fault(0x5678)), Message((0x80, 0x5008, 0x650C4)))
        self.assertEqual((pager.answer(fault(0x9000)), pager.answer(Message((0,)))), (NOTHING, NOTHING))
        self.refuses("M7", None, pager.answer, Message())
        self.refuses("M3", 1, pager.answer, Message((0x100, 8, 0, 14, 0)))

    def test_sigma0_gives_each_frame_to_one_space(self):
        self.refuses("K6", None, Sigma0, 0)
        self.refuses("K6", None, Sigma0, MAX_FRAMES + 1)
        sigma0, given = Sigma0(8), Message((0x80, 0x5008, 0x50C7))
        self.assertEqual((sigma0.answer(2, fault(0x5000)), sigma0.answer(2, fault(0x5FFF))), (given, given))
        self.assertEqual((sigma0.answer(1 << 63, fault(0x5000)), sigma0.answer(2, fault(0x8000))), (NOTHING, NOTHING))
        self.refuses("M3", 1, sigma0.answer, 2, Message((0x100, 8, 0, 14, 0)))

    def test_tables_may_have_small_pages(self):
        pager = Pager(SMALL_PAGE_BYTES)
        pager.add(Region(100, 20, 4, Rights.READ | Rights.EXECUTE))
        self.assertEqual(pager.answer(fault(0x5678)), Message((0x80, 0x5408, 0x194A5)))
        pager.add(Region(SPACE_PAGES, 4, 1, Rights.READ))
        self.refuses("P4", None, pager.add, Region(SMALL_SPACE_PAGES, 8, 1, Rights.READ))
        sigma0 = Sigma0(256, SMALL_PAGE_BYTES)
        self.assertEqual(sigma0.answer(2, fault(0x5678)), Message((0x80, 0x5408, 0x54A7)))
        self.assertEqual(sigma0.answer(3, fault(0x5400)), NOTHING)
        self.refuses("B4", None, Pager, 2048)
        self.refuses("B4", None, Sigma0, 0, 0)

    def test_a_fault_is_served_through_a_kernel(self):
        kernel, sigma0, client = Kernel(256), Sigma0(256), ThreadId.of(3)
        kernel.enter(2, Call.create(client, client, ThreadId.SIGMA0))
        kernel.enter(1, Call.receive())
        kernel.enter(3, Call.fault(0x5678, 0, Rights.READ))
        asked = kernel.reply(1).check()
        space = kernel.space_of(asked.sender.number)
        kernel.enter(1, Call.send(asked.sender, sigma0.answer(space, asked.message)))
        self.assertIs(kernel.reply(3).kind, ReplyKind.ANSWERED)
        self.assertEqual(kernel.mapping(space, 5).frame, 5)

    def test_numbers_that_do_not_fit_raise_value_error(self):
        for step, values in (
            (Pager().find, (1 << 32, Rights.NONE)),
            (Sigma0, (-1,)),
            (Sigma0().answer, (1 << 64, fault(0))),
            (Region, (1 << 32, 0, 1, Rights.ALL)),
            (Region, (0, -1, 1, Rights.ALL)),
        ):
            with self.assertRaises(ValueError):
                step(*values)

    def test_other_types_raise_type_error(self):
        for step, values in (
            (Region, (0, 0, 1, 7)),
            (Region, (0, 0, "1", Rights.ALL)),
            (Pager().add, ((0, 0, 1, 7),)),
            (Pager().find, (5, 4)),
            (Pager().answer, ((0,),)),
            (Sigma0().answer, (2, [0])),
        ):
            with self.assertRaises(TypeError):
                step(*values)

    def test_closed_tables_are_refused(self):
        with Pager() as pager, Sigma0() as sigma0:
            with self.assertRaises(TypeError):
                copy.copy(pager)
        for step, *values in (
            (pager.add, Region(100, 4, 4, Rights.READ)),
            (pager.find, 4, Rights.NONE),
            (pager.answer, fault(0)),
            (sigma0.answer, 2, fault(0)),
        ):
            with self.assertRaisesRegex(ValueError, "closed"):
                step(*values)


if __name__ == "__main__":
    unittest.main()
