"""Plans and their checks."""
import unittest

from l4 import PAGE_BYTES, SMALL_PAGE_BYTES, SMALL_SPACE_PAGES, SPACE_PAGES, Refused, Region, Rights, TooLong


class Plans(unittest.TestCase):
    def refuses(self, code, detail, step, *values):
        with self.assertRaises(Refused) as caught:
            step(*values)
        self.assertEqual((caught.exception.code, caught.exception.detail), (code, detail))

    def test_a_plan_is_checked(self):
        region = Region(4, 12, 12, Rights.ALL)
        plan = region.plan()
        words, pages = plan.words(), plan.pages()
        self.assertEqual((words, pages), ((0xC009, 0x40E7, 0x10008, 0x80F7), (4, 8)))
        self.assertEqual(list(plan.messages()), [plan.only()])
        self.assertEqual((plan.only().words[0], plan.item_count), (0x100, 2))
        self.assertEqual([item.fpage.page_range for item in plan.items()], [range(4, 8), range(8, 16)])
        region.check(words, pages)
        self.refuses("M2", None, region.check, words[:3], pages)
        self.refuses("C5", None, region.check, words, [4])
        self.refuses("C3", 1, region.check, words, [4, 16])
        self.refuses("C4", 1, region.check, words, [4, 5])
        self.refuses("C2", 16, Region(4, 12, 13, Rights.ALL).check, words, pages)
        self.refuses("C1", 0, Region(4, 12, 12, Rights.READ).check, words, pages)
        self.refuses("C6", None, Region(4, 12, 0, Rights.ALL).check, words, pages)
        self.refuses("C2", 4, region.check, [], [])

    def test_regions_are_refused(self):
        self.refuses("N1", None, Region(4, 12, 0, Rights.ALL).plan)
        self.refuses("N2", None, Region(SPACE_PAGES, 12, 1, Rights.ALL).plan)
        self.refuses("N3", None, Region(4, 12, 1, Rights.NONE).plan)
        with self.assertRaises(ValueError):
            Region(1 << 32, 12, 1, Rights.ALL)

    def test_small_pages_have_plans_of_their_own(self):
        region = Region(16, 32, 1, Rights.ALL)
        plan = region.plan(SMALL_PAGE_BYTES)
        self.assertEqual((plan.only().words, plan.pages()), ((0x80, 0x8008, 0x40A7), (16,)))
        region.check(plan.words(), plan.pages(), SMALL_PAGE_BYTES)
        self.refuses("C2", 16, region.check, plan.words(), plan.pages())
        whole = Region(0, 0, SMALL_SPACE_PAGES, Rights.ALL)
        self.assertEqual(whole.plan(SMALL_PAGE_BYTES).only().words, (0x80, 0x8, 0x17))
        self.refuses("N2", None, whole.plan)
        self.refuses("N2", None, Region(SMALL_SPACE_PAGES, 0, 1, Rights.ALL).plan, SMALL_PAGE_BYTES)
        self.refuses("B4", None, region.plan, 2048)
        self.refuses("B4", None, region.check, [], [], 0)
        self.refuses("B4", None, region.check_too_long, [], 1)
        long = Region(1, 0, 1985, Rights.ALL)
        with self.assertRaises(TooLong) as caught:
            long.plan(SMALL_PAGE_BYTES)
        long.check_too_long(caught.exception.pages, SMALL_PAGE_BYTES)

    def test_forty_items_go_in_two_messages(self):
        # each page needs an item of its own, by either size
        region = Region(0, 1, 40, Rights.READ)
        for page_bytes, last in ((PAGE_BYTES, (0x28008, 0x270C4)), (SMALL_PAGE_BYTES, (0xA008, 0x9CA4))):
            plan = region.plan(page_bytes)
            self.assertEqual((plan.item_count, plan.message_count, plan.page_bytes), (40, 2, page_bytes))
            first, second = plan.messages()
            self.assertEqual([(message.words[0], len(message.words)) for message in (first, second)], [(0xF80, 63), (0x480, 19)])
            self.assertEqual(second.words[17:], last)
            self.refuses("N5", None, plan.only)
            self.refuses("N6", None, plan.message, 2)
            self.assertEqual((len(plan.items()), plan.pages()), (40, tuple(range(40))))
            region.check(plan.words(), plan.pages(), page_bytes)

    def test_a_region_may_need_too_many_items(self):
        region = Region(0, 1, 1985, Rights.ALL)
        with self.assertRaises(TooLong) as caught:
            region.plan()
        refused = caught.exception
        self.assertEqual(str(refused), "N4: the region needs more than 1,984 map items, the most that 64 messages can hold")
        self.assertEqual(len(refused.pages), 1985)
        region.check_too_long(refused.pages)
        self.refuses("C5", None, region.check_too_long, refused.pages[1:])
        self.refuses("C3", 0, Region(100, 0, 1985, Rights.ALL).check_too_long, refused.pages)


if __name__ == "__main__":
    unittest.main()
