"""The outcomes of plans: tests/orders at the top of the repository has plans with their outcomes, which were worked out by hand."""
import pickle
import unittest
from pathlib import Path

from l4 import SMALL_PAGE_BYTES, BadPlan, Refused, SearchEnd, orders
from l4.scripts import Script

PLANS = Path(__file__).resolve().parents[3] / "tests" / "orders"
FRAMES = 32
RACE = "unordered\nsend 1 2 0x10000\nrecv 2 any 0\nfinally\nreply 2\n"


def text(found):
    """What `l4 orders` prints of outcomes and orders."""
    orders_of = (" ".join(map(str, ("order", *it.order))) for it in found.outcomes)
    told = "".join("".join(f"{line}\n" for line in (f"outcome {number}", *it.answers, order)) for number, (it, order) in enumerate(zip(found.outcomes, orders_of), 1))
    counts = (len(found.outcomes), "outcome"), (found.order_count, "order"), (found.state_count, "state")
    return told + ", ".join(f"{count} {name}{'' if count == 1 else 's'}" for count, name in counts) + "\n"


class Outcomes(unittest.TestCase):
    def test_each_plan_has_its_outcomes(self):
        plans = sorted(PLANS.glob("[1-9]_*.litmus"))
        self.assertGreaterEqual(len(plans), 9)
        for plan in plans:
            with self.subTest(plan.name):
                found = orders(plan.read_text(), FRAMES)
                self.assertEqual(text(found), plan.with_suffix(".out").read_text())
                self.assertTrue(found.complete)

    def test_each_witness_has_its_answers(self):
        for plan in (PLANS / f"{name}.litmus" for name in ("1_two_senders", "3_two_delegations", "5_delete_and_send", "9_flush_and_grant")):
            for outcome in orders(plan.read_text(), FRAMES).outcomes:
                with self.subTest(plan.name, answers=outcome.answers):
                    answers = [line for line in outcome.answers if not line.startswith("stuck ")]
                    told = [line for event in Script(FRAMES).run(outcome.witness) for line in event.texts]
                    self.assertEqual(told[len(told) - len(answers):], answers)

    def test_the_witness_is_a_script(self):
        found = orders("# a comment\nname r 2\n" + RACE.replace(" 2 any", " r any"), 1)
        self.assertEqual([outcome.answers for outcome in found.outcomes], [("2 ipc 00010000 0 1",)])
        self.assertIn(found.outcomes[0].witness, [f"name r 2\n{turns}reply 2\n" for turns in ("send 1 2 0x10000\nrecv r any 0\n", "recv r any 0\nsend 1 2 0x10000\n")])

    def test_a_search_that_ends_early(self):
        found = orders(RACE, 1, most=2)
        self.assertEqual((found.end, found.complete, found.order_count, found.state_count), (SearchEnd.MOST_STATES, False, None, 2))

    def test_more_orders_than_64_bits_can_count(self):
        found = orders((PLANS / "e_two_long_threads.litmus").read_text(), FRAMES)
        self.assertEqual((found.order_count, found.state_count), (28_453_041_475_240_576_740, 1_225))

    def test_small_pages(self):
        plan = "delegate 1 2 4 8 1 rwx\nunordered\nrecv 2 any 0x10\nfinally\nshow 2 0 16\n"
        self.assertEqual(orders(plan, 8, SMALL_PAGE_BYTES).outcomes[0].answers, ("page 8 frame 4 rwx", "shown 1"))

    def test_the_rules_that_outcomes_break(self):
        for name, broken in (("c_rules_hold", ()), ("d_rules_broken", (("always 5 waits",), ("never stuck 5 10", "always 3 ipc 00050000 0 5")))):
            with self.subTest(name):
                found = orders((PLANS / f"{name}.litmus").read_text(), FRAMES)
                self.assertEqual(tuple(it.broken for it in found.outcomes if it.broken), broken)

    def test_a_plan_without_queries(self):
        found = orders("unordered\nrecv 2 any 0\nrecv 2 any 0\n", 1)
        self.assertEqual([outcome.answers for outcome in found.outcomes], [("stuck 2 3",)])


class Refusals(unittest.TestCase):
    def test_lines_that_cannot_be_part_of_a_plan(self):
        for plan, code, line, detail in (
            ("unordered\nsned 1 2 0\n", "S1", 2, None),
            ("unordered\nsend 1\n", "S2", 2, None),
            ("unordered\nrecv 2 any 0", "S4", 2, None),
            (f"unordered\n#{'x' * 4096}\n", "S3", 2, None),
            ("unordered\nunordered\n", "O1", 2, None),
            ("show 2 0 1\n", "O2", 1, None),
            ("unordered\nfinally\nrecv 2 any 0\n", "O3", 3, None),
            ("unordered\nfinally\nsteps\n", "O4", 3, None),
            ("unordered\n\nrecv 9 any 0\n", "O5", 3, 9),
            ("recv 2 any 0\n", "O6", None, None),
            ("unordered\nrecv 2 any 0\nfinally\nreply 2\nnever 2 wait\n", "O7", 5, None),
            ("unordered\n#= 2 waits\n", "O8", 2, None),
            ("".join(f"name n{number} 2\n" for number in range(65)) + "unordered\n", "S5", 65, None),
        ):
            with self.subTest(plan[:40]), self.assertRaises(BadPlan) as raised:
                orders(plan)
            self.assertEqual((raised.exception.code, raised.exception.line, raised.exception.detail), (code, line, detail))

    def test_the_text_of_a_refusal(self):
        with self.assertRaises(BadPlan) as raised:
            orders("unordered\nrecv 9 any 0\n")
        self.assertEqual(str(raised.exception), "line 2: O5 9: no line creates the thread whose call this is")
        self.assertEqual(str(pickle.loads(pickle.dumps(raised.exception))), str(raised.exception))

    def test_machines_that_cannot_be(self):
        for code, options in (("K6", {"frames": 0}), ("K6", {"frames": 4097}), ("B4", {"frames": 0, "page_bytes": 2048})):
            with self.subTest(options), self.assertRaises(Refused) as raised:
                orders("", **options)
            self.assertEqual((raised.exception.code, type(raised.exception)), (code, Refused))

    def test_wrong_arguments(self):
        self.assertRaises(TypeError, orders, b"unordered\n")
        self.assertRaises(ValueError, orders, "unordered\n", most=-1)


if __name__ == "__main__":
    unittest.main()
