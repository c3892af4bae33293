"""Drawings of mappings."""
import unittest
from xml.etree import ElementTree

from l4 import PAGE_BYTES, Call, Fpage, Item, Kernel, Message, Pager, Region, Rights, ThreadId, draw

SVG = "{http://www.w3.org/2000/svg}"

TREE = """digraph frame_16 {
    node [shape=box];
    "0:16" [label="space 0\\npage 16\\nframe 16\\nrwx"];
    "1:32" [label="space 1\\npage 32\\nframe 16\\nrwx"];
    "2:7" [label="space 2\\npage 7\\nframe 16\\nr-x"];
    "0:16" -> "1:32";
    "1:32" -> "2:7";
}
"""

SPACE = """digraph space_2 {
    node [shape=box];
    "1:32" [label="space 1\\npage 32\\nframe 16\\nrwx", style=dashed];
    "2:7" [label="space 2\\npage 7\\nframe 16\\nr-x"];
    "2:8" [label="space 2\\npage 8\\nframe 16\\nr--"];
    "1:32" -> "2:7";
    "2:7" -> "2:8";
}
"""


def chain():
    """Page 16 of sigma0's is mapped to root's page 32, and this one to page 7 of thread 3."""
    kernel = Kernel(64)
    thread = ThreadId.of(3)
    kernel.enter(2, Call.create(thread, thread))
    kernel.enter(2, Call.receive(window=Fpage.complete()))
    send(kernel, 1, ThreadId.ROOT, Item.map(Fpage.page(16, Rights.ALL), 32 * PAGE_BYTES))
    kernel.enter(3, Call.receive(window=Fpage.complete()))
    send(kernel, 2, thread, Item.map(Fpage.page(32, Rights.READ | Rights.EXECUTE), 7 * PAGE_BYTES))
    return kernel


def send(kernel, thread, to, item):
    kernel.enter(thread, Call.send(to, Message.of(items=[item])))


def cells(table):
    """Returns the content of a table's rows."""
    return [[cell.text for cell in row] for row in ElementTree.fromstring(table).iter("tr")]


class Drawings(unittest.TestCase):
    def test_a_frames_tree(self):
        self.assertEqual(str(draw.frame(chain(), 16)), TREE)
        for frame in (64, -1):
            with self.assertRaisesRegex(ValueError, f"^there is no frame {frame}: the machine has 64 frames, numbered from 0$"):
                draw.frame(chain(), frame)

    def test_a_spaces_mappings(self):
        kernel = chain()
        other = ThreadId.of(4)
        kernel.enter(2, Call.create(other, ThreadId.of(3)))
        kernel.enter(4, Call.receive(window=Fpage.complete()))
        send(kernel, 3, other, Item.map(Fpage.page(7, Rights.READ), 8 * PAGE_BYTES))
        self.assertEqual(str(draw.space(kernel, 2)), SPACE)
        for drawing in (draw.space, draw.pages):
            with self.assertRaisesRegex(ValueError, "^there is no space 9, but 0, 1, 2$"):
                drawing(kernel, 9)

    def test_trees_are_drawn_for_notebooks(self):
        root = ElementTree.fromstring(draw.frame(chain(), 16)._repr_svg_())
        boxes = {(box.get("data-space"), box.get("data-page")): [text.text for text in box.iter(f"{SVG}text")] for box in root.iter(f"{SVG}g")}
        self.assertEqual(sorted(boxes), [("0", "16"), ("1", "32"), ("2", "7")])
        self.assertEqual(boxes["2", "7"], ["space 2", "page 7", "frame 16", "r-x"])
        self.assertEqual(len(list(root.iter(f"{SVG}line"))), 2)
        # each is below its parent, and no two meet
        corners = [(float(box[0].get("x")), float(box[0].get("y"))) for box in root.iter(f"{SVG}g")]
        self.assertEqual([x for x, _ in corners], [corners[0][0]] * 3)
        self.assertEqual(sorted(set(y for _, y in corners)), [y for _, y in corners])

    def test_large_trees_and_tables_are_cut(self):
        kernel = Kernel(300)
        drawn = draw.space(kernel, 0)._repr_svg_()
        self.assertEqual((drawn.count("<g "), "and 44 more" in drawn), (256, True))
        shown = draw.pages(kernel, 0)._repr_html_()
        self.assertEqual((shown.count("<tr>"), "and 44 more" in shown), (258, True))

    def test_tables_for_notebooks(self):
        shown = draw.pages(chain(), 2)._repr_html_()
        self.assertEqual(cells(shown), [["page", "frame", "rights", "parent"], ["7", "16", "r-x", "space 1 page 32"]])
        pager = Pager()
        pager.add(Region(100, 4, 4, Rights.READ))
        self.assertEqual(pager.regions, (Region(100, 4, 4, Rights.READ),))
        self.assertEqual(cells(pager._repr_html_())[1:], [["4", "100", "4", "r--"]])
        plan = cells(Region(4, 12, 12, Rights.ALL).plan()._repr_html_())
        self.assertEqual(plan[1], ["0x0000c008 0x000040e7", "map 16 KiB at 0x4000 rwx, send base 0xc000", "4"])


if __name__ == "__main__":
    unittest.main()
