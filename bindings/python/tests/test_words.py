"""Thread ids, rights, fpages, items, messages and calls are the words that C gives."""
import unittest

from l4 import MAX_WORDS, SMALL_PAGE_BYTES, SMALL_SPACE_PAGES, SPACE_PAGES, Call, Fpage, Item, Message, Rights, Tag, ThreadId, Timeout


class Words(unittest.TestCase):
    def test_ids_have_a_number_and_a_version(self):
        thread = ThreadId.of(3)
        self.assertEqual((thread.word, thread.number, thread.version), (0xC001, 3, 1))
        self.assertEqual((thread, thread == 0xC001), (ThreadId(0xC001), False))
        self.assertEqual((ThreadId.SIGMA0.number, ThreadId.ROOT.number), (1, 2))
        self.assertEqual(repr(thread), "ThreadId(0x0000c001)")
        pairs = [(0, 1), (1 << 18, 1), (1, 0), (1, 0x40), (1, 1 << 14), ((1 << 18) - 1, (1 << 14) - 1)]
        for number, version in pairs:
            with self.assertRaises(ValueError):
                ThreadId.of(number, version)
        with self.assertRaises(ValueError):
            ThreadId(1 << 32)
        valid = [ThreadId(word).is_valid for word in (0, 1, 0x4000, 0x4001, 0x4040, 0x4041, 0xFFFFFFFE, 0xFFFFFFFF)]
        self.assertEqual(valid, [False, False, False, True, False, True, True, False])
        shown = [str(ThreadId(word)) for word in (0, 0xFFFFFFFF, 0x8001, 0xC002)]
        self.assertEqual(shown, ["nil", "any", "thread 2", "thread 3 version 2"])

    def test_a_plain_number_is_not_an_id(self):
        message = Message((0,))
        for make in (
            lambda: Call.send(3, message),
            lambda: Call.receive(3),
            lambda: Call.call(0xC001, message),
            lambda: Call.reply_and_wait(3, message),
            lambda: Call.ipc(0, ThreadId.ANY, 0, 0, message),
            lambda: Call.ipc(ThreadId.NIL, 0, 0, 0, message),
            lambda: Call.create(3, ThreadId.ROOT),
            lambda: Call.create(ThreadId.of(3), 2),
            lambda: Call.create(ThreadId.of(3), ThreadId.ROOT, 1),
            lambda: Call.set_pager(ThreadId.of(3), None),
            lambda: Call.delete("3"),
        ):
            with self.assertRaisesRegex(TypeError, "is a ThreadId, as ThreadId.of"):
                make()

    def test_other_types_raise_type_error_where_they_are_passed(self):
        to, fpage, message = ThreadId.of(3), Fpage.complete(), Message((0,))
        for make in (
            lambda: Call.send(to, (0,)),
            lambda: Call.send(to, message, 0x400),
            lambda: Call.receive(window=0x10),
            lambda: Call.call(to, message, fpage, receive=0),
            lambda: Call.fault(0, 0, 4),
            lambda: Call.fault("0", 0, Rights.READ),
            lambda: Call.unmap([0x17]),
            lambda: Call.unmap_words(None, []),
            lambda: Message(("0",)),
            lambda: Message.of(items=[(8, 0)]),
            lambda: Fpage(0, 12, 7),
            lambda: Fpage(0, 12.0),
            lambda: Item.map(0x17),
            lambda: ThreadId(to),
        ):
            with self.assertRaises(TypeError):
                make()

    def test_words_are_shown_in_words(self):
        for word, text in (
            (0, "nil"),
            (0x17, "complete rwx"),
            (0x14A4, "1 KiB at 0x1400 r--"),
            (0x800001F0, "2 GiB at 0x80000000 ---"),
        ):
            self.assertEqual(repr(Fpage.read(word)), f"<Fpage {word:#010x}: {text}>")
        item = "grant 4 KiB at 0x10000 rwx, send base 0x20000"
        for words, text in (
            ((0x1002,), "label 0x0000; flags 0x1; 2 untyped; 0 words where the tag counts 2"),
            ((0x80, 14, 0), "label 0x0000; no item in 0x0000000e 0x00000000"),
            ((0x40, 8), "label 0x0000; an odd number of words for the items: 1"),
            ((0x80, 0x2000A, 0x100C7), f"label 0x0000; {item}"),
        ):
            self.assertEqual(str(Message(words)), text)
        self.assertEqual(repr(Message((0x80, 0x2000A, 0x100C7))), f"<Message 0x00000080 0x0002000a 0x000100c7: label 0x0000; {item}>")
        self.assertEqual(repr(Message()), "<Message: no tag>")

    def test_calls_are_shown_in_words(self):
        to, message, page = ThreadId.of(3), Message.of(7, [5]), Fpage.page(1, Rights.WRITE)
        for call, text in (
            (Call.send(to, message, Timeout.ZERO), "send to thread 3 at once: label 0x0007; 1 untyped"),
            (Call.receive(), "receive from any, window nil"),
            (
                Call.call(to, message, Fpage.complete(), receive=Timeout.ZERO),
                "send to thread 3: label 0x0007; 1 untyped, then receive from thread 3 at once, window complete ---",
            ),
            (Call.send(ThreadId.NIL, message), "neither phase"),
            (Call.ipc(ThreadId.NIL, to, 1, 0x20, message), "receive from thread 3 with timeout 0x0001, window no fpage in 0x00000020"),
            (Call.unmap([page] * 2, own=True), "unmap own pages too, 4 KiB at 0x1000 -w-; 4 KiB at 0x1000 -w-"),
            (Call.unmap_words(0, [0x20, 0]), "unmap no fpage in 0x00000020"),
            (Call.create(to, to, ThreadId.ROOT), "create thread 3 in a new space, pager thread 2"),
            (Call.create(to, ThreadId.ROOT), "create thread 3 in the space of thread 2, pager nil"),
            (Call.set_pager(to, ThreadId.ROOT), "pager of thread 3 is thread 2"),
        ):
            self.assertEqual(str(call), text)
        self.assertEqual(repr(Call.delete(to)), "<Call delete 0x0000c001: delete thread 3>")

    def test_rights_are_sets(self):
        self.assertEqual(Rights.READ | Rights.WRITE | Rights.EXECUTE, Rights.ALL)
        self.assertEqual(str(Rights.of_bits(0xF5)), "r-x")
        self.assertEqual(str(Rights.NONE), "---")

    def test_each_size_field_is_read_as_the_kernel_reads_it(self):
        for log in range(64):
            word = 0x80000000 | log << 4 | 5
            if log == 0:
                self.assertEqual(Fpage.read(word), Fpage.nil())
            elif log == 32:
                self.assertEqual(Fpage.read(word), Fpage.complete(Rights.of_bits(5)))
            elif 10 <= log <= 31:
                self.assertEqual(Fpage.read(word).word, word)
            else:
                with self.assertRaises(ValueError):
                    Fpage.read(word)
        self.assertEqual(Fpage.read(0x17), Fpage.complete(Rights.ALL))
        self.assertEqual(Fpage.read(0xFFFFCCF).word, 0xFFFF0C7)
        for word in (1 << 40 | 0x100C7, -1):
            with self.assertRaisesRegex(ValueError, "^the word of an fpage is from 0 to 4294967295: "):
                Fpage.read(word)

    def test_the_pages_of_an_fpage(self):
        self.assertEqual(Fpage.pages(8, 2, Rights.ALL).page_range, range(8, 12))
        self.assertEqual(Fpage.complete().page_range, range(SPACE_PAGES))
        self.assertEqual(Fpage.pages(0, 20, Rights.READ), Fpage.complete(Rights.READ))
        self.assertEqual((len(Fpage.nil().page_range), len(Fpage(0x1400, 10).page_range)), (0, 0))
        for first, log in ((2, 2), (0, 21), (0, -1), (SPACE_PAGES, 0), (1, 20), (-1, 0)):
            with self.assertRaises(ValueError):
                Fpage.pages(first, log, Rights.ALL)
        for base, log in ((0, 9), (0, 33), (0x400, 11), (0x400, 0), (1 << 31, 32)):
            with self.assertRaises(ValueError):
                Fpage(base, log)

    def test_the_small_pages_of_an_fpage(self):
        small = SMALL_PAGE_BYTES
        self.assertEqual(Fpage.pages(20, 2, Rights.ALL, small), Fpage.page(5, Rights.ALL))
        self.assertEqual(Fpage.page(5, Rights.ALL).range_of(small), range(20, 24))
        self.assertEqual(Fpage.complete().range_of(small), range(SMALL_SPACE_PAGES))
        self.assertEqual(Fpage.pages(0, 22, Rights.READ, small), Fpage.complete(Rights.READ))
        self.assertEqual((len(Fpage.nil().range_of(small)), Fpage(0x1400, 10).range_of(small)), (0, range(5, 6)))
        for first, log in ((2, 2), (0, 23), (SMALL_SPACE_PAGES, 0), (1, 22)):
            with self.assertRaises(ValueError):
                Fpage.pages(first, log, Rights.ALL, small)
        for page_bytes in (0, 2048):
            with self.assertRaises(ValueError):
                Fpage.page(5, Rights.ALL, page_bytes)
            with self.assertRaises(ValueError):
                Fpage.nil().range_of(page_bytes)

    def test_items_are_read_as_they_are_written(self):
        fpage = Fpage.page(5, Rights.ALL)
        for item in (Item.map(fpage, 0x9400), Item.grant(fpage), Item.map(Fpage.nil())):
            for more in (False, True):
                first, second = item.words(more)
                self.assertEqual(first & 1, more)
                self.assertEqual(Item.read(first, second), item)
        for words in ((0, 0x50C7), (14, 0x50C7), (8, 0x1020), (1 << 32 | 8, 0x50C7), (8, 1 << 32 | 0x50C7)):
            with self.assertRaises(ValueError):
                Item.read(*words)
        for more in (7, 1, None):
            with self.assertRaisesRegex(TypeError, f"is a bool: {more}$"):
                Item.map(fpage).words(more)
        with self.assertRaises(ValueError):
            Item.map(fpage, 0x7FF)

    def test_tags_have_three_parts(self):
        tag = Tag.of(0xFFE2, 2, 62)
        self.assertEqual((tag.word, tag.label, tag.untyped, tag.typed), (0xFFE20F82, 0xFFE2, 2, 62))
        self.assertEqual((Tag(tag.word), repr(tag), Tag.of().word), (tag, "Tag(0xffe20f82)", 0))
        self.assertEqual([Tag(word).is_error for word in (0x8000, 0x7FFF, 0xFFFF0000)], [True, False, False])
        self.assertEqual((Message.of(7, [5]).tag, Message().tag), (Tag.of(7, 1), None))
        for parts in ((1 << 16,), (0, 64), (0, 0, 64), (0, -1)):
            with self.assertRaises(ValueError):
                Tag.of(*parts)
        with self.assertRaises(TypeError):
            Tag("0")

    def test_windows_are_acceptors(self):
        acceptors = [fpage.acceptor for fpage in (Fpage.nil(), Fpage.complete(Rights.ALL), Fpage.page(16, Rights.ALL))]
        self.assertEqual(acceptors, [0, 0x10, 0x100C0])

    def test_messages_have_at_most_64_words(self):
        item = Item.grant(Fpage.page(5, Rights.READ), 0x3000)
        message = Message.of(1, [9], [item] * 31)
        self.assertEqual(len(message.words), MAX_WORDS)
        self.assertEqual(message.words[:4], (0x10F81, 9, 0x300B, 0x50C4))
        self.assertEqual(message.words[62:], (0x300A, 0x50C4))
        with self.assertRaises(ValueError):
            Message.of(1, [9, 9], [item] * 31)
        with self.assertRaises(ValueError):
            Message.of(1 << 16)
        self.assertEqual(len(Message((1,) * 64).words), 64)
        for words in ((1,) * 65, (1 << 32,), (-1,)):
            with self.assertRaises(ValueError):
                Message(words)

    def given(self, call):
        """What the library reads, without what is 0."""
        given = call.given()
        self.assertEqual(list(given.reserved), [0] * 4)
        return {name: getattr(given, name) for name, _ in given._fields_ if name != "reserved" and getattr(given, name)}

    def test_calls_have_the_members_of_the_struct_in_c(self):
        to, message = ThreadId.of(3), Message.of(0, [5])
        ipc = {"kind": 1, "to": 0xC001, "from": 0xC001, "timeouts": 0x400}
        self.assertEqual(self.given(Call.call(to, message, receive=Timeout.ZERO)), ipc)
        call = Call.reply_and_wait(to, message, Fpage.complete(), send=Timeout.ZERO)
        ipc = {"kind": 1, "to": 0xC001, "from": 0xFFFFFFFF, "timeouts": 0x4000000, "acceptor": 0x10}
        self.assertEqual((self.given(call), call.words), (ipc, (1, 5)))
        self.assertEqual(self.given(Call.send(to, message, Timeout.ZERO)), {"kind": 1, "to": 0xC001, "timeouts": 0x4000000})
        self.assertEqual(self.given(Call.receive(to, timeout=Timeout.ZERO)), {"kind": 1, "from": 0xC001, "timeouts": 0x400})
        self.assertEqual(self.given(Call.fault(0x5678, 0x40, Rights.READ)), {"kind": 2, "address": 0x5678, "ip": 0x40, "access": 4})
        create = {"kind": 4, "id": 0xC001, "space": 0x8001, "pager": 0x4001}
        self.assertEqual(self.given(Call.create(to, ThreadId.ROOT, ThreadId.SIGMA0)), create)
        self.assertEqual(self.given(Call.set_pager(to, ThreadId.ROOT)), {"kind": 5, "id": 0xC001, "pager": 0x8001})
        self.assertEqual(self.given(Call.delete(to)), {"kind": 6, "id": 0xC001})
        with self.assertRaises(ValueError):
            Call.fault(1 << 32, 0, Rights.READ)

    def test_an_unmap_has_1_to_64_fpages(self):
        fpage = Fpage.page(1, Rights.WRITE)
        call = Call.unmap([fpage] * 64, own=True)
        self.assertEqual((self.given(call), call.words), ({"kind": 3, "control": 0x7F}, (0x10C2,) * 64))
        self.assertEqual(self.given(Call.unmap([fpage])), {"kind": 3})
        for own in (2, 64, "yes"):
            self.assertEqual(Call.unmap([fpage], own=own), Call.unmap([fpage], own=True))
        self.assertEqual(Call.unmap([fpage], own=0), Call.unmap([fpage]))
        for fpages in ([], [fpage] * 65):
            with self.assertRaises(ValueError):
                Call.unmap(fpages)


if __name__ == "__main__":
    unittest.main()
