"""Reading messages to a pager or to sigma0."""
import unittest

from l4 import Call, Fpage, FrameRequest, Kernel, Message, PageFault, Refused, Rights, ThreadId


class Protocols(unittest.TestCase):
    def test_a_fault_is_read_from_the_pagers_message(self):
        client = ThreadId.of(5)
        with Kernel(1) as kernel:
            kernel.enter(2, Call.create(client, client, ThreadId.SIGMA0))
            kernel.enter(1, Call.receive())
            kernel.enter(5, Call.fault(0x5678, 0x400100, Rights.WRITE))
            fault = PageFault.read(kernel.reply(1).message)
        self.assertEqual(fault, PageFault(0x5678, 0x400100, Rights.WRITE))

    def test_a_fault_has_its_label_and_two_words(self):
        for message in [Message.of(0xFFDF, [1, 2]), Message.of(0xFFE8, [1, 2]), Message.of(0xFFE4, [1]), Message.of(0xFFE4, [1, 2, 3])]:
            self.assertIsNone(PageFault.read(message))
        self.assertEqual(PageFault.read(Message.of(0xFFE0, [1, 2])), PageFault(1, 2, Rights.NONE))

    def test_a_request_is_read(self):
        request = FrameRequest.read(Message.of(0xFFA0, [Fpage.page(16, Rights.ALL).word, 1]))
        self.assertEqual(request, FrameRequest(Fpage.page(16, Rights.NONE), 1))
        for message in [Message.of(0xFFA0, [0x20, 0]), Message.of(0xFFA1, [0x100C0, 0]), Message.of(0xFFA0, [0x100C0])]:
            self.assertIsNone(FrameRequest.read(message))

    def test_words_that_are_not_a_message_are_refused(self):
        for read in [PageFault.read, FrameRequest.read]:
            for words, code in [((), "M7"), ((0x40, 0), "M2"), ((0x1000,), "M5")]:
                with self.assertRaises(Refused) as caught:
                    read(Message(words))
                self.assertEqual(caught.exception.code, code)
            with self.assertRaises(TypeError):
                read((0,))
