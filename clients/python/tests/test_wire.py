"""The bytes of requests and answers, held against the worked datagrams of docs/CLIENTS.md, and what a draft refuses."""
import os
import re
import sys
import unittest

HERE = os.path.dirname(os.path.abspath(__file__))
sys.path.insert(1, os.path.dirname(HERE))
from mdcc import wire
from mdcc.configuration import ConfigurationError, configuration_of
from mdcc.draft import Draft
from mdcc.records import Add, Item, Part, Record, Tx, Write

DOCUMENT = os.path.join(HERE, "..", "..", "..", "docs", "CLIENTS.md")
ONE = {"centres": 1, "classic": 1, "fast": 1, "gamma": 100, "bounds": [[0, 1000]], "hosts": ["127.0.0.1"], "port": 9000}


def worked():
    """The datagrams of the document, those that are sent and those that are received."""
    with open(DOCUMENT) as document:
        lines = [line.strip() for line in document if re.match(r"    [<>] ", line)]
    return tuple([bytes.fromhex(line[2:].replace(" ", "")) for line in lines if line[0] == mark] for mark in "><")


def datagram(message, serial):
    return wire.datagrams(message, 17, serial, 1)[0]


class Worked(unittest.TestCase):
    def test_requests(self):
        sent, _ = worked()
        blue = Part("cup", 0, Write(Item(b"blue", (10,)), ()))
        sale = Part("cup", 1, Add(((1, -1),)))
        self.assertEqual(sent[0], datagram(wire.read_request(1, 7, "cup"), 7))
        self.assertEqual(sent[1], datagram(wire.begin_request(1, 8, [blue]), 8))
        self.assertEqual(sent[3], datagram(wire.begin_request(1, 9, [blue]), 9))
        self.assertEqual(sent[4], datagram(wire.begin_request(1, 10, [sale]), 10))
        self.assertEqual(sent[8], datagram(wire.begin_request(1, 14, [Part("cup", 1, Add(((1, 2 ** 62),)))]), 14))

    def test_answers(self):
        _, received = worked()
        answers = [wire.read_answer(data, 1) for data in received]
        first, second = Tx(1, 1, 1), Tx(1, 1, 2)
        self.assertEqual(answers[0], wire.Answered(7, 1, Record("cup", 0, None, (), False, 1)))
        self.assertEqual(answers[1:3], [wire.Answered(8, 1, wire.Begun(first)), wire.Answered(8, 1, wire.Heard(first, True))])
        self.assertEqual(answers[4].answer, wire.BeginRefused("cup", wire.STALE, 1, ()))
        self.assertEqual(answers[7].answer, Record("cup", 1, Item(b"blue", (9,)), (second,), False, 1))
        self.assertEqual(answers[8].answer, wire.BeginRefused("cup", wire.UNSEEN, 1, ()))
        self.assertEqual(answers[9].answer, wire.BeginRefused("pot", wire.NO_ITEM, None, ()))
        self.assertEqual(answers[10].answer, wire.DraftRefused(6))

    def test_what_is_no_answer(self):
        for data in worked()[1]:
            for length in range(len(data)):
                self.assertRaises(wire.NoAnswer, wire.read_answer, data[:length], 1)
            self.assertRaises(wire.NoAnswer, wire.read_answer, data + b"\0", 1)
            self.assertRaises(wire.NoAnswer, wire.read_answer, data, 2)

    def test_the_longest(self):
        seen = tuple(Tx(1, 1, number) for number in range(1, 65))
        parts = [Part(letter * 32, 1, Write(Item(bytes(128), (1, 2, 3, 4)), seen)) for letter in "hgfedcba"]
        message = wire.begin_request(9, 1, parts)
        self.assertEqual(len(message), 6257)
        pieces = wire.datagrams(message, 25, 1, 1)
        self.assertEqual([len(piece) for piece in pieces], [1400] * 4 + [17 + 6257 - 4 * 1383])
        self.assertLess(message.index(b"a" * 32), message.index(b"b" * 32))
        self.assertEqual([len(piece) for piece in wire.datagrams(bytes(3000), 17, 1, 1)], [1400, 1400, 251])


class Drafts(unittest.TestCase):
    def draft(self, order=None, bounds=((0, 1000),)):
        return Draft(configuration_of({**ONE, "bounds": [list(pair) for pair in bounds]}), order, b"", "order/")

    def test_limits(self):
        draft = self.draft("1")
        for number in range(7):
            draft.insert(f"key/{number}", 1)
        self.assertRaises(ValueError, draft.insert, "key/7", 1)
        draft = self.draft()
        for key in ("", "a" * 33, "a b", "a:b", "ä"):
            self.assertRaises(ValueError, draft.insert, key, 1)
        self.assertRaises(ValueError, draft.insert, "a", 1001)
        self.assertRaises(ValueError, draft.insert, "a", (1, 1))
        self.assertRaises(ValueError, draft.insert, "a", 1, bytes(129))
        self.assertRaises(ValueError, draft.add, "a", {2: 1})
        self.assertRaises(ValueError, self.draft, "a" * 27)

    def test_one_update_for_a_key(self):
        draft = self.draft()
        draft.insert("a", 1)
        self.assertRaises(ValueError, draft.add, "a", 1)
        draft.add("b", 1)
        draft.add("b", 2)
        shown = {"b": Record("b", 5, Item(b"", (1,)), (), False, 1)}
        self.assertEqual(draft.part_of("b", shown), Part("b", 5, Add(((1, 3),))))
        draft.add("b", -3)
        self.assertEqual([part.key for part in draft.parts(shown)], ["a"])

    def test_what_may_be_begun_twice(self):
        draft = self.draft()
        draft.add("a", 1)
        self.assertFalse(draft.may_repeat)
        self.assertTrue(self.draft("1").may_repeat)

    def test_a_write_carries_what_was_read(self):
        draft = self.draft()
        record = Record("a", 3, Item(b"x", (7,)), (Tx(1, 1, 1),), False, 2)
        draft.set(record, 8)
        self.assertEqual(draft.part_of("a", {}), Part("a", 3, Write(Item(b"x", (8,)), (Tx(1, 1, 1),))))


class Configurations(unittest.TestCase):
    def test_members_that_no_client_needs(self):
        configuration = configuration_of({**ONE, "wait": 20, "limit": "safe", "later": [1]})
        self.assertEqual((configuration.asked(1), configuration.answered(1)), (("127.0.0.1", 9017), ("127.0.0.1", 9033)))
        self.assertEqual(configuration.nearest_to_zero, (0,))
        self.assertEqual(configuration_of({**ONE, "bounds": [[5, 9], [-9, -5]]}).nearest_to_zero, (5, -5))

    def test_what_is_refused(self):
        for changed in ({"port": 0}, {"hosts": []}, {"bounds": []}, {"bounds": [[1, 0]]}, {"centres": 2}, {"port": True}):
            self.assertRaises(ConfigurationError, configuration_of, {**ONE, **changed})
        self.assertRaises(ConfigurationError, configuration_of, {})


if __name__ == "__main__":
    unittest.main()
