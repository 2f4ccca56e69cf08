"""The store against a stand-in of nodes that loses, aborts, starts anew or is silent as a test says."""
import asyncio
import os
import sys
import threading
import time
import unittest

HERE = os.path.dirname(os.path.abspath(__file__))
sys.path[1:1] = [os.path.dirname(HERE), HERE]
from mdcc import Aborted, AsyncStore, Committed, NotCommitted, PortTaken, Refused, Store, Unanswered, Unknown, Why
from stand_in import StandIn


class StoreCase(unittest.TestCase):
    def setUp(self):
        self.cluster = StandIn().__enter__()
        self.addCleanup(self.cluster.__exit__)
        self.store = self.connect()
        with self.store.transaction() as t:
            t.insert("cup", 100)

    def connect(self, **settings):
        store = Store.connect(self.cluster.members, **{"again": 0.05, "wait": 5, "patience": 20, **settings})
        self.addCleanup(lambda: store.loop.is_closed() or store.close())
        return store

    def hasten(self):
        """Has the store give a silent centre up soon, for tests in which one is."""
        self.store.close()
        self.store = self.connect(wait=0.3, patience=3)

    def sell(self, amount=-1, order=None, store=None, **where):
        with (store or self.store).transaction(order=order, **where) as t:
            t.add("cup", amount)
        return t.result

    def failed(self, *words, **options):
        with self.assertRaises(NotCommitted) as caught:
            self.sell(*words, **options)
        return caught.exception.result

    def value(self, key="cup"):
        return self.cluster.values(key.encode())[1][0]


class Plain(StoreCase):
    def test_reads(self):
        self.assertEqual(self.store.read("cup").value, 100)
        cup, none = self.store.read_many(["cup", "none"], centre=2)
        self.assertEqual((cup.centre, cup.version, bool(none), none.version), (2, 1, False, 0))
        self.assertEqual(len(self.store.read_many([f"key/{number}" for number in range(300)])), 300)

    def test_a_sale(self):
        with self.store.transaction(order="1") as t:
            cup = t.read("cup")
            t.add(cup, -1)
        self.assertEqual((t.result.is_committed, self.value()), (True, 99))
        self.assertTrue(self.store.happened("1"))
        self.assertFalse(self.store.happened("2"))

    def test_an_error_in_the_block_begins_nothing(self):
        with self.assertRaises(ZeroDivisionError):
            with self.store.transaction() as t:
                t.add("cup", -1)
                1 / 0
        self.assertEqual(self.value(), 100)

    def test_an_order_that_is_sent_again(self):
        self.assertIsNotNone(self.sell(order="1").tx)
        for centre in (1, 2, 3):
            again = self.sell(order="1", centre=centre)
            self.assertEqual((again.is_committed, again.tx), (True, None))
        self.assertEqual(self.value(), 99)

    def test_nothing_is_left(self):
        result = self.failed(-101)
        self.assertEqual((type(result), result.why, result.key), (Aborted, Why.BOUNDS, "cup"))
        self.assertEqual(self.failed(-3000, order="1").why, Why.BOUNDS)
        self.assertEqual(self.value(), 100)

    def test_what_is_there_and_what_is_not(self):
        with self.assertRaises(NotCommitted) as caught:
            with self.store.transaction() as t:
                t.insert("cup", 1)
        self.assertEqual((type(caught.exception.result), caught.exception.result.why), (Refused, Why.THERE))
        with self.assertRaises(NotCommitted) as caught:
            with self.store.transaction() as t:
                t.add("none", 1)
        self.assertEqual(caught.exception.result.why, Why.MISSING)

    def test_a_set_over_what_moved(self):
        t = self.store.transaction()
        t.set(t.read("cup"), 50)
        self.sell()
        result = t.commit()
        self.assertEqual((result.is_committed, result.why, self.value()), (False, Why.MOVED, 99))

    def test_run_reads_anew(self):
        calls = []

        def half(t):
            cup = t.read("cup")
            calls.append(cup.value)
            if len(calls) == 1:
                self.sell(-10)
            t.set(cup, cup.value // 2)

        result = self.store.run(half, order="1")
        self.assertEqual((result.is_committed, calls, self.value()), (True, [100, 90], 45))

    def test_an_abort_is_tried_again(self):
        self.cluster.aborts = 2
        self.assertEqual(self.sell(order="1").attempts, 3)

    def test_a_fresh_read(self):
        self.sell()
        fresh = self.store.read_fresh("cup")
        self.assertEqual((fresh.value, fresh.version, self.store.read("cup").version), (99, 2, 2))
        self.assertFalse(self.store.read_fresh("none"))


class Room(StoreCase):
    def test_a_hundred_sales(self):
        for _ in range(100):
            self.sell()
        self.assertEqual((self.value(), self.failed().why), (0, Why.BOUNDS))
        self.assertGreater(self.store.read("cup").version, 3)

    def test_after_an_increase(self):
        with self.store.transaction() as t:
            t.insert("account", 0)
        with self.store.transaction(order="1") as t:
            t.add("account", 50)
        with self.store.transaction(order="2") as t:
            t.add("account", -20)
        self.assertEqual((t.result.is_committed, self.value("account"), t.result.attempts), (True, 30, 2))


class Trouble(StoreCase):
    def test_what_is_lost_is_sent_again(self):
        self.cluster.lose = 2
        attempts = [self.sell(order=f"{number}").attempts for number in range(20)]
        self.assertEqual((attempts, self.value()), ([1] * 20, 80))

    def test_a_silent_centre(self):
        self.hasten()
        self.cluster.silent = {1}
        self.assertEqual(self.store.read("cup", centre=1).centre, 2)
        self.assertTrue(self.sell(order="1", centre=1).is_committed)

    def test_all_are_silent(self):
        self.hasten()
        self.cluster.silent = {1, 2, 3}
        self.assertRaises(Unanswered, self.store.read, "cup")
        self.assertFalse(self.failed(order="1").is_committed)

    def test_an_answer_that_never_comes(self):
        """With an order another centre finds out; without one it stays unknown, and is not sent again."""
        self.hasten()
        self.cluster.mute = {1}
        self.store.read("cup", centre=2)
        result = self.sell(order="1", centre=1)
        self.assertTrue(result.is_committed)
        self.assertEqual(self.value(), 99)
        self.cluster.mute = set()
        self.sell(centre=2)
        t = self.store.transaction(centre=2)
        t.add(t.read("cup"), -1)
        self.cluster.mute = {2}
        self.assertEqual(t.commit(), Unknown(None, 1))
        self.assertEqual(self.value(), 97)

    def after_a_restart(self, t):
        """What comes of a transaction that the centre begins, and then starts anew before it answers."""
        self.cluster.mute = {1}

        def restart():
            self.cluster.restart(1)
            self.cluster.mute = set()

        timer = threading.Timer(0.12, restart)
        timer.start()
        self.addCleanup(timer.join)
        return t.commit()

    def test_a_restart_between_two_sendings(self):
        """The centre begins it a second time, and the order happens once."""
        t = self.store.transaction(order="1", centre=1)
        t.add(t.read("cup"), -1)
        self.assertTrue(self.after_a_restart(t).is_committed)
        self.assertEqual(self.value(), 99)

    def test_a_refusal_after_a_restart_is_no_end(self):
        """The first sending happened, and the second is refused because of it."""
        t = self.store.transaction(centre=1)
        t.set(t.read("cup"), 50)
        self.assertEqual((self.after_a_restart(t), self.value()), (Unknown(None, 1), 50))

    def test_an_abort_after_a_doubt_is_no_end(self):
        """What an unanswered attempt did not do never happens once the result says so."""
        self.hasten()
        self.sell(centre=1)
        t = self.store.transaction(order="1", centre=1)
        t.add(t.read("cup"), -1000)
        self.cluster.mute = {1}
        result = t.commit()
        self.assertEqual((type(result), result.why), (Aborted, Why.BOUNDS))
        self.assertEqual(self.cluster.items[b"order/1"][1][0], b"V")
        self.cluster.mute = set()
        self.assertTrue(self.sell(order="1").is_committed)

    def test_a_later_copy_is_begun(self):
        """Two copies lie at the centre: the first is refused as busy, the second is begun, and that is what came of it."""
        t = self.store.transaction(centre=1)
        t.set(t.read("cup"), 50)
        self.cluster.gather = 2
        result = t.commit()
        self.assertEqual((result.is_committed, str(result.tx), result.attempts, self.value()), (True, "1.1.2", 1, 50))

    def test_a_refusal_of_one_copy_is_no_end(self):
        """What came of the second copy is not told. With an order its record tells, and without one it stays unknown."""
        self.hasten()
        self.store.read("cup", centre=1)
        for order, happened in ((None, Unknown(None, 1)), ("1", Committed(None, 2))):
            t = self.store.transaction(order=order, centre=1)
            t.set(t.read("cup"), 50 if order is None else 40)
            self.cluster.gather, self.cluster.told = 2, 1
            result = t.commit()
            self.assertEqual(result, happened)
            self.assertEqual(self.value(), 50 if order is None else 40)

    def test_a_refusal_where_a_copy_is_lost(self):
        """One copy is lost and the other refused, so that nothing is begun. Who can not know that ends the order, or says that it is unknown."""
        self.hasten()
        for order in (None, "1"):
            t = self.store.transaction(order=order, centre=1)
            t.set(t.read("cup"), 50)
            self.cluster.gather, self.cluster.busy, self.cluster.told = 2, 2, 1
            result = t.commit()
            if order is None:
                self.assertEqual((result, self.value()), (Unknown(None, 1), 100))
            else:
                self.assertEqual((result.is_committed, result.attempts, self.value()), (True, 2, 50))

    def test_all_copies_are_refused(self):
        """Then nothing is in doubt, and another centre is asked."""
        t = self.store.transaction(centre=1)
        t.insert("pot", 5)
        self.cluster.gather, self.cluster.busy = 3, 3
        result = t.commit()
        self.assertEqual((result.is_committed, result.tx.centre, result.attempts, self.value("pot")), (True, 2, 2, 5))

    def test_a_refusal_that_stays(self):
        """The record is there, so no copy will insert it, also not one that is not answered."""
        t = self.store.transaction(centre=1)
        t.insert("cup", 5)
        self.cluster.gather, self.cluster.busy, self.cluster.told = 2, 0, 1
        result = t.commit()
        self.assertEqual((type(result), result.why, self.value()), (Refused, Why.THERE, 100))

    def test_serials_of_another_process(self):
        """Wherever a second process begins to count, what it sells is its own."""
        first, sold = self.store.inner.engine.connection.endpoints[1].serial, 0
        for shift in (None, 0, 1, -3, -6):
            if shift is not None:
                self.store.close()
                self.store = self.connect()
                self.store.inner.engine.connection.endpoints[1].serial = first + shift
            for _ in range(5):
                sold += 1
                self.assertIsNotNone(self.sell(centre=1).tx)
                self.assertEqual(self.value(), 100 - sold)

    def test_a_second_client_of_a_centre(self):
        self.assertRaises(PortTaken, Store.connect, self.cluster.members)

    def test_centres_of_other_machines(self):
        """Their answers come there, so they are not asked."""
        self.store.close()
        members = {**self.cluster.members, "hosts": ["127.0.0.1", "192.0.2.1", "127.0.0.1"]}
        with Store.connect(members) as store:
            self.assertEqual(store.inner.engine.centres, [1, 3])
            self.assertRaises(ValueError, store.read, "cup", 2)
        self.assertRaises(OSError, Store.connect, {**members, "hosts": ["192.0.2.1"] * 3})
        self.assertRaises(OSError, Store.connect, members, [2])

    def test_cancelled(self):
        self.sell(order="1")
        self.assertIsInstance(self.store.cancel("1"), Committed)
        self.assertEqual(self.store.cancel("2").why, Why.CANCELLED)
        self.assertEqual(self.failed(order="2").why, Why.CANCELLED)
        self.assertEqual(self.value(), 99)


    def test_an_order_that_was_sent_before(self):
        """Where it is not committed, its record is void before that is said: what was sent before cannot happen any more."""
        self.assertEqual((self.failed(-101, order="1").why, self.store.read("order/1").body), (Why.BOUNDS, b""))
        for _ in range(2):
            result = self.failed(-101, order="1", again=True)
            self.assertEqual((type(result), result.why, self.store.read("order/1").body), (Aborted, Why.BOUNDS, b"V"))
        self.assertIsInstance(self.sell(order="1"), Committed)
        self.assertEqual((self.sell(order="1", again=True).tx, self.value()), (None, 99))

    def test_an_order_that_cannot_be_made_void_is_unknown(self):
        self.hasten()
        self.cluster.silent = {1, 2, 3}
        self.assertIsInstance(self.failed(-1, order="1", again=True), Unknown)

    def test_a_note_has_its_room(self):
        self.sell(order="1", note=b"n" * 127)
        self.assertEqual(self.store.read("order/1").body, b"D" + b"n" * 127)
        self.assertRaises(ValueError, self.sell, order="2", note=b"n" * 128)


class Many(StoreCase):
    def test_threads(self):
        self.cluster.lose = 20
        results = []

        def sell(number):
            for count in range(4):
                results.append(self.sell(order=f"{number}.{count}", centre=number % 3 + 1))

        threads = [threading.Thread(target=sell, args=(number,)) for number in range(10)]
        for thread in threads:
            thread.start()
        for thread in threads:
            thread.join()
        self.assertEqual((len(results), self.value()), (40, 60))

    def test_asyncio(self):
        self.store.close()

        async def main():
            async with await AsyncStore.connect(self.cluster.members, again=0.05) as store:
                async def sell(number):
                    async with store.transaction(order=f"{number}", note=b"for ann") as t:
                        cup = await t.read("cup")
                        t.add(cup, -1)
                    return t.result

                results = await asyncio.gather(*(sell(number) for number in range(40)))
                halved = await store.run(self.halve)
                return results, halved, (await store.read("order/7")).body

        results, halved, body = asyncio.run(main())
        self.assertEqual((len({result.tx for result in results}), halved.is_committed, self.value(), body), (40, True, 30, b"Dfor ann"))

    @staticmethod
    async def halve(t):
        cup = await t.read("cup")
        t.set(cup, cup.value // 2)

    def test_it_is_quick(self):
        began = time.monotonic()
        for _ in range(50):
            self.sell()
        self.assertLess(time.monotonic() - began, 20)


if __name__ == "__main__":
    unittest.main()
