"""Tables that threads share, that a signal interrupts and that a fork copies. A hook brings each case about at each place
where it may be; besides, threads and signals come when they do."""
import copy
import itertools
import os
import pickle
import signal
import sys
import threading
import time
import unittest
import warnings
import weakref
from unittest import mock

import pcidr
from pcidr import MutableNetworkSet, Network, Table

PATIENCE = 20  # seconds, after which a thread counts as stuck
ASKED = "10.1.2.3"


def rows():
    return Table({"10.0.0.0/8": "wide", "10.1.0.0/16": "old", "::/0": "six"})


def lookups(table):
    """What the three ways to look up say, which must agree."""
    one, (each,), many = table.lookup(ASKED), table.lookup_each([ASKED]), table.covering(ASKED)
    assert one == each == (many[0] if many else None), (one, each, many)
    assert dict(table.items()) == {network: table[network] for network in table}
    return None if one is None else one[1]


class AtOpcode:
    """A trace function that calls `act` once, before one opcode of those that the modules execute, counted from 0."""

    def __init__(self, place, act, *paths):
        self.place, self.act, self.paths, self.done = place, act, paths, False

    def __call__(self, frame, event, argument):
        if frame.f_code.co_filename not in self.paths:
            return None
        frame.f_trace_opcodes = True
        if event == "opcode" and not self.done:
            if self.place == 0:
                self.done = True
                self.act()
            self.place -= 1
        return self


def at_each_opcode(test, operation, act, outdated=False):
    """Tables, each after an operation in which `act` was called before another opcode, with the operation's result. What
    the first look-up makes is there before, or it is outdated."""
    sys._getframe().f_trace_opcodes = True  # Python 3.12 asks for it before `settrace`
    for place in itertools.count():
        table = rows()
        table.lookup_each([ASKED])
        if outdated:
            table["fe80::/10"] = "later"
        hook = AtOpcode(place, lambda: act(table), pcidr._tables.__file__, pcidr._rows.__file__)
        before = sys.gettrace()
        # `act` may leave a lock locked at places where no signal is handled, and raise where a generator is closed.
        with another_lock(), mock.patch.object(sys, "unraisablehook", lambda _: None):
            sys.settrace(hook)
            try:
                result = operation(table)
            except KeyboardInterrupt:
                result = KeyboardInterrupt
            finally:
                sys.settrace(before)
            if not hook.done:
                break
            yield table, result
    test.assertGreater(place, 8, "the hook sees no opcodes")


def another_lock():
    return mock.patch.object(pcidr._tables, "_changing", type(pcidr._tables._changing)())


def change(table):
    table["10.1.0.0/16"] = "new"


def update(table):
    """Sets one row anew and one that wasn't there, by one change."""
    table.update({"10.1.0.0/16": "new", "10.2.0.0/16": "new"})


def updated(table):
    """Whether all of that change is there, where nothing of it says no."""
    assert lookups(table) == ("new" if "10.2.0.0/16" in table else "old")
    return "10.2.0.0/16" in table


def interrupt(_table):
    raise KeyboardInterrupt


def in_thread(test, call):
    """Calls in another thread, and fails if it doesn't come back."""
    results = []
    thread = threading.Thread(target=lambda: results.append(call()), daemon=True)
    thread.start()
    thread.join(PATIENCE)
    test.assertFalse(thread.is_alive(), "the other thread is stuck")
    test.assertEqual(len(results), 1, "the other thread has failed")
    return results[0]


class Interleaved(unittest.TestCase):
    """Two operations, one of them whole at each place within the other."""

    def setUp(self):
        self.nested()  # else the others would hang

    def test_a_look_up_sees_one_version(self):
        def moves(table):  # the longest row goes from /16 to /24, and at no time is the answer the /8
            table["10.1.2.0/24"] = "new"
            del table["10.1.0.0/16"]

        looks = {
            lambda table: table.lookup(ASKED)[1]: ("old", "new"),
            lambda table: (setattr(table, "_since", -9), table.lookup(ASKED)[1])[1]: ("old", "new"),
            lambda table: table.lookup_each([ASKED])[0][1]: ("old", "new"),
            lambda table: [value for _, value in table.covering(ASKED)]: (["old", "wide"], ["new", "wide"]),
            lambda table: [value for _, value in table.items()][:2]: (["wide", "old"], ["wide", "new"]),
            lambda table: pickle.loads(pickle.dumps(table)).lookup(ASKED)[1]: ("old", "new"),
        }
        for look, wanted in looks.items():
            seen = []
            for outdated in (False, True):
                for table, result in at_each_opcode(self, look, moves, outdated):
                    self.assertIn(result, wanted)
                    self.assertEqual(lookups(table), "new")
                    seen.append(result)
            self.assertIn(wanted[0], seen)
            self.assertIn(wanted[1], seen)

    def test_a_row_goes_while_it_is_asked(self):
        def remove(table):
            del table["10.1.0.0/16"]

        for look in (
            lambda table: table.lookup(ASKED)[1],
            lambda table: (setattr(table, "_since", -9), table.lookup(ASKED)[1])[1],
            lambda table: table.lookup_each([ASKED])[0][1],
            lambda table: table.get("10.1.0.0/16", "wide"),
        ):
            for table, result in at_each_opcode(self, look, remove, True):
                self.assertIn(result, ("old", "wide"))
                self.assertEqual(lookups(table), "wide")

    def test_a_signal_handler_looks_up_and_changes_while_a_row_is_set(self):
        def handler(table):
            lookups(table)
            table["10.1.2.0/25"] = "handler's"
            lookups(table)
            del table["10.1.2.0/25"]
            table["10.1.2.128/25"] = "handler's"
            lookups(table)

        def writes_first(table):
            table["10.1.2.0/24"] = "handler's"

        for table, result in at_each_opcode(self, lambda table: table.setdefault("10.1.2.0/24", "mine"), writes_first):
            self.assertEqual((lookups(table), result in ("mine", "handler's")), ("handler's", True))
        for table, _ in at_each_opcode(self, change, handler):
            self.assertEqual(lookups(table), "new")
            self.assertEqual(table.lookup("10.1.2.200")[1], "handler's")
            self.assertEqual(table.lookup_each(["10.1.2.200"])[0][1], "handler's")

    def test_a_signal_handler_changes_while_a_row_goes(self):
        def remove(table):
            del table["10.1.0.0/16"]

        def handler(table):
            table["10.1.0.0/17"] = "handler's"
            lookups(table)

        for table, _ in at_each_opcode(self, remove, handler):
            self.assertEqual(lookups(table), "handler's")
            self.assertEqual(table.lookup("10.1.200.0")[1], "wide")
            self.assertEqual(table.lookup_each(["10.1.200.0"])[0][1], "wide")

    def test_a_signal_handler_changes_while_many_rows_are_set(self):
        seen = set()

        def handler(table):
            seen.add(updated(table))
            table["10.1.2.128/25"] = "handler's"
            table.update({"10.3.0.0/16": "handler's", "10.1.0.0/16": "handler's"} if "10.2.0.0/16" not in table else {})
            del table["::/0"]
            lookups(table)

        for table, _ in at_each_opcode(self, update, handler):
            self.assertEqual(lookups(table), "new" if "10.3.0.0/16" in table or "10.2.0.0/16" in table else "old")
            self.assertEqual((table.lookup("10.1.2.200")[1], table.get("10.2.0.0/16"), table.lookup("::")), ("handler's", "new", None))
            self.assertEqual(table.lookup_each(["10.1.2.200"])[0][1], "handler's")
            self.assertEqual([*table.values()].count("handler's"), 2 if "10.3.0.0/16" in table else 1)
        self.assertEqual(seen, {False, True})

    def test_a_look_up_sees_all_of_an_update_or_nothing(self):
        seen = []

        def look(table):
            seen.append(in_thread(self, lambda: [value for _, value in table.items()]))

        for outdated in (False, True):
            for table, _ in at_each_opcode(self, update, look, outdated):
                self.assertTrue(updated(table))
        wanted = ("wide", "old", "six"), ("wide", "new", "new", "six")
        self.assertEqual({tuple(values[: 3 + values.count("new") // 2]) for values in seen}, set(wanted))

    def test_a_look_up_beside_a_change_within_a_change(self):
        """One row is set and another one goes, so that the answer is the third only where that comes first."""
        def add(table):
            table["10.1.2.0/24"] = "new"

        def remove(table):
            del table["10.1.0.0/16"]

        for outer, handler, wanted in ((remove, add, {"new"}), (add, remove, {"wide", "new"})):
            results = []

            def act(table):
                handler(table)
                table._since = -9  # so that the look-up asks the array, and doesn't wait for the outer change
                results.append(in_thread(self, lambda: table.lookup(ASKED)[1]))

            for outdated in (False, True):
                for table, _ in at_each_opcode(self, outer, act, outdated):
                    self.assertEqual(lookups(table), "new")
            self.assertEqual(set(results), wanted)

    def nested(self):
        """A change within a change, as a handler of a signal makes it."""
        def both():
            with pcidr._tables._changing:
                change(table)

        table = rows()
        with another_lock():
            in_thread(self, both)


class Interrupted(unittest.TestCase):
    """An exception at each place, as Ctrl-C raises it."""

    def test_in_a_change(self):
        seen = set()
        for table, _ in at_each_opcode(self, change, interrupt):
            seen.add(lookups(table))
            table["10.1.2.0/24"] = "next"
            self.assertEqual(lookups(table), "next")
        self.assertEqual(seen, {"old", "new"})

    def test_in_a_change_with_a_new_length(self):
        def add(table):
            table["10.1.2.0/24"] = "new"

        seen = {lookups(table) for table, _ in at_each_opcode(self, add, interrupt)}
        self.assertEqual(seen, {"old", "new"})

    def test_in_a_removal(self):
        def remove(table):
            del table["10.1.0.0/16"]

        seen = {lookups(table) for table, _ in at_each_opcode(self, remove, interrupt)}
        self.assertEqual(seen, {"old", "wide"})

    def test_in_other_changes(self):
        changes = {
            lambda table: table.pop("10.1.0.0/16"): {"old", "wide"},
            lambda table: table.setdefault("10.1.2.0/24", "new"): {"old", "new"},
            lambda table: table.update({"10.1.0.0/16": "new"}): {"old", "new"},
            lambda table: (table.pop("::/0"), table.popitem()): {"old", "wide"},
            lambda table: table.clear(): {"old", None},
        }
        for changed, wanted in changes.items():
            seen = set()
            for table, _ in at_each_opcode(self, changed, interrupt):
                seen.add(lookups(table))
                table["10.1.2.0/24"] = "next"
                self.assertEqual(lookups(table), "next")
            self.assertEqual(seen, wanted)

    def test_in_a_change_of_many_rows(self):
        for outdated in (False, True):
            seen = set()
            for table, _ in at_each_opcode(self, update, interrupt, outdated):
                seen.add(updated(table))
                update(table)
                self.assertTrue(updated(table))
            self.assertEqual(seen, {False, True})

    def test_in_a_look_up(self):
        for look in (lambda table: table.lookup_each([ASKED]), lambda table: list(table.items()), lookups):
            for outdated in (False, True):
                for table, _ in at_each_opcode(self, look, interrupt, outdated):
                    self.assertEqual(lookups(table), "old")


class OfSets(unittest.TestCase):
    """A set that changes, with an interrupt or another change before each opcode of a change."""

    def at_each(self, act):
        """Sets with 10.0.0.0/8, each after 192.0.2.0/24 was added and `act` called once meanwhile."""
        sys._getframe().f_trace_opcodes = True
        for place in itertools.count():
            held, before = MutableNetworkSet(["10.0.0.0/8"]), sys.gettrace()
            hook = AtOpcode(place, lambda: act(held), pcidr._sets.__file__)
            sys.settrace(hook)
            try:
                held.add("192.0.2.0/24")
            except KeyboardInterrupt:
                pass
            finally:
                sys.settrace(before)
            if not hook.done:
                break
            yield held
        self.assertGreater(place, 8, "the hook sees no opcodes")

    def test_an_interrupt(self):
        seen = set()
        for held in self.at_each(interrupt):
            self.assertEqual(("10.1.2.3" in held, "192.0.2.7" in held), (True, len(held) == 2))
            seen.add(len(held))
            held.remove("10.0.0.0/9")
            self.assertIn("10.128.0.0/9", held)
        self.assertEqual(seen, {1, 2})

    def test_a_change_within_a_change(self):
        for held in self.at_each(lambda held: held.add("2001:db8::/32")):
            self.assertEqual(held.to_strings(), ["10.0.0.0/8", "192.0.2.0/24", "2001:db8::/32"])


class Signals(unittest.TestCase):
    """Signals as the system sends them, at times that nobody chooses."""

    def interrupted(self, work, spent):
        """Calls until a signal comes, after some microseconds, which the handler of Ctrl-C handles."""
        before = signal.signal(signal.SIGALRM, signal.default_int_handler)
        try:
            signal.setitimer(signal.ITIMER_REAL, spent * 1e-6)
            while True:
                work()
        except KeyboardInterrupt:
            pass
        finally:
            signal.setitimer(signal.ITIMER_REAL, 0)
            signal.signal(signal.SIGALRM, before)

    def test_changes_are_interrupted(self):
        table = rows()
        asked = [f"10.1.{i}.7" for i in range(8)]

        def work():
            for i in range(8):
                table[f"10.1.{i}.0/24"] = "new"
            for i in range(8):
                table.pop(f"10.1.{i}.0/24")

        for turn in range(300):
            self.interrupted(work, 20 + turn)
            self.assertEqual(table.lookup_each(asked), [table.lookup(address) for address in asked])
            self.assertEqual(dict(table.items()), {network: table[network] for network in table})
            in_thread(self, lambda: table.update({"10.1.2.0/24": turn}))  # the lock is free
            self.assertEqual(lookups(table), turn)

    def test_look_ups_are_interrupted(self):
        few = [(f"10.{i}.0.0/16", i) for i in range(256)]
        for turn in range(60):
            table = Table(few)
            self.interrupted(lambda: table.lookup_each([ASKED]), 50 + 20 * turn)
            self.assertEqual(lookups(table), 1)


class Threads(unittest.TestCase):
    def test_first_look_ups_at_once(self):
        """Threads make the arrays of one table, while another one changes it."""
        names = [f"10.{i}.0.0/16" for i in range(200)]
        for _ in range(10):
            table, wrong, begin = Table(dict.fromkeys(names, "old")), [], threading.Barrier(9)

            def look_up():
                begin.wait(PATIENCE)
                found = [(table.lookup(name[:-3]), name) for name in names]
                wrong.extend(row for row, name in found if row[0] != Network(name) or row[1] not in ("old", "new"))
                copied = pickle.loads(pickle.dumps(table))
                wrong.extend(row for row in copied.items() if row[1] not in ("old", "new"))

            def move():
                begin.wait(PATIENCE)
                for name in names:
                    table[name] = "new"

            threads = [threading.Thread(target=each, daemon=True) for each in (*[look_up] * 8, move)]
            for thread in threads:
                thread.start()
            for thread in threads:
                thread.join(PATIENCE)
                self.assertFalse(thread.is_alive(), "a thread is stuck")
            self.assertEqual(wrong, [])
            self.assertEqual([table.lookup(name[:-3])[1] for name in names], ["new"] * 200)

    def test_many_at_once(self):
        """Rows move between two lengths, each there before it goes from the other, while others look up."""
        table, stop, wrong = rows(), time.monotonic() + 1, []

        def look_up(call, wanted):
            while time.monotonic() < stop:
                found = call()
                if found not in wanted:
                    wrong.append(found)

        def move(name, value):
            while time.monotonic() < stop:
                table[name] = value
                del table[name]

        def move_many():
            """Rows of many lengths, beside the others, come and go by one change each."""
            names = [f"9.0.2.{place}/{length}" for place, length in ((0, 24), (0, 25), (128, 26), (7, 32))]
            while time.monotonic() < stop:
                table.update(dict.fromkeys(names, "many"))
                if [table.get(name) for name in names] != ["many"] * 4:
                    wrong.append("a row of many is lost")
                for name in names:
                    del table[name]

        del table["10.1.0.0/16"]
        looks = (
            lambda: table.lookup(ASKED)[1],
            lambda: table.lookup_each([ASKED])[0][1],
            lambda: next(value for _, value in table.covering(ASKED)),
            lambda: [*table.values()][-2],  # before that of ::/0
        )
        wanted = ("wide", "/16", "/24", "/25")
        threads = [threading.Thread(target=look_up, args=(call, wanted), daemon=True) for call in looks]
        for length in (16, 24, 25):
            name = str(Network(f"10.1.{2 if length > 16 else 0}.0/{length}"))
            threads.append(threading.Thread(target=move, args=(name, f"/{length}"), daemon=True))
        threads.append(threading.Thread(target=move_many, daemon=True))
        interval = sys.getswitchinterval()
        sys.setswitchinterval(1e-5)
        try:
            for thread in threads:
                thread.start()
            for thread in threads:
                thread.join(PATIENCE)
                self.assertFalse(thread.is_alive(), "a thread is stuck")
        finally:
            sys.setswitchinterval(interval)
        self.assertEqual((wrong, lookups(table)), ([], "wide"))

    def hooked(self, table, call):
        """What the first look-up of a table returns, where another thread makes a call while the rows are listed."""
        real, results = pcidr._tables._Snapshot, []

        def snapshot(*copied):
            with mock.patch.object(pcidr._tables, "_Snapshot", real):
                results.append(in_thread(self, call))
            return real(*copied)

        with mock.patch.object(pcidr._tables, "_Snapshot", snapshot):
            first = table.lookup_each([ASKED])[0][1]
        self.assertEqual(len(results), 1)
        return first, results[0]

    def test_a_second_reader_while_the_first_lists_the_rows(self):
        table = rows()
        self.assertEqual(self.hooked(table, lambda: lookups(table)), ("old", "old"))
        self.assertEqual(lookups(table), "old")

    def test_a_writer_while_a_reader_lists_the_rows(self):
        for later in (False, True):
            table = rows()
            self.assertEqual(self.hooked(table, lambda: (change(table), later and lookups(table)))[0], "old")
            self.assertEqual(lookups(table), "new")

    def test_a_look_up_does_not_wait_for_a_writer(self):
        table = rows()
        table._since = -9  # look-ups to come before the arrays are made
        with pcidr._tables._changing:
            self.assertEqual(in_thread(self, lambda: table.lookup(ASKED)[1]), "old")
            self.assertEqual(in_thread(self, lambda: len(table.covering(ASKED))), 2)
        lookups(table)
        with pcidr._tables._changing:
            self.assertEqual(in_thread(self, lambda: lookups(table)), "old")

    def test_what_changes_or_lists_rows_waits_for_a_writer(self):
        calls = {
            "setdefault": lambda table: table.setdefault("10.1.2.0/24", "new"),
            "update": lambda table: table.update({"10.1.0.0/16": "new"}),
            "update of many": update,
            "pop": lambda table: table.pop("10.1.0.0/16"),
            "popitem": lambda table: table.popitem(),
            "lookup_each": lambda table: table.lookup_each([ASKED]),
        }
        for name, call in calls.items():
            table = rows()
            before = dict(table.items())
            with pcidr._tables._changing:
                thread = threading.Thread(target=call, args=(table,), daemon=True)
                thread.start()
                thread.join(0.05)
                self.assertTrue(thread.is_alive(), name)
                self.assertEqual((dict(table.items()), table._snapshot), (before, None), name)
            thread.join(PATIENCE)
            self.assertFalse(thread.is_alive(), name)
            self.assertEqual(dict(table.items()) == before, name == "lookup_each", name)

    def test_a_walk_goes_on_with_its_rows(self):
        table = rows()
        walk, names = iter(table.items()), iter(table)
        next(walk)
        del table["10.1.0.0/16"], table["::/0"]
        self.assertEqual([value for _, value in walk], ["old", "six"])
        self.assertEqual(len(list(names)), 3)
        self.assertEqual(list(table.values()), ["wide"])

    def test_a_finalizer_waits_for_a_thread_that_changes_the_table(self):
        table, test = rows(), self

        class Value:
            def __del__(self):
                done.append(in_thread(test, lambda: table.__setitem__("10.1.2.0/24", "finalizer's")))

        for drop in (change, lambda table: table.__delitem__("10.1.0.0/16"), update):
            done = []
            table["10.1.0.0/16"] = Value()
            list(table.items())
            drop(table)
            self.assertEqual(done, [None])
            self.assertEqual(lookups(table), "finalizer's")
        drops = (
            change,
            lambda table: table.setdefault("10.1.2.0/25", "new"),
            lambda table: table.pop("10.0.0.0/8"),
            lambda table: table.popitem(),
            update,
        )
        for drop in drops:
            done = []
            # A slow reader has left the rows of an earlier version.
            table._snapshot = pcidr._tables._Snapshot(object(), pcidr._tables.values_in(["any"]), [(Network("any"), Value())])
            drop(table)
            self.assertEqual(done, [None])

    def test_what_is_removed_is_not_kept(self):
        class Value:
            pass

        table, value = rows(), Value()
        gone = weakref.ref(value)
        table["10.1.0.0/16"] = value
        lookups_before = table.lookup_each([ASKED])
        self.assertIs(lookups_before[0][1], value)
        del value, lookups_before, table["10.1.0.0/16"]
        self.assertIsNone(gone())

    def test_copies_share_no_rows(self):
        table = rows()
        lookups(table)
        for copied in (
            copy.copy(table),
            copy.deepcopy(table),
            Table(table),
            *(pickle.loads(pickle.dumps(table, protocol)) for protocol in range(pickle.HIGHEST_PROTOCOL + 1)),
        ):
            self.assertEqual(copied, table)
            change(copied)
            copied["2001:db8::/32"] = 1
            self.assertEqual((lookups(copied), lookups(table)), ("new", "old"))
            self.assertNotIn("2001:db8::/32", table)
            self.assertNotEqual(copied, table)


@unittest.skipUnless(hasattr(os, "fork"), "there is no fork")
class Forks(unittest.TestCase):
    def test_a_child_has_no_half_of_a_change(self):
        """A writer stands within a change until the fork has begun, which then waits for it."""
        table, within, begun = rows(), threading.Event(), threading.Event()
        lookups(table)

        real = pcidr._rows.ChangingRows.put

        def put(rows, *row):
            within.set()
            begun.wait(PATIENCE)
            return real(rows, *row)

        with mock.patch.object(pcidr._rows.ChangingRows, "put", put):
            writer = threading.Thread(target=change, args=(table,), daemon=True)
            writer.start()
            self.assertTrue(within.wait(PATIENCE))
        # The hook that is registered last is the first one before a fork.
        os.register_at_fork(before=begun.set)
        with warnings.catch_warnings():
            warnings.simplefilter("ignore", DeprecationWarning)  # Python 3.12 warns of a fork beside threads
            child = os.fork()
        if child == 0:
            signal.alarm(PATIENCE)  # ends a child that is stuck
            good = lookups(table) == "new"
            table["10.1.2.0/25"] = "child's"
            os._exit(0 if good and lookups(table) == "child's" else 1)
        self.assertEqual(os.waitpid(child, 0)[1], 0)
        writer.join(PATIENCE)
        self.assertFalse(writer.is_alive())
        self.assertEqual(lookups(table), "new")
        in_thread(self, lambda: table.__setitem__("10.1.2.0/24", "parent's"))
        self.assertEqual(lookups(table), "parent's")


if __name__ == "__main__":
    unittest.main()
