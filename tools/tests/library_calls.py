"""Tests of the Python class, by unittest in a process of its own."""
import copy
import os
import pickle
import sys
import unittest
from concurrent.futures import ThreadPoolExecutor
from unittest import mock

import jellqupas
from jellqupas import (
    BadPath, Busy, Check, Closed, Create, Delete, Forked, Get, Idle, Service, Session, Set, Stat,
    Ticked, Unanswered, WrongThread,
)

# Values that are no path, data and number. Some texts would make a second line.
PATHS = ("/a\n1 delete /a any", "/a 1", "", " ", "/a\0", "/\u00e4", "/\ud800", b"/a", None, 1)
DATA = ("aGk=", "", None, 1, True, [1], b"a" * 65537)
NUMBERS = (True, 1.0, -1, 2**62, "1", "1\n", b"1", (1,), object())
# Of each method's arguments, by place or name: one that is taken, and those that aren't.
CLIENT = {
    "create": {0: ("/b", PATHS), "data": (b"x", DATA), "ephemeral": (1, NUMBERS),
               "sequential": (True, (1, 0, None, "s"))},
    "delete": {0: ("/b", PATHS), "version": (0, NUMBERS)},
    "set": {0: ("/a", PATHS), 1: (b"x", DATA), "version": (0, NUMBERS)},
    "get": {0: ("/a", PATHS)}, "exists": {0: ("/a", PATHS)}, "children": {0: ("/a", PATHS)},
    "multi": {0: ([Check("/a")], (None, (), "x", [None], [Get("/a")], [Check("/a")] * 65))},
    "open": {0: (5, (*NUMBERS, None))}, "ping": {0: (1, NUMBERS)}, "close": {0: (1, NUMBERS)},
}
EVENTS = {
    "client": {0: (1, (*NUMBERS, 0, 32))}, "begin": {0: (1, NUMBERS), 1: (Get("/a"), (None, "x"))},
    "take": {0: ("c1", (*PATHS, "s0", "s17", "c32", "m "))}, "fail": {0: (2, (*NUMBERS, 0, 17))},
    "join": {0: (3, (*NUMBERS, 0, 17))}, "retire": {0: (2, (*NUMBERS, 0, 17))},
}


def cases(table):
    """Each argument in turn with each value that isn't taken, the others with one that is."""
    for name, arguments in table.items():
        for place, (_, refused) in arguments.items():
            for value in refused:
                given = {it: taken for it, (taken, _) in arguments.items()} | {place: value}
                words = [given.pop(it) for it in (0, 1) if it in given]
                yield name, words, given


class Calls(unittest.TestCase):
    def setUp(self):
        self.service = Service(3)
        self.addCleanup(self.service.close)
        self.one, self.two = self.service.client(1), self.service.client(2)

    def test_results(self):
        one = self.one
        self.assertEqual(one.create("/a", b"hi"), "/a")
        self.assertEqual(one.get("/a"), (b"hi", Stat(1, 1, 1, 0, 0, 0, 0, 0, 2, 0)))
        self.assertIsNone(one.exists("/b"))
        self.assertTrue(self.service.fail(2))
        self.assertEqual(one.set("/a", b"", 0), Stat(1, 2, 1, 0, 0, 1, 0, 0, 0, 0))
        self.assertEqual(one.create("/a/n-", sequential=True), "/a/n-0000000000")
        self.assertEqual(self.service.tick(), Ticked(1, 0, 0))
        session = one.open(1)
        self.assertIsInstance(session, Session)
        one.create("/a/e", ephemeral=session)
        self.assertEqual(one.get("/a/e")[1].owner, session.id)
        self.assertEqual(one.children("/a"), ["e", "n-0000000000"])
        done = one.multi([Check("/a", 1), Set("/a", b"z"), Create("/c;", b"x"), Delete("/c;")])
        self.assertEqual((done[0], done[1].version, *done[2:]), (None, 2, "/c;", None))
        self.assertEqual(self.service.call(b"1 get /\xff"), b"bad line")

    def test_refusals(self):
        for name, call in {
            "NoNode": lambda: self.one.get("/x"), "RootFixed": lambda: self.one.delete("/"),
            "BadVersion": lambda: self.one.set("/", b"", 7), "Used": lambda: self.service.join(1),
            "NodeExists": lambda: [self.one.create("/p") for _ in range(2)],
            "NotMember": lambda: self.service.retire(9),
        }.items():
            self.assertRaises(getattr(jellqupas, name), call)
        with self.assertRaises(BadPath) as caught:
            self.one.get("/a" * 65)
        self.assertEqual(caught.exception.fault, "TooDeep")

    def test_answers_that_come_later(self):
        one, two = self.one, self.two
        self.service.begin(2, Create("/q-", sequential=True))
        self.assertRaises(Busy, lambda: two.get("/"))
        self.assertRaises(Unanswered, two.answer)
        self.assertTrue(self.service.take("c2", "s1"))
        self.service.fail(2)
        self.assertTrue(two.retry())
        one.get("/")
        self.assertEqual((two.answer(), one.children("/")), ("/q-0000000000", ["q-0000000000"]))
        self.assertRaises(Idle, two.answer)

    def test_arguments(self):
        """No wrong argument makes a line."""
        library = mock.Mock(wraps=jellqupas.LIBRARY)
        with mock.patch.object(jellqupas, "LIBRARY", library):
            for table, target in ((CLIENT, self.one), (EVENTS, self.service)):
                for name, words, named in cases(table):
                    with self.subTest(f"{name} {words!r:.90} {named!r:.90}"):
                        with self.assertRaises((BadPath, jellqupas.BadData, TypeError, ValueError)):
                            getattr(target, name)(*words, **named)
                        library.jellqupas_hear.assert_not_called()

    def test_threads_forks_and_copies(self):
        with ThreadPoolExecutor(1) as pool:
            with self.assertRaises(WrongThread):
                pool.submit(self.one.get, "/").result()
        child = os.fork()
        if not child:
            try:
                self.one.get("/")
            except Forked:
                os._exit(7)
            os._exit(1)
        self.assertEqual(os.waitstatus_to_exitcode(os.waitpid(child, 0)[1]), 7)
        for copied in (copy.copy, copy.deepcopy, pickle.dumps):
            self.assertRaises(TypeError, copied, self.service)
        self.service.close()
        self.assertRaises(Closed, lambda: self.one.get("/"))


class Stop(BaseException):
    """What is raised in the middle of a call."""


def interrupted(call, step):
    """Whether the call was stopped at so many bytecodes of the class; else what it gave."""
    left = [step]

    def trace(frame, event, _):
        if frame.f_code.co_filename != jellqupas.__file__:
            return None
        frame.f_trace_opcodes = True
        left[0] -= event == "opcode"
        if event == "opcode" and not left[0]:
            raise Stop
        return trace

    sys.settrace(trace)
    try:
        return False, call()
    except Stop:
        return True, None
    finally:
        sys.settrace(None)


class Interrupts(unittest.TestCase):
    def test_each_bytecode(self):
        """Of a call that is stopped, the answer is kept, and none is given twice."""
        step, is_stopped, lost = 0, True, []
        while is_stopped:
            step += 1
            with Service(1) as service:
                one, two = service.client(1), service.client(2)
                service.begin(2, Create("/two"))
                is_stopped, path = interrupted(lambda: one.create("/n-", sequential=True), step)
                try:
                    path = one.answer()
                except Idle:
                    pass
                service.settle()
                made = [it for it in one.children("/") if it.startswith("n-")]
                self.assertIn((path, made), (("/n-0000000000", ["n-0000000000"]), (None, []),
                                             (None, ["n-0000000000"])))
                if made and not path:
                    lost.append(step)
                self.assertEqual((two.answer(), service.call("1 exists /x")), ("/two", "no NoNode"))
        # (the last steps are those after the one at which the answer counts as handed out)
        self.assertFalse([it for it in lost if it <= step - 12])


if __name__ == "__main__":
    unittest.main()
