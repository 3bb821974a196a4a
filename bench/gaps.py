"""The moments in which the machine itself runs nothing on one of its processors.

A virtual machine loses its processors to others, for tens of milliseconds. One process on each, that
comes before all others there, sees that: it sleeps for a millisecond, again and again.
"""
import multiprocessing
import os
import signal
import time

SLEEP, GAP = 0.001, 0.004


def watch(processor, ended, to):
    """Sends the moments between which this processor ran nothing."""
    signal.signal(signal.SIGINT, signal.SIG_IGN)
    os.sched_setaffinity(0, {processor})
    os.sched_setscheduler(0, os.SCHED_FIFO, os.sched_param(1))
    found, last = [], time.monotonic()
    while not ended.is_set():
        time.sleep(SLEEP)
        now = time.monotonic()
        if now - last > GAP:
            found.append((last + SLEEP, now))
        last = now
    to.send(found)


def joined(found):
    """These spans in order, none of which meets another."""
    spans = []
    for begin, end in sorted(found):
        if spans and begin <= spans[-1][1]:
            spans[-1] = spans[-1][0], max(end, spans[-1][1])
        else:
            spans.append((begin, end))
    return spans


class Gaps:
    """The gaps of all processors, from its beginning to its end. Only root can see them."""

    def __enter__(self):
        self.spans, self.ended, self.watches = [], multiprocessing.Event(), []
        for it in os.sched_getaffinity(0) if os.geteuid() == 0 else ():
            own, to = multiprocessing.Pipe(duplex=False)
            process = multiprocessing.Process(target=watch, args=(it, self.ended, to))
            process.start()
            self.watches.append((process, own))
        return self

    def __exit__(self, *_):
        self.ended.set()
        self.spans = joined([it for _, own in self.watches for it in own.recv()])
        for process, _ in self.watches:
            process.join()

    def within(self, begin, end):
        """The seconds of gaps between these moments."""
        return sum(max(0, min(end, to) - max(begin, at)) for at, to in self.spans)
