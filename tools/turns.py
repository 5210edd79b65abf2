#!/usr/bin/env python3
"""Makes the input and the expected output of the program `turns`: a row of adds and takes over every edge of document 02's CR 13, and lines
that ask nothing.

    tools/turns.py               writes crates/turns/stdin and stdout

The expected lines come from the model below, which is written from document 02 and shares nothing with the Rattle code.
"""
import os
import random
import re

FOLDER = os.path.join(os.path.dirname(os.path.abspath(__file__)), "..", "crates", "turns")
LINE = re.compile(rb"add (0|[1-9][0-9]*) (0|[1-9][0-9]*)")

UNREAD = [
    b"", b" ", b"add", b"add ", b"add 1", b"add 1 ", b"add  1 2", b" add 1 2", b"add 1  2", b"add 1 2 ", b"add 01 2", b"add 1 02",
    b"add 00 1", b"add 4294967296 1", b"add 1 4294967296", b"add 99999999999 1", b"add 1 99999999999999999999999", b"add -1 2",
    b"add +1 2", b"add 1 2 3", b"add 1,2", b"add 1 x", b"add x 1", b"add 1a 1", b"add /1 1", b"add :1 1", b"ADD 1 2", b"Take", b"take ",
    b" take", b"takes", b"tak", b"take 1", b"add 1 2\r", b"take\r", b"add\t1\t2", b"add1 2", b"addd 1 2", b"\xff\xfe", b"take\0", b"\0",
    b"\xe5\xba\xa7", b"add 1 2" + b" " * 40, b"take" + b" " * 100, b"add " + b"0" * 60 + b"1 2", b"x" * 5000,
    b"add 4294967295 42949672950",
]


class Lines(list):
    def add(self, queue, *items):
        self.extend(b"add %d %d" % (queue, item) for item in items)

    def take(self, times=1):
        self.extend([b"take"] * times)


def lines():
    l = Lines()
    # none waits; the round begins at 0; past 31 it goes on at 0
    l.take()
    l.add(3, 70, 71)
    l.add(0, 72)
    l.take(4)
    l.add(31, 1)
    l.add(0, 2)
    l.add(30, 3)
    l.take(4)
    # the largest and the smallest numbers
    l.add(31, 4294967295)
    l.add(0, 0)
    for queue in (32, 33, 4294967295):
        l.add(queue, 4294967295)
    l.take(3)
    # 16 wait, the 17th is refused, a freed place is used again, many times over
    l.add(5, *range(100, 117))
    l.take()
    l.add(5, 117, 118)
    for item in range(200, 240):
        l.take()
        l.add(5, item)
    l.take(17)
    # neither a refusal nor a take where none waits alters the round
    l.add(7, 300)
    l.take()
    l.add(40, 301)
    l.take()
    l.add(7, 302)
    l.add(8, 303)
    l.take(3)
    l.add(9, *range(400, 416))
    l.add(10, 500)
    l.take()
    l.add(9, 416, 417)
    l.take(19)
    # a big queue and small ones
    l.add(20, *range(600, 616))
    for queue in (2, 19, 21, 31):
        l.add(queue, 700 + queue)
    l.take(6)
    l.add(1, 750)
    l.take(20)
    l.extend(UNREAD)
    l.take()
    # every queue full, and all of it taken
    for i in range(520):
        l.add(i % 33, 1000 + i)
    l.take(515)
    # some steps at random
    draw = random.Random(13)
    for _ in range(400):
        if draw.random() < 0.5:
            l.take()
        else:
            l.add(draw.choice([0, 1, 15, 16, 30, 31, draw.randrange(34)]), draw.randrange(1 << 32))
    l.take(40)
    # the last line has no line feed
    l.add(17, 18)
    l.take()
    return l


def answers(asked):
    queues, last = [[] for _ in range(32)], None
    for line in asked:
        numbers = LINE.fullmatch(line)
        queue, item = map(int, numbers.groups()) if numbers else (0, 0)
        if line == b"take":
            begin = 0 if last is None else last + 1
            waiting = [steps for steps in range(1, 33) if queues[(begin + steps - 1) % 32]]
            if waiting:
                last = (begin + waiting[0] - 1) % 32
                yield "served %d %d %d" % (last, queues[last].pop(0), waiting[0])
            else:
                yield "none 32"
        elif not numbers or max(queue, item) >= 1 << 32:
            yield "unread"
        elif queue > 31:
            yield "refused 13"
        elif len(queues[queue]) == 16:
            yield "refused 14"
        else:
            queues[queue].append(item)
            yield "ok"


asked = lines()
with open(os.path.join(FOLDER, "stdin"), "wb") as f:
    f.write(b"\n".join(asked))
with open(os.path.join(FOLDER, "stdout"), "w") as f:
    f.writelines(line + "\n" for line in answers(asked))
