"""The pages of the model in heap_model.py: their states and frames, the objects
on them, and how these move, by the rules in docs/ALGORITHM.md and docs/STEPS.md.
An object has its references and data once, wherever it is; a reference names the
object, and has with it the place where the object was.
"""

from collections import Counter
from typing import NamedTuple


class Refused(Exception):
    """A step is refused; the text is that of the refusal."""


def refuse_if(condition, text):
    if condition:
        raise Refused(text)


class Thing:
    """An object: its place, which is a page's number and an offset; the place that it is to move to, if
    there is one; and what it holds."""

    def __init__(self, place, refs, nums):
        self.place = place
        self.planned = None
        self.refs = [None] * refs
        self.data = [0] * nums
        self.marked = False

    def size(self):
        return 1 + len(self.refs) + len(self.data)


class Word(NamedTuple):
    """A reference that isn't null: an object, the NMT bit, and the place where the object is, or was before it
    moved."""

    thing: Thing
    nmt: int
    place: tuple

    def __str__(self):
        return f"{self.place[0]}.{self.place[1]}/{self.nmt}"


class Page:
    """A page that isn't unused: open, closed, from or gone. Things are all that begin there, by their
    offsets, and live are those that the last mark found, by rising offset; both stay when they move."""

    def __init__(self, frame, top):
        self.state = "open"
        self.frame = frame
        self.top = top
        self.things = {}
        self.live = []

    def is_protected(self):
        return self.state in ("from", "gone")

    def uncopied(self):
        return sum(thing.planned is not None for thing in self.live)

    def __str__(self):
        text = (f"{self.state} frame {'-' if self.frame is None else self.frame} top {self.top}"
                f" objects {len(self.things)} live {len(self.live)}")
        if not self.is_protected():
            return text
        return f"{text} copied {len(self.live) - self.uncopied()}/{len(self.live)}"


def next_fit(sizes, words):
    """Where things of these sizes go that are put into one page of so many words after the other: a number of
    such a page, from 0, and an offset for each."""
    places = []
    target, offset = 0, 0
    for size in sizes:
        if offset + size > words:
            target, offset = target + 1, 0
        places.append((target, offset))
        offset += size
    return places


class Pages:
    """The pages that aren't unused, by their numbers, and the frames that are free."""

    def __init__(self, words, frames, count):
        self.words = words
        self.frames = frames
        self.count = count
        self.used = {}
        self.free = set(range(frames))
        self.moved = Counter()

    # The state of a page that may be unused.
    def state(self, number):
        return self.used[number].state if number in self.used else "unused"

    # The lowest unused page is opened on the lowest free frame.
    def open_page(self, top):
        number = next(n for n in range(1, self.count + 1) if n not in self.used)
        frame = min(self.free)
        self.free.remove(frame)
        self.used[number] = Page(frame, top)
        return number

    # The lowest open page with so many words left, else a fresh one.
    def with_room(self, size):
        for number in sorted(self.used):
            page = self.used[number]
            if page.state == "open" and page.top + size <= self.words:
                return number
        refuse_if(not self.free, "NoFrames 1 0")
        refuse_if(len(self.used) == self.count, "NoPages")
        return self.open_page(0)

    # The place of so many words that are lent.
    def lend(self, size):
        number = self.with_room(size)
        page = self.used[number]
        page.top += size
        return number, page.top - size

    # A thing is where its place says.
    def put(self, thing):
        number, offset = thing.place
        self.used[number].things[offset] = thing

    # Pages are to be emptied, of which those in lent have a lent buffer. How many things are to move, and into
    # how many targets.
    def protect(self, numbers, lent):
        for number in numbers:
            refuse_if(self.state(number) == "open" and number in lent, f"Lent {number}")
            refuse_if(self.state(number) != "closed", f"Unripe {number}")
        things = [thing for number in numbers for thing in self.used[number].live]
        places = next_fit([thing.size() for thing in things], self.words)
        need = 1 + places[-1][0] if places else 0
        refuse_if(need > len(self.free), f"NoFrames {need} {len(self.free)}")
        refuse_if(need > self.count - len(self.used), "NoPages")
        targets = [self.open_page(self.words) for _ in range(need)]
        for thing, (target, offset) in zip(things, places):
            thing.planned = (targets[target], offset)
        for number in numbers:
            self.used[number].state = "from"
        return len(things), need

    # A thing is copied to its planned place, by threads, workers or marks.
    def copy(self, thing, mover):
        thing.place, thing.planned = thing.planned, None
        self.put(thing)
        self.moved[mover] += 1

    # The thing of an entry of a page's side array is copied. Its new place.
    def copy_entry(self, number, entry):
        refuse_if(self.state(number) != "from" or entry >= len(self.used[number].live), "BadIndex")
        thing = self.used[number].live[entry]
        refuse_if(thing.planned is None, "Copied")
        self.copy(thing, "workers")
        return thing.place

    # All things of a page are copied that weren't. How many.
    def copy_page(self, number):
        refuse_if(self.state(number) != "from", "BadIndex")
        left = [thing for thing in self.used[number].live if thing.planned is not None]
        for thing in left:
            self.copy(thing, "workers")
        return len(left)

    def refuse_uncopied(self, number):
        refuse_if(self.used[number].uncopied() > 0, f"Uncopied {number}")

    # A page's frame is free, while its number still leads to where its things are.
    def release(self, number):
        refuse_if(self.state(number) != "from", "BadIndex")
        self.refuse_uncopied(number)
        page = self.used[number]
        self.free.add(page.frame)
        page.state, page.frame = "gone", None
        return len(self.free)

    # A mark ends: things that are marked live, pages whose things moved are unused, and open ones close, but
    # for those in lent. How many things live, and how many pages became unused.
    def end_mark(self, lent):
        retired = [number for number, page in self.used.items() if page.is_protected()]
        for number in retired:
            page = self.used.pop(number)
            if page.frame is not None:
                self.free.add(page.frame)
        for number, page in self.used.items():
            if page.state == "open" and number not in lent:
                page.state = "closed"
            page.live = [page.things[offset] for offset in sorted(page.things) if page.things[offset].marked]
            for thing in page.live:
                thing.marked = False
        return sum(len(page.live) for page in self.used.values()), len(retired)
