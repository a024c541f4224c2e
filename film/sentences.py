"""One sentence or two on what a step has done, in the words of docs/STEPS.md."""

REFUSALS = {
    "BadIndex": "a number of the step names nothing",
    "Parked": "the thread is parked",
    "NotParked": "the thread isn't parked",
    "NotBusy": "no barrier is open",
    "Null": "the register is null",
    "Stall": "the object is about to be copied, and not all threads have crossed",
    "Stale": "the register names an old place, until it is scrubbed",
    "HasBuffer": "the thread has a buffer already",
    "NoFrames": "{} frame is needed and {} are free",
    "NoPages": "no page number is unused",
    "AlreadyCrossed": "the thread has crossed already",
    "NotCrossed": "thread {} hasn't crossed",
    "NotTodo": "there is nothing to scan",
    "Taken": "a worker has it already",
    "TodoLeft": "something is still to be scanned",
    "Pending": "thread {} has an open barrier",
    "Unripe": "page {} isn't closed, and only closed pages can be protected",
    "Uncopied": "page {} has an entry that isn't copied",
    "Copied": "the entry is copied already",
    "Lent": "a buffer of page {} is lent",
    "Births": "as many objects were born as the heap may have",
    "HistoryFull": "the book holds as many entries as it may",
}


def place_of(word):
    """The place that a word names: '1.0' of '1.0/1'."""
    return word.split("/")[0]


def page_in(state, place):
    number = int(place.split(".")[0])
    return next((page for page in state["pages"] if page["number"] == number), None)


def birth_at(state, place):
    """The birth of the object at a place; where that is an old one without memory, by its side array."""
    page = page_in(state, place)
    if page is None:
        return None
    offset = int(place.split(".")[1])
    for thing in page["objects"]:
        if thing["offset"] == offset:
            return thing["birth"]
    for entry in page["entries"]:
        if entry["offset"] == offset:
            return birth_at(state, entry["to"])
    return None


def thing(state, word):
    """The object that a word names, as '#3'."""
    if word == "-":
        return "null"
    birth = birth_at(state, place_of(word))
    return "an object" if birth is None else f"#{birth}"


def many(count, noun, nouns=None):
    """A count and what is counted."""
    return f"{count} {noun if int(count) == 1 else nouns or noun + 's'}"


def listed(numbers):
    """Page numbers as 'page 1' or 'pages 1, 2 and 3'."""
    if len(numbers) == 1:
        return f"page {numbers[0]}"
    return f"pages {', '.join(numbers[:-1])} and {numbers[-1]}"


def copied_places(before, after):
    """The new places of objects that a step has copied."""
    planned = {entry["to"] for page in before["pages"] for entry in page["entries"] if not entry["copied"]}
    return [entry["to"] for page in after["pages"] for entry in page["entries"]
            if entry["copied"] and entry["to"] in planned]


def with_copies(before, after):
    """What is said behind a step that has copied objects itself."""
    places = copied_places(before, after)
    if not places:
        return ""
    things = ", ".join(f"#{birth_at(after, place)} to {place}" for place in places)
    return f" It wasn't copied yet, so the step has copied it: {things}."


def opened(before, after):
    """The pages that a step has opened."""
    old = {page["number"] for page in before["pages"]}
    return [page for page in after["pages"] if page["number"] not in old]


def register_of(state, actor, name):
    return state["threads"][int(actor[1:])]["registers"][int(name[1:])]


def reason(name, step, before):
    """Why a step was refused, where the state says more than the refusal's name."""
    actor, word = step.split(" ")[:2]
    if name == "Phase":
        return f"the phase {before['phase']} has no such step"
    if name == "NoRoom":
        has_buffer = before["threads"][int(actor[1:])]["buffer"] is not None
        return "the buffer has too few words left" if has_buffer else "there is no buffer"
    if name == "Busy":
        is_part = word in ("trap", "heal", "finish")
        return "a trap is due, or the place isn't healed yet" if is_part else "a barrier is open"
    return REFUSALS.get(name, name)


def refusal(reply, step, before):
    name, *numbers = reply.split(" ")
    text = reason(name, step, before).format(*numbers)
    if name == "NoFrames" and numbers[0] != "1":
        text = text.replace("frame is", "frames are")
    if name == "NoFrames" and numbers[1] == "1":
        text = text.replace("1 are free", "1 is free")
    return f"Refused, and nothing has changed: {text}."


def say_take(actor, operands, reply, before, after):
    page, offset = reply.split(" ")[1].split(".")
    text = f"A buffer of {many(operands[0], 'word')} is lent, in page {page} from offset {offset} on."
    for fresh in opened(before, after):
        text += f" Page {fresh['number']} was opened for it, on frame {fresh['frame']}."
    return text


def say_give(actor, operands, reply, before, after):
    _, offset, end = before["threads"][int(actor[1:])]["buffer"]
    rest = f"The rest of it, {many(end - offset, 'word')}, is lost until the page is released."
    return "The buffer is given back. " + (rest if end > offset else "Nothing of it was left.")


def say_new(actor, operands, reply, before, after):
    word = register_of(after, actor, operands[0])
    text = f"#{reply.split(' ')[1]} is born at {place_of(word)}, and {operands[0]} names it."
    if after["phase"] == "mark-crossing":
        text += " A mark waits for threads, so it is born marked and still to be scanned."
    if after["phase"] == "scanning":
        text += " A mark runs, so it is born marked."
    return text


def say_datum(actor, operands, reply, before, after):
    name = thing(before, register_of(before, actor, operands[0]))
    return f"Datum {operands[1]} of {name} is {reply.split(' ')[1]}."


def say_set(actor, operands, reply, before, after):
    name = thing(before, register_of(before, actor, operands[0]))
    return f"Datum {operands[1]} of {name} becomes {operands[2]}."


def say_same(actor, operands, reply, before, after):
    if register_of(before, actor, operands[0]) == register_of(before, actor, operands[1]) == "-":
        return f"{operands[0]} and {operands[1]} are both null: two nulls are the same."
    if reply == "true":
        return f"{operands[0]} and {operands[1]} are the same: places are compared, and NMT bits don't count."
    return f"{operands[0]} and {operands[1]} aren't the same."


def say_null(actor, operands, reply, before, after):
    return f"{operands[0]} is null." if reply == "true" else f"{operands[0]} isn't null."


def say_mov(actor, operands, reply, before, after):
    return f"{operands[0]} becomes the word of {operands[1]}, {register_of(after, actor, operands[0])}."


def say_clear(actor, operands, reply, before, after):
    return f"{operands[0]} becomes null."


def loaded_from(after, actor):
    load = after["threads"][int(actor[1:])]["load"]
    kind, where = load["place"].split(" ")
    if kind == "global":
        return f"global {where}", load
    page, offset, index = where.split(".")
    return f"reference {index} of {thing(after, f'{page}.{offset}')}", load


def say_load(actor, operands, reply, before, after):
    place, load = loaded_from(after, actor)
    what = "null" if load["raw"] == "-" else load["raw"]
    return f"A barrier opens: {what} was loaded from {place}, and is to be tested before {operands[0]} gets it."


say_loadg = say_load


def say_trap(actor, operands, reply, before, after):
    old = before["threads"][int(actor[1:])]["load"]["now"]
    new = after["threads"][int(actor[1:])]["load"]["now"]
    if reply == "moved":
        return (f"A GC trap: {place_of(old)} is an old place. The word leads to {place_of(new)} now."
                + with_copies(before, after))
    if reply == "marked":
        return f"An NMT trap: the mark hasn't seen this word. {thing(after, new)} is marked, and the word is {new}."
    return "No trap is due: the word may be used."


def say_heal(actor, operands, reply, before, after):
    place, load = loaded_from(before, actor)
    if reply == "changed":
        return f"Another word stands in {place} by now, which must not be lost: nothing is written."
    return f"The word is written back to {place}, which still held what was loaded: {load['now']} stands there."


def say_finish(actor, operands, reply, before, after):
    target = before["threads"][int(actor[1:])]["load"]["target"]
    word = register_of(after, actor, target)
    what = "is null" if word == "-" else f"names {thing(after, word)} at {place_of(word)}"
    return f"The load ends: {target} {what}, and the barrier closes."


def say_store(actor, operands, reply, before, after):
    holder = thing(before, register_of(before, actor, operands[0]))
    word = register_of(before, actor, operands[2])
    return f"Reference {operands[1]} of {holder} becomes the word of {operands[2]}: {thing(before, word)}."


def say_storeg(actor, operands, reply, before, after):
    word = register_of(before, actor, operands[1])
    return f"Global {operands[0]} becomes the word of {operands[1]}: {thing(before, word)}."


def crossing(number, before, after):
    mark = before["phase"] == "mark-crossing"
    text = f"Thread {number} has crossed the {'mark' if mark else 'protect'} checkpoint"
    names = any(word != "-" for word in before["threads"][int(number)]["registers"])
    marked = ", and what its registers name is marked." if names else "; its registers are null."
    text += marked if mark else ", and uses old places no more."
    text += with_copies(before, after)
    if after["phase"] == "scanning":
        return text + " It was the last: the phase is Scanning."
    if after["phase"] == "relocating":
        return text + " It was the last: objects may be copied now."
    return text


def say_cross(actor, operands, reply, before, after):
    return crossing(actor[1:], before, after)


def say_crossfor(actor, operands, reply, before, after):
    return crossing(operands[0][1:], before, after) + " The thread is parked, so the worker did it."


def say_scrub(actor, operands, reply, before, after):
    if reply == "clean":
        return f"{operands[0]} names no old place: nothing is to be done."
    old, new = register_of(before, actor, operands[0]), register_of(after, actor, operands[0])
    return (f"{operands[0]} named the old place {place_of(old)}, and is corrected to {place_of(new)}."
            + with_copies(before, after))


def say_park(actor, operands, reply, before, after):
    return f"Thread {actor[1:]} is asleep: a worker may cross checkpoints for it."


def say_unpark(actor, operands, reply, before, after):
    return f"Thread {actor[1:]} runs again."


def say_mark(actor, operands, reply, before, after):
    text = f"A mark starts: the NMT value is {after['nmt']} now, and no thread has crossed."
    if any(page["entries"] for page in after["pages"]):
        text += " It will correct what still leads to protected pages."
    return text


def is_marked(state, word):
    """Whether the running mark has found the object at the place that a word names."""
    page = page_in(state, place_of(word))
    offset = int(place_of(word).split(".")[1])
    return any(found["offset"] == offset and "mark" in found["bits"] for found in page["objects"])


def scanned(old, new, before, after):
    """What became of a word that was scanned."""
    if old == "-":
        return "null stays null"
    if place_of(old) != place_of(new):
        return f"it led to the old place {place_of(old)}, and is {new} now"
    return f"{thing(after, new)} is marked {'already' if is_marked(before, new) else 'now'}, and the word is {new}"


def say_pick(actor, operands, reply, before, after):
    return f"Worker {actor[1:]} takes {thing(after, operands[0])}, which is still to be scanned."


def refs_at(state, place):
    offset = int(place.split(".")[1])
    return next(found["refs"] for found in page_in(state, place)["objects"] if found["offset"] == offset)


def say_scan(actor, operands, reply, before, after):
    scan = before["workers"][int(actor[1:])]
    place, index = scan["object"], scan["next"]
    name = thing(after, place)
    if reply == "done":
        return f"{name} has no further reference: it is scanned."
    what = scanned(refs_at(before, place)[index], refs_at(after, place)[index], before, after)
    return f"Reference {index} of {name} is scanned: {what}." + with_copies(before, after)


def say_scang(actor, operands, reply, before, after):
    number = int(operands[0])
    what = scanned(before["globals"][number]["word"], after["globals"][number]["word"], before, after)
    return f"Global {number} is scanned: {what}." + with_copies(before, after)


def say_endmark(actor, operands, reply, before, after):
    _, _, live, _, retired = reply.split(" ")
    text = f"The mark ends: {many(live, 'object lives', 'objects live')}"
    text += f", and {many(retired, 'page is', 'pages are')} unused again." if retired != "0" else "."
    closed = [str(page["number"]) for page in after["pages"] if page["state"] == "closed"
              and page_in(before, f"{page['number']}.0")["state"] == "open"]
    if not closed:
        return text
    are = "is" if len(closed) == 1 else "are"
    return f"{text} {listed(closed).capitalize()} {are} closed: no more objects are made there."


def say_protect(actor, operands, reply, before, after):
    _, _, objects, _, targets = reply.split(" ")
    verb = "is" if len(operands) == 1 else "are"
    text = f"{listed(operands).capitalize()} {verb} protected, with {many(objects, 'live object')}."
    if targets != "0":
        fresh = listed([str(page["number"]) for page in opened(before, after)])
        text += f" Where {'it goes' if objects == '1' else 'they go'} is planned, on {fresh}."
    return text + " No thread has crossed."


def say_copy(actor, operands, reply, before, after):
    place = reply.split(" ")[1]
    return f"Entry {operands[1]} of page {operands[0]} is copied: #{birth_at(after, place)} is at {place} now."


def say_copyall(actor, operands, reply, before, after):
    return f"All that wasn't copied of page {operands[0]} is: {many(reply.split(' ')[2], 'object')}."


def say_release(actor, operands, reply, before, after):
    frame = page_in(before, f"{operands[0]}.0")["frame"]
    return (f"Page {operands[0]} is gone: frame {frame} is free at once. Its side array stays until a mark"
            " has corrected what leads there.")


SAYINGS = {name[len("say_"):]: say for name, say in globals().items() if name.startswith("say_")}


def sentence(step, reply, before, after):
    """What a step has done, by its text, what it said, and the states before and after it."""
    if step is None:
        return "Nothing is left to be scanned."
    if reply.startswith("refused "):
        return refusal(reply[len("refused "):], step, before)
    actor, name, *operands = step.split(" ")
    return SAYINGS[name](actor, operands, reply, before, after)
