"""What is aimed at: a bound for cells of tables of the results file."""

import typing


class Aim(typing.NamedTuple):
    """An upper bound, or a lower one. `rows` matches how a row begins, with ' | ' between its cells, and `column` the
    complete names of columns. The bound is for each of these cells, or for some of them."""

    what: str
    bound: float
    table: str
    column: str
    rows: str = ""
    at_least: bool = False
    some: int = 0  # how many of the cells have to be within the bound; 0: all


AIMS = [
    Aim("a call of the library, over a plain heap by hand", 1.5, "steps-instructions", "call over plain"),
    Aim("a step by `Heap::step`, likewise", 2.2, "steps-instructions", "step over plain"),
    Aim("a step by `Book::act`, likewise", 3, "steps-instructions", "act over plain"),
    Aim("a list marked by one call, instructions an object", 150, "drains-instructions", "by a call",
        r"list \| 10,000"),
    Aim("a tree marked by one call, instructions an object", 190, "drains-instructions", "by a call",
        r"trees \| 16,383"),
    Aim("a mark of a list or tree of 2 or 3 words, over bdwgc", 1.5, "collections", "mark over bdwgc",
        r"list \| 2|tree \| 3"),
    Aim("each program of the Lisp in C, over bdwgc", 2.5, "lisp", "4 MiB over bdwgc"),
    Aim("two programs of the Lisp in C, over bdwgc", 2, "lisp", "4 MiB over bdwgc", some=2),
    Aim("8 KiB of data read or written by a call from C, GB/s", 4, "data", "GB/s", "(?!.*one call a word)",
        at_least=True),
    Aim("an object copied by `CopyPage`, instructions", 300, "copies-instructions", "by `CopyPage`"),
    Aim("`CopyPage` over `memcpy`, from 8 words on", 1.5, "copies-instructions", "`CopyPage` over `memcpy`", "8|64"),
    Aim("a step of `Copy` over a slice, from 8 words on", 3, "copies", "steps over a slice", "8|64|511"),
    Aim("a word verified in 4,096 frames, over one in 16", 1.3, "verifications", "over 16 frames", r".* \| 4,096"),
    Aim("a command of threads in a script, instructions", 900, "commands-instructions", "all", "all commands"),
    Aim("a wait for a shared heap with 20 rests, ms", 2, "turns", "longest wait, ms", r"portions \| 20"),
    Aim("four threads that read by views, over one", 3, "views", "over one thread", r".* \| 4 ", True),
    Aim("four threads with a heap each, over one", 3.5, "apart", "over one thread", r"a heap for each thread \| 4",
        True),
    Aim("a hold of a book's lock, us", 1_000, "holds", "objects of .*"),
    Aim("a part of a collection with a budget of 100, us", 1_000, "pauses",
        "begin|scan|end|measure|prepare|protect|empty|last", r".* \| 100 \| "),
    Aim("the same, if a collection empties 128 pages at most, us", 1_000, "few-pauses",
        "begin|scan|end|measure|prepare|protect|empty|last"),
    Aim("a mark of a graph of a million objects by four threads, over one", 3, "waves", "4 over one thread",
        r"mark, graph \| 1,", True),
    Aim("a mark by four threads over bdwgc's by four markers, over the same of one", 1, "markers",
        "these, four over one"),
    Aim("a mark of a forest by four threads, over one", 2, "waves", "4 over one thread", "mark, forest", True),
    Aim("a first collection of a half-dead graph by four threads, over one", 2.2, "waves", "4 over one thread",
        "first collection", True),
]
