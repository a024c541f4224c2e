"""The results file: for each table what was measured, when, on which machine, and by which command.

bench/results.json has the tables by their names. A part of `make bench` replaces the tables that it has measured, and
leaves the others.
"""

import datetime
import json
import os
import re

TOP = os.path.join(os.path.dirname(os.path.abspath(__file__)), "..")
FILE = os.path.join(TOP, "bench", "results.json")


def text_of(path):
    with open(path, encoding="utf-8") as file:
        return file.read()


def machine():
    """The processor's model, and how many processors the machine has."""
    models = re.findall(r"^model name\s*: (.*)$", text_of("/proc/cpuinfo"), re.M)
    return {"processor": models[0] if models else "unknown", "processors": os.cpu_count()}


def version():
    """The version of the library, as the header defines it."""
    header = text_of(os.path.join(TOP, "include", "pauseless.h"))
    return re.search(r'^#define PAUSELESS_VERSION "(.*)"$', header, re.M)[1]


def has_priority():
    """Whether programs that this one starts are run before those of other work, as by `chrt -f 20` or `nice -n -20`."""
    return os.sched_getscheduler(0) in (os.SCHED_FIFO, os.SCHED_RR) or os.nice(0) < 0


def facts(command, is_proved, load):
    """What a table says about how it was measured. `load` is the machine's when its measuring began."""
    return {"date": datetime.datetime.now(datetime.timezone.utc).date().isoformat(), "command": command,
            "version": version(), "proved": is_proved, "load": round(load, 1), "priority": has_priority(), **machine()}


def read():
    """All tables, by their names."""
    return json.loads(text_of(FILE)) if os.path.exists(FILE) else {}


def one_line(value):
    return json.dumps(value, ensure_ascii=False)


def written(tables):
    """The text of the file: a line for each fact, and a line for each row."""
    parts = []
    for name, table in sorted(tables.items()):
        lines = [f"    {one_line(key)}: {one_line(value)}" for key, value in table.items() if key != "rows"]
        rows = ",\n".join(f"      {one_line(row)}" for row in table["rows"])
        parts.append(f"  {one_line(name)}: {{\n" + ",\n".join([*lines, f'    "rows": [\n{rows}\n    ]']) + "\n  }")
    return "{\n" + ",\n".join(parts) + "\n}\n"


def keep(name, columns, rows, how):
    """Replaces one table in the file."""
    tables = read() | {name: {**how, "columns": columns, "rows": rows}}
    part = f"{FILE}.part"
    with open(part, "w", encoding="utf-8") as file:
        file.write(written(tables))
    os.replace(part, FILE)


def markdown(columns, rows):
    """A table as a page has it."""
    def line(cells):
        return "| " + " | ".join(cells) + " |\n"

    return line(columns) + "|---" * len(columns) + "|\n" + "".join(map(line, rows))
