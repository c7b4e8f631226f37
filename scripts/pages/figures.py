"""The tables of results/*.csv: the newest value of each thing measured."""
import csv

FIELDS = ["date", "commit", "machine", "command", "what", "value", "peer"]


class Wrong(Exception):
    """A file of results that cannot be read."""


def rows(file):
    """The lines of a file of results, each as a dictionary."""
    with open(file, encoding="utf-8", newline="") as lines:
        found = list(csv.DictReader(lines))
    if not found or list(found[0]) != FIELDS:
        raise Wrong(f"{file.name}: the first line has to be {','.join(FIELDS)}")
    for number, row in enumerate(found, 2):
        if None in row or None in row.values() or not row["date"] or not row["what"]:
            raise Wrong(f"{file.name}, line {number}: a field is missing or there is one too many")
    return found


def newest(found):
    """The newest row of each thing and peer; of one day the last in the file."""
    kept = {}
    for row in found:
        key = (row["what"], row["peer"])
        if key not in kept or row["date"] >= kept[key]["date"]:
            kept[key] = row
    return kept


def cell(text):
    return text.replace("|", "\\|") if "\\|" not in text else text


def alike(found, *names):
    """The one value that these rows have of each field, or none if they differ."""
    values = {tuple(it[name] for name in names) for it in found}
    return values.pop() if len(values) == 1 else None


def source(found):
    """When, of which commit, where and how these rows were measured, as far as that is one for all."""
    date, commit = alike(found, "date", "commit") or ("", "")
    command, machine = (alike(found, it) for it in ("command", "machine"))
    said = [date, commit, machine[0] if machine else ""]
    text = ", ".join(filter(None, said))
    return f"{text}: `{command[0]}`." if command and date else text and f"{text}."


def when(found):
    """The columns that say when and how each thing was measured; none if that is one for all."""
    if alike(found, "date", "command"):
        return [], lambda _: []
    dated = lambda row: [row["date"], row["command"]]
    return ["Date", "Command"], dated


def table(file):
    """A row for each thing measured, a column for each peer, and where the figures come from."""
    kept = newest(rows(file))
    found = list(kept.values())
    things, peers = (list(dict.fromkeys(key[it] for key in kept)) for it in (0, 1))
    heads, dated = when(found)
    yield "| " + " | ".join(["", *(cell(it) or "Vehkumil" for it in peers), *heads]) + " |"
    yield "|" + "---|" * (1 + len(peers) + len(heads))
    for thing in things:
        measured = [kept.get((thing, peer)) for peer in peers]
        newest_of_thing = max(filter(None, measured), key=lambda it: it["date"])
        values = [it["value"] if it else "" for it in measured]
        yield "| " + " | ".join(map(cell, [thing, *values, *dated(newest_of_thing)])) + " |"
    if source(found):
        yield ""
        yield source(found)
