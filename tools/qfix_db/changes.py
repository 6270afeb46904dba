"""What a repaired log changes: constants, statements, rows."""
from . import values
from .faults import Fault
from .language import Log


def changed(old: Log, new: Log):
    """The constants that differ: pairs of a parameter before and after."""
    if len(old.params) != len(new.params) or len(old.statements) != len(new.statements):
        raise Fault("the repaired log has other statements than log.sql")
    for one, other in zip(old.params, new.params):
        if one.statement != other.statement:
            raise Fault("the repaired log has other statements than log.sql")
    return [(one, other) for one, other in zip(old.params, new.params) if one.value != other.value]


def shown(param, value, folder_map):
    """A constant's value as the real log has it."""
    place = folder_map.params.get(param.name)
    return values.decode(value, place["type"]) if place and place["type"] != "text" else str(value)


def real_statement(folder_map, number, news):
    """The real log's statement, and it with the new constants put in (parameter's name to value)."""
    sql = folder_map.statements[number - 1]["sql"].encode()
    made = sql
    places = [it for it in folder_map.params.values() if it["statement"] == number and it["param"] in news]
    for place in sorted(places, key=lambda it: it["from"] if it["from"] is not None else -1, reverse=True):
        if place["from"] is None:
            raise Fault(f"{place['param']} was made by import and stands in no statement: give it no domain, so that it keeps its value")
        source = sql[place["from"] : place["to"]].decode()
        text = values.literal(news[place["param"]], place["type"], source)
        lead = " " if text.startswith("-") and made[: place["from"]].endswith(b"-") else ""
        made = made[: place["from"]] + (lead + text).encode() + made[place["to"] :]
    return sql.decode(), made.decode()


def rows_changed(before, after):
    """The rows whose cells differ: name to the two rows, None where it is not there."""
    names = list(before.rows) + [it for it in after.rows if it not in before.rows]
    names.sort(key=lambda it: (it[0] == "i", int(it[1:])))
    return {it: (before.rows.get(it), after.rows.get(it)) for it in names if before.rows.get(it) != after.rows.get(it)}
