"""What of a log was done: statements that failed, or that a ROLLBACK took back, are left out, by connection."""
from dataclasses import dataclass, field

from .sqltokens import Refused, scan


@dataclass
class Entry:
    """A statement of a log: its text, connection and place."""

    sql: str
    place: str
    connection: str = ""
    time: str = ""
    failed: bool = False
    counted: int = None  # the number that the database counts up next, where the log tells it


@dataclass
class Connection:
    """The open transaction of a connection: the places of its statements, and where its savepoints stand."""

    places: list = field(default_factory=list)
    saved: list = field(default_factory=list)
    broken: bool = False
    by_savepoint: bool = False


def words_of(sql, dialect, most=6):
    made = []
    try:
        for token in scan(sql, dialect):
            made.append(token.low or token.text)
            if len(made) == most:
                break
    except Refused:
        pass
    return made + [""] * (min(most, 6) - len(made))


class Done:
    """Goes through the entries in order; `kept` are those that were done, `marks` counts BEGIN, COMMIT and ROLLBACK."""

    def __init__(self, entries, dialect, tell):
        self.entries, self.dialect, self.tell = entries, dialect, tell
        self.open, self.left_out, self.marks, self.manual = {}, set(), 0, set()
        for place, entry in enumerate(entries):
            self.take(place, entry, words_of(entry.sql, dialect))
        for connection in self.open.values():
            self.drop(connection.places, "its transaction is open at the end of the log")
        self.kept = [it for place, it in enumerate(entries) if place not in self.left_out]

    def drop(self, places, why):
        for place in places:
            if place not in self.left_out:
                self.left_out.add(place)
                entry = self.entries[place]
                self.tell(f"{entry.place}: left out, {why}: {' '.join(entry.sql.split())[:70]}")

    def take(self, place, entry, words):
        connection = self.open.get(entry.connection)
        first, second = words[0], words[1]
        if entry.failed:
            self.drop([place], "it failed")
            if first in ("commit", "end"):
                self.drop(self.open.pop(entry.connection, Connection()).places, "its COMMIT failed")
            elif connection and self.dialect == "postgres":
                connection.broken = True
        elif self.dialect == "mysql" and words[:3] == ["set", "autocommit", "="]:
            self.left_out.add(place)
            (self.manual.add if words[3] in ("0", "off") else self.manual.discard)(entry.connection)
            if entry.connection not in self.manual:
                self.open.pop(entry.connection, None)
        elif first == "begin" or first == "start" and second == "transaction":
            self.mark(place)
            if connection and self.dialect == "mysql":
                self.open.pop(entry.connection)
            self.open.setdefault(entry.connection, Connection())
        elif first in ("commit", "end"):
            self.mark(place)
            ended = self.open.pop(entry.connection, None)
            if ended and ended.broken:
                self.drop(ended.places, "its transaction failed")
        elif first in ("rollback", "abort"):
            self.mark(place)
            rest = [it for it in words[1:] if it not in ("", "work", "transaction")]
            if rest[:1] == ["to"]:
                self.back_to(connection, [it for it in rest[1:] if it != "savepoint"])
            else:
                self.drop(self.open.pop(entry.connection, Connection()).places, "it was rolled back")
        elif first == "savepoint":
            self.left_out.add(place)
            # (in SQLite a savepoint outside a transaction begins one)
            connection = connection or (self.open.setdefault(entry.connection, Connection(by_savepoint=True)) if self.dialect == "sqlite" else None)
            if connection:
                connection.saved.append((second, len(connection.places)))
        elif first == "release":
            self.left_out.add(place)
            self.release(entry.connection, connection, [it for it in words[1:] if it not in ("", "savepoint")])
        elif connection or entry.connection in self.manual and first in ("insert", "update", "delete", "replace"):
            self.open.setdefault(entry.connection, Connection()).places.append(place)

    def mark(self, place):
        self.marks += 1
        self.left_out.add(place)

    def back_to(self, connection, names):
        """ROLLBACK TO a savepoint: the statements since are left out; the savepoint stays."""
        if not connection or not names:
            return
        found = [it for it, (name, _) in enumerate(connection.saved) if name == names[0]]
        if found:
            length = connection.saved[found[-1]][1]
            self.drop(connection.places[length:], "it was rolled back")
            connection.places = connection.places[:length]
            connection.saved = connection.saved[: found[-1] + 1]
            connection.broken = False

    def release(self, name, connection, names):
        if connection and names:
            found = [it for it, (saved, _) in enumerate(connection.saved) if saved == names[0]]
            connection.saved = connection.saved[: found[-1]] if found else connection.saved
            if connection.by_savepoint and not connection.saved:
                self.open.pop(name)
