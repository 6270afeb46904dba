"""The types of a database's columns, and the whole numbers or texts that stand for their values.

    int         a whole number, itself
    text        a text, itself
    decimal:N   a number with N places behind the point, as a whole number of its last place (15.5 at decimal:2 is 1550)
    date        a day, as the count of days since 1970-01-01
    time        a second, as the count of seconds since 1970-01-01 00:00:00
    zoned       the same, of a time with its zone
    bool        0 or 1
"""
import datetime
import re
from decimal import Decimal, InvalidOperation

EPOCH = datetime.date(1970, 1, 1)
START = datetime.datetime(1970, 1, 1)
FORMS = re.compile(r"int|text|decimal:\d|decimal:1\d|date|time|zoned|bool")


class BadValue(Exception):
    """A value that has no form at a column's type."""


def is_kind(kind):
    return FORMS.fullmatch(kind) is not None


def places_of(kind):
    return int(kind.split(":")[1])


def whole(number, text, kind):
    if number != number.to_integral_value():
        raise BadValue(f"{text} is no whole number" if kind == "int" else f"{text} has more than {places_of(kind)} places")
    return int(number)


def encode(text, kind):
    """The whole number, or the text, that stands for a value's text at a column of this type."""
    if kind == "text":
        return text
    bare = text.strip()
    try:
        if kind == "bool" and bare.lower() in ("t", "f", "true", "false", "0", "1"):
            return int(bare.lower() in ("t", "true", "1"))
        if kind == "int" or kind.startswith("decimal:"):
            number = Decimal(bare)
            if number.is_finite():
                return whole(number if kind == "int" else number.scaleb(places_of(kind)), text, kind)
        if kind == "date" and re.fullmatch(r"\d{4}-\d\d-\d\d", bare):
            return (datetime.date.fromisoformat(bare) - EPOCH).days
        if kind in ("time", "zoned"):
            return seconds(bare, kind)
    except (InvalidOperation, ValueError):
        pass
    raise BadValue(f"{text!r} is no value of the type {kind}")


def seconds(text, kind):
    bare = re.sub(r"([+-]\d\d)$", r"\1:00", text.replace("Z", "+00:00"))
    if re.fullmatch(r"\d{4}-\d\d-\d\d", bare) and kind == "time":
        bare += " 00:00:00"
    if not re.match(r"\d{4}-\d\d-\d\d[ T]\d\d:\d\d", bare):
        raise ValueError
    value = datetime.datetime.fromisoformat(bare)
    if (value.tzinfo is None) != (kind == "time"):
        raise BadValue(f"{text!r} has {'no' if kind == 'zoned' else 'a'} time zone")
    if value.tzinfo:
        value = value.astimezone(datetime.timezone.utc).replace(tzinfo=None)
    if value.microsecond:
        raise BadValue(f"{text!r} has parts of a second")
    return int((value - START).total_seconds())


def decode(value, kind):
    """The text of the value for which a whole number stands, without quotes."""
    if kind.startswith("decimal:"):
        return f"{Decimal(value).scaleb(-places_of(kind)):f}"
    if kind == "date":
        return (EPOCH + datetime.timedelta(days=int(value))).isoformat()
    if kind in ("time", "zoned"):
        return (START + datetime.timedelta(seconds=int(value))).isoformat(sep=" ") + ("+00:00" if kind == "zoned" else "")
    if kind == "bool":
        return "true" if int(value) else "false"
    return str(value)


def literal(value, kind, source=None):
    """The value as a database's statement has it: between quotes where it was so, or where its type asks for them."""
    text = decode(value, kind)
    if source is not None and "'" in source:
        return f"{source[: source.index(chr(39))]}'{text}'"
    if kind == "bool" and source is not None and source.strip() in ("0", "1"):
        return str(int(value))
    return f"'{text}'" if kind in ("date", "time", "zoned") and source is None else text
