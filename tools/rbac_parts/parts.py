"""Parts of a listing, and the fault that is told of one."""
import json

JSON_NAMES = {dict: "an object", list: "a list", str: "a string"}


class Fault(Exception):
    """What stands in the way of a text, in words."""


def field(part, name, kind, *otherwise):
    """A field of a part of the listing; `otherwise`, if given, where it is missing or empty."""
    value = None if part.get(name) == "" else part.get(name)
    if value is None and otherwise:
        return otherwise[0]
    return checked(value, name, kind)


def fields(part, name, kind, *otherwise):
    """The elements of a field that is a list."""
    elements = {f"{name}[{i}]": e for i, e in enumerate(field(part, name, list, *otherwise))}
    return [field(elements, place, kind) for place in elements]


def checked(value, name, kind):
    """A value that has to be of a kind; the name says where it stands."""
    if not isinstance(value, kind):
        found = "is missing" if value is None else f"is {json.dumps(value):.40}"
        raise Fault(f"{name} {found}, and has to be {JSON_NAMES[kind]}")
    return value
