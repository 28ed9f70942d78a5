"""Names, and signatures as trees of types (D-Bus Specification: valid names, type system)."""

import re
from functools import lru_cache

LONGEST_NAME = 255
LONGEST_SIGNATURE = 255
NESTED_ARRAYS = 32
NESTED_STRUCTS = 32
BASIC = b"ybnqiuhxtdsog"
THE_BUS = "org.freedesktop.DBus"

PATH = re.compile(rb"/|(?:/[A-Za-z0-9_]+)+")
INTERFACE = re.compile(rb"[A-Za-z_][A-Za-z0-9_]*(?:\.[A-Za-z_][A-Za-z0-9_]*)+")
MEMBER = re.compile(rb"[A-Za-z_][A-Za-z0-9_]*")
WELL_KNOWN = re.compile(rb"[A-Za-z_-][A-Za-z0-9_-]*(?:\.[A-Za-z_-][A-Za-z0-9_-]*)+")
UNIQUE = re.compile(rb":[A-Za-z0-9_-]+(?:\.[A-Za-z0-9_-]+)+")
NAMESPACE = re.compile(rb":[A-Za-z0-9_-]+(?:\.[A-Za-z0-9_-]+)*|[A-Za-z_-][A-Za-z0-9_-]*(?:\.[A-Za-z_-][A-Za-z0-9_-]*)*")


def _short(pattern, name):
    return len(name) <= LONGEST_NAME and pattern.fullmatch(name) is not None


def is_path(name):
    return PATH.fullmatch(name) is not None


def is_interface(name):
    return _short(INTERFACE, name)


def is_member(name):
    return _short(MEMBER, name)


def is_well_known(name):
    return _short(WELL_KNOWN, name)


def is_bus_name(name):
    return _short(WELL_KNOWN, name) or _short(UNIQUE, name)


def is_namespace(name):
    return _short(NAMESPACE, name)


class _NoType(Exception):
    pass


def _one_type(text, at, arrays, structs):
    """The type that begins at `at`, and the place after it."""
    if at >= len(text):
        raise _NoType
    code = text[at : at + 1]
    if code in BASIC or code == b"v":
        return code.decode(), at + 1
    if code == b"a":
        if arrays == NESTED_ARRAYS:
            raise _NoType
        if text[at + 1 : at + 2] == b"{":
            return _dict(text, at + 2, arrays + 1, structs)
        element, after = _one_type(text, at + 1, arrays + 1, structs)
        return ("a", element), after
    if code == b"(":
        if structs == NESTED_STRUCTS:
            raise _NoType
        members = []
        at += 1
        while text[at : at + 1] != b")":
            member, at = _one_type(text, at, arrays, structs + 1)
            members.append(member)
        if not members:
            raise _NoType
        return ("(", tuple(members)), at + 1
    raise _NoType


def _dict(text, at, arrays, structs):
    key, at = _one_type(text, at, arrays, structs)
    if not isinstance(key, str) or key == "v":
        raise _NoType
    value, at = _one_type(text, at, arrays, structs)
    if text[at : at + 1] != b"}":
        raise _NoType
    return ("a", ("{", key, value)), at + 1


@lru_cache(maxsize=10000)
def types_of(text):
    """The complete types that the bytes spell, or None."""
    if len(text) > LONGEST_SIGNATURE:
        return None
    types = []
    at = 0
    try:
        while at < len(text):
            one, at = _one_type(text, at, 0, 0)
            types.append(one)
    except _NoType:
        return None
    return tuple(types)


def alignment(one):
    """The multiple at which a value of this type begins."""
    if not isinstance(one, str):
        return 4 if one[0] == "a" else 8
    return {"y": 1, "g": 1, "v": 1, "n": 2, "q": 2, "x": 8, "t": 8, "d": 8}.get(one, 4)


def first_code(one):
    """The first byte of the type's spelling."""
    return ord(one if isinstance(one, str) else one[0])
