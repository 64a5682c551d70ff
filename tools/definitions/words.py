"""The words of std that definitions use, as functions of Python; what each is, std says under the
same name."""

import collections.abc
import functools

from evaluator import NONE, Function, NotEvaluated, some

# More copies of a value than this are not made.
MOST_COPIES = 1 << 20


class Copies(collections.abc.Sequence):
    """A list of more equal values than anything here can hold; its length alone is known."""

    def __init__(self, count):
        self.count = count

    def __len__(self):
        return self.count

    def __getitem__(self, place):
        raise NotEvaluated(f"one of {self.count} copies")


def is_utf8(text):
    try:
        bytes(text).decode("utf-8")
    except UnicodeDecodeError:
        return False
    return True


def replicate(count, value):
    return [value] * count if count <= MOST_COPIES else Copies(count)


def position(test, values):
    return next((some(place) for place, value in enumerate(values) if test(value) is True), NONE)


def in_pairs(relation, one, other):
    return len(one) == len(other) and all(relation(a, b) is True for a, b in zip(one, other))


def all_pairs(relation, values):
    return all(relation(a, b) is True for place, a in enumerate(values) for b in values[place + 1 :])


def when_some(option, function, otherwise):
    return otherwise if option.name == "None" else function(option.parts[0])


FUNCTIONS = {
    # lists
    "length": (1, len),
    "map": (2, lambda function, values: [function(value) for value in values]),
    "flat_map": (2, lambda function, values: [made for value in values for made in function(value)]),
    "filter_map": (2, lambda function, values: [made.parts[0] for made in map(function, values) if made.name == "Some"]),
    "filter": (2, lambda test, values: [value for value in values if test(value) is True]),
    "list_any": (2, lambda test, values: any(test(value) is True for value in values)),
    "list_all": (2, lambda test, values: all(test(value) is True for value in values)),
    "fold": (3, lambda function, first, values: functools.reduce(lambda made, value: function(made, value), values, first)),
    "slice_get": (2, lambda values, place: some(values[place]) if place < len(values) else NONE),
    "slice_index": (2, lambda values, place: values[place] if place < len(values) else 0),
    "get_or": (3, lambda values, place, otherwise: values[place] if place < len(values) else otherwise),
    "set": (3, lambda values, place, value: [*values[:place], value, *values[place + 1 :]] if place < len(values) else values),
    "take": (2, lambda count, values: values[:count]),
    "drop": (2, lambda count, values: values[count:]),
    "reverse": (1, lambda values: values[::-1]),
    "replicate": (2, replicate),
    "range_with_len": (2, lambda first, count: list(range(first, first + count))),
    "enumerate_from": (2, lambda first, values: list(enumerate(values, first))),
    "sum": (1, sum),
    "sum_by": (2, lambda function, values: sum(map(function, values))),
    "count_by": (2, lambda test, values: sum(test(value) is True for value in values)),
    "position": (2, position),
    "position_or_len": (2, lambda test, values: when_some(position(test, values), lambda place: place, len(values))),
    "pointwise": (3, in_pairs),
    # options
    "unwrap_or": (2, lambda option, otherwise: when_some(option, lambda value: value, otherwise)),
    "option_map": (2, lambda function, option: when_some(option, lambda value: some(function(value)), NONE)),
    "option_and_then": (2, lambda function, option: when_some(option, function, NONE)),
    "option_to_list": (1, lambda option: list(option.parts)),
    "is_none": (1, lambda option: option.name == "None"),
    "is_some": (1, lambda option: option.name == "Some"),
    # numbers and truth
    "nat_lt": (2, lambda one, other: one < other),
    "nat_le": (2, lambda one, other: one <= other),
    "nat_eq": (2, lambda one, other: one == other),
    "beq": (2, lambda one, other: one == other),
    "not": (1, lambda value: value is not True),
    "min": (2, min),
    "max": (2, max),
    "suc": (1, lambda number: number + 1),
    "pos": (1, lambda number: number),
    "negsuc": (1, lambda number: -number - 1),
    "next_multiple_of": (2, lambda number, unit: -(-number // unit) * unit if unit else number),
    "cast_unsigned": (2, lambda width, number: number % (1 << width)),
    # bytes and texts
    "decimal": (1, lambda number: list(str(number).encode())),
    "codes": (1, lambda text: list(text.encode())),
    "bytes_eq": (2, lambda one, other: one == other),
    "from_le_bytes": (2, lambda width, given: int.from_bytes(bytes(given), "little")),
    "is_utf8": (1, is_utf8),
    # statements
    "All": (2, lambda statement, values: all(statement(value) is True for value in values)),
    "AllPairs": (2, all_pairs),
    "AllZip": (3, in_pairs),
    "Contains": (2, lambda values, value: value in values),
    "IfSome": (2, lambda option, statement: when_some(option, statement, True)),
    "IsSomeAnd": (2, lambda option, statement: when_some(option, statement, False)),
    "IsSome": (1, lambda option: option.name == "Some"),
    "IsNone": (1, lambda option: option.name == "None"),
    "IsTrue": (1, lambda value: value is True),
}

VALUES = {"zero": 0, "true": True, "false": False, "w32": 32, "w64": 64, "w128": 128, "Unit": True, "⊤": True, "tt": True, "⊥": False, "None": NONE}


def table():
    """Each word by its name."""
    made = {name: Function(call, arity) for name, (arity, call) in FUNCTIONS.items()}
    made.update(VALUES)
    made["Some"] = Function(some, 1)
    return made
