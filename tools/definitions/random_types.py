"""Random groups of types, few and near each other, so that equal ones come often; and modules that
give and want globals of them."""

import random as chances

from spelling import HEADER, name, section, vector

ABSTRACT = ["eq", "any", "extern", "func", "array", "struct", "i31", "none", "noextern", "nofunc"]


class GroupMaker:
    """Makes a group of so many types behind so many others. Of one seed it makes one group, but for
    the places of what it names: outside of the group they hang on what stands before it, and inside
    all of them are turned by a number of places."""

    def __init__(self, seed, size, before, turned):
        self.random, self.size, self.before, self.turned = chances.Random(seed), size, before, turned

    def heap(self):
        chance = self.random.random()
        if chance < 0.45:
            return self.before + (self.random.randrange(self.size) + self.turned) % self.size
        if chance < 0.7 and self.before:
            return self.random.randrange(min(self.before, 2))
        return self.random.choice(ABSTRACT)

    def value(self):
        chance = self.random.random()
        if chance < 0.4:
            return self.random.choice(["i32", "i64"])
        return (self.random.random() < 0.5, self.heap())

    def field(self):
        return self.value(), self.random.random() < 0.5

    def composite(self):
        chance, some = self.random.random(), range(self.random.randrange(3))
        if chance < 0.5:
            return "function", [self.value() for _ in some], [self.value() for _ in range(self.random.randrange(2))]
        return ("struct", [self.field() for _ in some]) if chance < 0.8 else ("array", self.field())

    def member(self):
        form = "plain" if self.random.random() < 0.6 else self.random.choice(["open", "final"])
        return form, self.composite()

    def group(self):
        return [self.member() for _ in range(self.size)]


def random_groups(random):
    """Groups, and for each of their types the seed that it was made of, with its place in the group."""
    groups, origins = [], []
    for _ in range(random.randrange(1, 6)):
        size = random.choice([1, 1, 1, 2, 2, 3])
        seed = random.randrange(5) * 7 + size
        groups.append(GroupMaker(seed, size, len(origins), random.choice([0, 0, 0, 1])).group())
        origins += [(seed, place) for place in range(size)]
    return groups, origins


def moved(group, by):
    """A group whose references to types are that much larger."""
    if isinstance(group, bool) or not isinstance(group, (int, list, tuple)):
        return group
    if isinstance(group, int):
        return group + by
    return [moved(part, by) for part in group] if isinstance(group, list) else tuple(moved(part, by) for part in group)


def random_pair(random, one, other):
    """A type of each, every second time two that were made of one seed, where there are such."""
    alike = [(place, another) for place, origin in enumerate(one) for another, same in enumerate(other) if origin == same]
    return random.choice(alike) if alike and random.random() < 0.5 else (random.randrange(len(one)), random.randrange(len(other)))


def type_section(types, groups):
    return HEADER + section(1, vector([types.members(group) for group in groups]))


def exporter(types, groups):
    """A module with a mutable global g0, g1 .. of each type."""
    count = sum(map(len, groups))
    globals_ = [types.value((True, place)) + b"\1\xd0" + types.heap(place) + b"\x0b" for place in range(count)]
    exports = [name(f"g{place}") + b"\3" + bytes([place]) for place in range(count)]
    return type_section(types, groups) + section(6, vector(globals_)) + section(7, vector(exports))


def importer(types, groups, place):
    """A module that wants a mutable global of one type."""
    return type_section(types, groups) + section(2, vector([name("m") + name("g") + b"\3" + types.value((True, place)) + b"\1"]))
