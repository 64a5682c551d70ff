"""The definitions of the repository, ready to be run: what they say of bytes."""

import parts
import words
from evaluator import Evaluator, Function, Made
from sources import Sources
from syntax import clauses_of


class Definitions:
    def __init__(self, top):
        self.sources = Sources(top)
        table = words.table()
        table[">>="] = Function(parts.joined, 2)
        self.evaluator = Evaluator(self.sources, table, parts.table())
        self.rules = self.rules_in_order()

    def find(self, crate, name):
        return self.evaluator.find(crate, name)

    def rules_in_order(self):
        """The listed rules, in the order of their numbers."""
        number_of = self.find("rule_spec", "number_of")
        names = [patterns[0][1].split(".")[-1] for patterns, _ in clauses_of(self.sources.find("rule_spec", "number_of"))]
        return sorted(map(Made, names), key=number_of)

    def read(self, data):
        """The module that bytes spell, and the refusal of bytes that are refused, by their grammar
        or by the first broken rule."""
        try:
            module = parts.read_module(self.evaluator, data)
        except parts.NotSpelled:
            return None, Made("Malformed")
        except parts.Stopped as stopped:
            return None, Made("Unsupported", (stopped.what,))
        lists = self.find("rule_spec", "lists_of_module")(module)
        satisfies = self.find("rule_spec", "Satisfies")
        broken = next((rule for rule in self.rules if satisfies(rule, lists) is not True), None)
        return module, Made("Invalid", (broken,)) if broken else None

    def line_of(self, refusal):
        """The line that the program writes of a refusal."""
        return bytes(self.find("plan_text", "text_of_refusal")(refusal)).decode().strip()

    def verdict(self, data):
        """The module where it is taken, else None; and `planned` or the line of its refusal."""
        module, refusal = self.read(data)
        return (None, self.line_of(refusal)) if refusal else (module, "planned")
