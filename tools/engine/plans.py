"""Asks the planner for plans: the program of `plan_cases`, which prints the text and the runtime
data of a case that fails."""

import re
import subprocess

# No plan has this line: so each case fails, and all of it is printed.
NO_LINE = "has no-line-of-a-plan"
FAILED = re.compile(r"^FAILED [^:]*: (\d+)$")


class NoAnswer(Exception):
    """The program says nothing of a case."""


class Plan:
    """The text of a plan, in lines, and its runtime data; of a refusal the line alone."""

    def __init__(self):
        self.status, self.lines, self.runtime = None, [], []

    def of(self, word):
        """What follows a word, of each line that begins with it."""
        return [line[len(word) + 1 :] for line in self.lines if line.startswith(word + " ")]


def case_of(number, data, words):
    return f"case {number}\nwords plan {' '.join(words)}".rstrip() + f"\nbytes {data.hex().upper()}\n{NO_LINE}\ndata 0 00\n"


def read_answer(text):
    """The plans in what the program printed, by the numbers of their cases."""
    plans, plan, expects = {}, None, None
    for line in text.split("\n"):
        found = FAILED.match(line)
        if found:
            plan = plans[int(found.group(1))] = Plan()
            expects = "difference"
        elif plan is None:
            continue
        elif expects == "difference":
            expects = "status"
        elif expects == "status":
            plan.status = int(re.match(r"status (\d+)", line).group(1))
            expects = None
        elif re.match(r"data \d+( [0-9A-F]{2})*$", line):
            plan.runtime.append(bytes.fromhex("".join(line.split(" ")[2:])))
        elif line:
            plan.lines.append(line)
    return plans


class Planner:
    def __init__(self, program, room):
        self.program, self.room = program, room

    def plans(self, asked):
        """The plans of modules, each with the words of its options, in order."""
        path = self.room / "asked.txt"
        path.write_text("\n".join(case_of(number, data, words) for number, (data, words) in enumerate(asked)))
        done = subprocess.run([str(self.program), path.name], cwd=self.room, capture_output=True, text=True, check=False)
        plans = read_answer(done.stdout)
        missing = [number for number in range(len(asked)) if number not in plans]
        if missing:
            raise NoAnswer(f"{self.program}: no answer to case {missing[0]}:\n{done.stdout[-1000:]}{done.stderr[-1000:]}")
        return [plans[number] for number in range(len(asked))]
