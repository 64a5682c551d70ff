"""What an experiment found: a line with its counts, and the first difference."""

import time


class Outcome:
    def __init__(self, name, what):
        self.name, self.what = name, what
        self.agreed, self.differed, self.first, self.notes, self.reasons = 0, 0, None, {}, {}
        self.begun = time.monotonic()

    def count(self, same, data, why):
        """One comparison; of the first that differs the bytes and the reason are kept."""
        if same:
            self.agreed += 1
            return
        self.differed += 1
        self.first = self.first or (bytes(data), why)

    def note(self, what, number=1):
        self.notes[what] = self.notes.get(what, 0) + number

    def reason(self, why):
        """Why the engine refuses what is taken here; no difference, as it looks at more."""
        self.reasons[why] = self.reasons.get(why, 0) + 1

    def leave_out(self, what):
        self.note(f"left out: {what}")

    def tell(self):
        """The line of the experiment, and the bytes at which it first differs."""
        notes = "".join(f"; {number} {what}" for what, number in sorted(self.notes.items()))
        seconds = time.monotonic() - self.begun
        print(f"{self.name}: {self.agreed} of {self.agreed + self.differed} {self.what} agree{notes} ({seconds:.0f} s)", flush=True)
        for reason, number in sorted(self.reasons.items(), key=lambda item: -item[1]):
            print(f"  taken by the definitions alone, {number}: {reason}", flush=True)
        if self.first:
            data, why = self.first
            print(f"  first difference: {why}\n  bytes: {data.hex()}", flush=True)
        return self.differed == 0
