"""How many beats a code's works take on each unit, and so the cycles that no run of it can do without."""
from shared.assembler import listing_of
from shared.works import MOST_STEPS, SIZES, host_steps

UNITS = ("lanes", "read", "write")


def of_work(step, lanes):
    """The beats of a work (docs/MACHINE.md, "Beats" and "Transfers")."""
    f, words = step.fields, step.words
    if words[0] == "dma":
        return f["mrows"] * -(-f["mbytes"] // 16)
    size = max(SIZES[word] for word in words[2:4] if word in SIZES)
    return f["rows"] * -(-f["vl"] // (4 * lanes // size))


class Code:
    """The works of an image's code, up to so many steps of the host."""

    def __init__(self, image):
        steps = host_steps(listing_of(image))
        self.is_whole = len(steps) < MOST_STEPS or steps[-1].words[0] == "halt"
        self.host, self.works = len(steps), [step for step in steps if step.unit]

    def beats(self, lanes):
        """The beats of each unit on so many lanes, or None where the code makes more steps than are looked at."""
        found = dict.fromkeys(UNITS, 0)
        for step in self.works:
            found[step.unit] += of_work(step, lanes)
        return found if self.is_whole else None
