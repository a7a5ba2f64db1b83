"""A `machine hazard` stop in the words of the text: both works, their lines, the bytes they share, the missing wait."""
from shared.program import ask
from shared.works import MOST_STEPS, shared_spans, spans_in_words, stopped_at, straight

UNITS = {"lanes": "the lanes", "read": "the read channel", "write": "the write channel"}
WAITS = {"lanes": "vwait", "read": "rwait", "write": "wwait"}


def explain(room, image, listing, words):
    """The lines that explain a run of `exec IMAGE words` which stops at a hazard."""
    refusal = ask("exec", image, *words).refusal.split()
    steps = stopped_at(room, listing, image, words)
    if steps is None:
        pc = int(refusal[refusal.index("pc") + 1])
        return [*listing.shown(pc, f"the machine stops before this work (instruction {pc}), which meets a work in flight"),
                f"it comes behind {MOST_STEPS} steps of the host, so which turn of a loop it is isn't looked for"]
    late = steps[-1]
    number = sum(1 for step in steps if step.unit)
    said = listing.shown(late.pc, f"the machine stops before this work, work {number} (instruction {late.pc}), "
                                  f"in cycle {refusal[-1]}")
    said += uses(late)
    found = partners(listing.version, steps)
    for k, spans in found:
        said += partner(listing, steps, k, spans)
    if found:
        said += missing(room, image, listing, words, steps, found)
    return said


def uses(step):
    """What a work reads and writes, a line each."""
    lines = {}
    for region in step.regions:
        verb = "writes" if region.writes else "reads"
        lines.setdefault(verb, []).append(spans_in_words(region.store, region.spans()))
    return [f"    it {verb} {', '.join(dict.fromkeys(said))}" for verb, said in lines.items()]


def partners(version, steps):
    """For each unit the last work before the last step that shares bytes with it, and may be overtaken by it."""
    late, found = steps[-1], {}
    for k, step in enumerate(steps[:-1]):
        if step.unit and (step.unit != late.unit or version == 2 and late.unit != "lanes"):
            spans = shared_spans(step, late)
            if spans and not is_ended(version, steps, k):
                found[step.unit] = (k, spans)
    return sorted(found.values(), key=lambda it: it[0])


def is_ended(version, steps, k):
    """Whether a wait between the work k and the last step leaves it no place among the unfinished ones."""
    work, later = steps[k], 0
    for step in steps[k + 1:-1]:
        later += step.unit == work.unit
        if step.words[0] == WAITS[work.unit]:
            if step.leaves == 0 or step.leaves <= later and (version == 1 or work.unit == "lanes"):
                return True
        if step.words[0] == "twait" and work.unit != "lanes" and step.leaves == work.fields["tag"]:
            return True
    return False


def partner(listing, steps, k, spans):
    number = sum(1 for step in steps[:k + 1] if step.unit)
    said = listing.shown(steps[k].pc, f"it meets this one, work {number} (instruction {steps[k].pc}), "
                                      f"which {UNITS[steps[k].unit]} may not have done yet")
    said += uses(steps[k])
    return said + [f"    they share {spans_in_words(store, found)}" for store, found in spans.items()]


def wait_for(version, steps, k):
    """The wait that ends the work k before the last step: its words, and what its number has to be."""
    unit, wait = steps[k].unit, WAITS[steps[k].unit]
    if unit == "lanes":
        return wait, ""
    if version == 2:
        return "twait", f"with the work's tag, {steps[k].fields['tag']}, in its register"
    later = sum(1 for step in steps[k + 1:-1] if step.unit == unit)
    return wait, f"with {later} in its register, the number of {unit}s issued behind it" if later else "with 0 in its register"


def missing(room, image, listing, words, steps, found):
    """Which waits are missing, and whether the program agrees: with waits that leave nothing it passes the place."""
    said = []
    for k, _ in found:
        wait, number = wait_for(listing.version, steps, k)
        said.append(f"missing between the two: `{wait}`{', ' + number if number else ''}")
    extra, zero = [], steps[-1].zero
    for k, _ in found:
        wait = WAITS[steps[k].unit]
        if wait != "vwait" and zero is None:
            extra, zero = ["li r0 0", *extra], 0
        extra.append(wait if wait == "vwait" else f"{wait} r{zero}")
    copy = room.path("mended.image")
    made = ask("asm", room.file("mended.asm", straight(listing, steps, extra)), copy)
    if not made.status and not ask("exec", copy, *words).refusal.startswith("machine hazard"):
        said.append("tried: with that wait just before the second work, the machine passes it under the same grants")
    return said


def stopped(room, image, listing, words, refusal):
    """The lines for a work with a count of 0, or with bytes outside cells or memory."""
    pc = int(refusal.split()[refusal.split().index("pc") + 1])
    steps = stopped_at(room, listing, image, words)
    if steps is None:
        return listing.shown(pc, f"the machine stops before this work (instruction {pc})")
    late = steps[-1]
    number = sum(1 for step in steps if step.unit)
    said = listing.shown(pc, f"the machine stops before this work, work {number} (instruction {pc})")
    if "bad count" in refusal:
        counts = ("vl", "rows") if late.unit == "lanes" else ("mbytes", "mrows")
        return said + [f"    its count `{name}` is 0" for name in counts if not late.fields[name]]
    said += uses(late)
    memory = listing.heads["memory"][0]
    return said + [f"    there are the cells 0 to {int(words[2]) - 1}, and {memory} bytes of memory"]
