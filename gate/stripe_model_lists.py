"""What list must say over a store, and with which status it must end, from rebuild-store(1) and rebuild-store(5): a part of the model of
runs."""

import stripe_model_codes as codes
from stripe_model_descriptions import Copies
from stripe_model_names import escaped
from stripe_model_stripes import NOT_SHOWN, UNREAD, Outcome


def described_bytes(run, stripe):
    """How many bytes the file has by its descriptions, if one of these is believed."""
    believed = Copies(stripe, run.sums or {}).believed() if stripe.name in run.described else None
    return believed and believed.length


def fragment_length(run, stripe, size):
    """How many bytes each fragment has: as the description says, or else as all have, or the most that more have than determine a
    stripe."""
    if size is not None:
        return -(-size // codes.DATA_COUNT[run.code])
    lengths = {len(file.data) for file in stripe.files.values()}
    if len(lengths) < 2:
        return max(lengths, default=None)
    lost = frozenset(stripe.places) - frozenset(stripe.of_length(max(lengths)))
    return max(lengths) if codes.checks_of(run.code, lost) else None


def finish_list(run):
    """How `list` has to end."""
    expected, broken, is_of_device = run.expected, 0, run.has_unlisted
    for stripe in sorted(run.stripes, key=lambda it: it.name.encode()):
        described, size = run.tended(stripe, Outcome(), "name"), described_bytes(run, stripe)
        for line in described.findings:
            if f": {UNREAD}" in line:
                expected.err.append({escaped(f"rebuild-store: {line}")})
        unknown = [place for place in stripe.places if stripe.found[place][0] == "unknown"]
        for place in unknown:
            expected.say(f"{run.pattern.name(stripe.name, place)}: {NOT_SHOWN}{stripe.found[place][1]}")
        is_of_device = is_of_device or described.is_of_device or bool(unknown)
        length = fragment_length(run, stripe, size)
        lost = frozenset(stripe.places) - frozenset(stripe.of_length(length) if length is not None else ())
        is_whole = not lost and not described.findings
        state = "lost" if lost - codes.determined(run.code, lost) else "whole" if is_whole else "degraded"
        broken += state != "whole"
        count, there = len(stripe.places), len(stripe.places) - len(lost)
        if run.options.json:
            expected.out.append({"name": stripe.name, "bytes": size, "code": run.code, "fragments": there, "lost": len(lost),
                                 "state": state})
        else:
            expected.out.append(escaped(f"{state} {'-' if size is None else size} {run.code} {there}/{count} {stripe.name}"))
    run.say_alone(False)
    count = len(run.stripes)
    expected.last = f"{count} file{'' if count == 1 else 's'}; not whole: {broken}"
    expected.status = 3 if is_of_device else 0
    return expected
