"""What scrub, repair and lost must say over a store, with which status they must end, which rows they must write, and what the folders have
then: the model of a run, from rebuild-store(1) and rebuild-store(5)."""

import dataclasses
import json
import os

import stripe_model_codes as codes
from stripe_model_descriptions import Copies, Descriptions
from stripe_model_listing import Listing
from stripe_model_names import Pattern, escaped
from stripe_model_shared import Shared
from stripe_model_stripes import DAMAGE, GUESS, LENGTHS, NO_SURVIVOR, NOT_SHOWN, OF_DEVICE, UNREAD, Outcome, Stripe

ALONE = "is named as a fragment, and of no stripe"
REMOVED = "was left by a run that was killed, and is removed"
HEADERS = {"6-2-2": "order,stripe,target,length,survivors", "12-2-2": "order,stripe,target,length,survivors,code"}
MOST_OF_LISTS = 65_536
LETTERS = set("abcdefghijklmnopqrstuvwxyz0123456789-")


@dataclasses.dataclass
class Options:
    """What a run is asked for."""
    command: str
    store: str
    code: str | None = None
    names: str = "{stripe}.{place}"
    layout: str = "plain"
    follow: bool = False
    stripes: list | None = None
    part: tuple | None = None
    sums: str | None = None
    report: str | None = None
    progress: str | None = None
    json: bool = False
    quiet: bool = False
    dry: bool = False
    reads: str = "checked"
    replace: bool = False
    assume: bool = False
    to: str | None = None
    workers: int | None = None
    user: int = 0
    trusts: bool = False


@dataclasses.dataclass
class Expected:
    """How a run has to end. Each line is a set of lines of which one is said."""
    status: int = 0
    out: list = dataclasses.field(default_factory=list)
    err: list = dataclasses.field(default_factory=list)
    # The last line, and the first one of a list.
    last: str | None = None
    first: str | None = None
    rows: list = dataclasses.field(default_factory=list)
    files: dict = dataclasses.field(default_factory=dict)
    removed: set = dataclasses.field(default_factory=set)
    counters: dict | None = None

    def say(self, *lines):
        self.err.append({escaped(f"rebuild-store: {line}") for line in lines})

    def refuse(self, line, status=1):
        self.say(line)
        self.status = status
        return self


def counted(count, thing):
    return f"{count} {thing}{'' if count == 1 else 's'}"


def size_of(count):
    """A number of bytes in the greatest unit that they fill, with tenths."""
    if count < 1024:
        return counted(count, "byte")
    unit, name = next((1024 ** k, name) for k, name in ((3, "GiB"), (2, "MiB"), (1, "KiB")) if count >= 1024 ** k)
    tenths = min(9, count % unit // (unit // 10))
    return f"{count // unit}{f'.{tenths}' if tenths else ''} {name}"


def named(names):
    """The number of some names, and the first of them."""
    shown = "".join(f"{' ' if number else ': '}{name}" for number, name in enumerate(names[:3]))
    return f"{len(names)}{shown}{' ..' if len(names) > 3 else ''}"


class Done:
    """A stripe with what became of it and of its descriptions."""

    def __init__(self, stripe, outcome, descriptions):
        self.stripe, self.outcome, self.descriptions = stripe, outcome, descriptions
        self.unchecked = [place for place in outcome.rebuilt if not stripe.is_covered(outcome, place)]
        self.replaceable = sum(stripe.is_replaceable(outcome, finding) for finding in outcome.findings) + descriptions.replaceable
        self.damaged = [finding for finding in outcome.findings if finding.reason in DAMAGE]
        mended = sum(finding.place in outcome.rebuilt for finding in outcome.findings)
        self.left = len(outcome.findings) - mended + len(descriptions.findings)
        self.is_of_device = any(it.reason in OF_DEVICE for it in outcome.findings) or descriptions.is_of_device
        self.files = outcome.files | descriptions.files

    def name(self, place):
        return self.stripe.pattern.name(self.stripe.name, place)

    def lines(self):
        return [self.stripe.line(finding) for finding in self.outcome.findings] + [escaped(line) for line in self.descriptions.findings]

    def why_unchecked(self):
        if self.outcome.is_named(None, GUESS) or any(it.reason == GUESS for it in self.outcome.findings):
            return "which fragment is damaged was a guess"
        if not self.outcome.length:
            return "fragments without bytes show nothing"
        if self.outcome.is_checked:
            return "so many are lost that damage among the others may not show"
        return "as many fragments survive as it takes, so damage among them can't show"

    def rows(self, word):
        """The rows of a report, of which those of a stripe are in no fixed order."""
        name, outcome = self.stripe.name, self.outcome
        rows = [(name, place, word, "unchecked" if place in self.unchecked else "") for place in outcome.rebuilt]
        rows += [(name, it.place or "", "was" if it.place in outcome.rebuilt else "left", it.reason + it.more) for it in outcome.findings]
        rows += [(name, "file", word, made) for made in self.descriptions.made]
        return rows + [(name, "file", "left", line) for line in self.descriptions.findings]


class Run:
    """A run over a store as it is."""

    def __init__(self, options, sums, sums_fault=None):
        self.options, self.sums, self.sums_fault = options, sums, sums_fault
        self.expected = Expected()
        # Whether a folder that is there couldn't be listed, and what runs have left not be removed.
        self.has_unlisted = self.has_left = False
        # What is said of a report that can't be written, and whether a refused run may write its counters.
        self.full, self.writes_counters = None, True

    def list(self):
        """Lists the store, and gives the links that aren't followed."""
        self.listing = Listing(self.options)
        return self.listing.links

    def open(self):
        """Lists the store and says what is noted; false if it is refused."""
        options, links = self.options, self.list()
        listing = self.listing
        self.say_links(links)
        if not self.may_write():
            return False
        for stripe in options.stripes or []:
            listing.expect(stripe)
        if self.sums_fault:
            return self.expected.refuse(*self.sums_fault) and False
        count = listing.expect_sums(self.sums or {})
        if options.sums and not count:
            self.expected.say(f"{options.sums}: names no file of the store")
        self.code = options.code or listing.code()
        if options.code and listing.is_of_other(self.code):
            other = {"6-2-2": "12-2-2", "12-2-2": "6-2-2"}[self.code]
            line = f"{options.store}: has fragments of the code {other}: give --code {other}, or another folder"
            return self.expected.refuse(line) and False
        self.pattern = Pattern(options.names, options.layout, self.code)
        self.found, self.alone, self.described = listing.settled(self.pattern)
        self.say_unlisted()
        if not listing.named or (not options.part and not self.found):
            return self.expected.refuse(f"{options.store}: no file is named as a fragment, {options.names}: is this the store?") and False
        self.stripes = [Stripe(options, self.pattern, name, found, self.sums or {}) for name, found in self.found.items()]
        listings = [Listing(dataclasses.replace(options, store=options.to))] if options.to else []
        shared = Shared(options, self.pattern, [*listings, listing])
        for stripe in self.stripes:
            stripe.shared = shared
        return True

    def may_write(self):
        """Whether root isn't led elsewhere where a run writes."""
        options = self.options
        if options.command != "repair" or options.dry or options.user or options.trusts:
            return True
        listing = Listing(dataclasses.replace(options, store=options.to)) if options.to else self.listing
        why = "may write there, and lead root elsewhere: run as that user, or give --trust-writers"
        lines = [f"{folder}: user {user} or others {why}" for folder, user in listing.foreign()]
        if lines:
            self.expected.say(*lines)
            self.expected.status = 2
        return not lines

    def say_links(self, links):
        if len(links) == 1:
            self.expected.say(f"{links[0]}: is a link, and isn't followed without --follow-links")
        elif links:
            rest = f"and others are links, {len(links)} in all, and aren't followed without --follow-links"
            self.expected.say(*(f"{link} {rest}" for link in links))

    def say_unlisted(self):
        folders = self.pattern.disks() or {folder for stripe in self.found for folder in self.pattern.folders(stripe)}
        for inside, why in self.listing.unlisted:
            is_gone = why in (os.strerror(2), os.strerror(20))
            if not is_gone or any(f"{folder}/".startswith(f"{inside}/") for folder in folders):
                self.expected.say(f"{self.options.store}/{inside}: {why}: what should be in it counts as lost")
            self.has_unlisted = self.has_unlisted or not is_gone

    def say_alone(self, are_all):
        names = [self.pattern.name(stripe, place) for stripe, place in self.alone]
        if are_all:
            self.expected.err += [{escaped(f"{name}: {ALONE}")} for name in names]
        elif len(names) == 1:
            self.expected.say(f"{names[0]}: {ALONE}")
        elif names:
            self.expected.say(*(f"{len(names)} files are named as fragments, and of no stripe: {name} and others" for name in names))

    def is_of_other_store(self):
        """Whether stripes can be checked and none fits the code."""
        fits = [self.is_fit(stripe) for stripe in self.stripes]
        clashing = next((stripe for stripe, is_fit in zip(self.stripes, fits) if is_fit is False), None)
        if True in fits or not clashing:
            return False
        self.expected.refuse(f"{self.options.store}: no stripe fits the code {self.code}, as {clashing.name}: is this the store? "
                             f"With --code {self.code} each is named")
        return True

    def is_fit(self, stripe):
        """Whether a stripe's fragments belong together but for one at most; none if that can't be said."""
        lengths = {len(file.data) for file in stripe.files.values()}
        if len(lengths) != 1 or 0 in lengths:
            return None
        for data in (stripe.of_length(max(lengths)), stripe.held(max(lengths))):
            survivors = codes.Survivors(self.code, data, max(lengths))
            if not codes.checks_of(self.code, survivors.lost):
                return None
            if survivors.fit() or len(survivors.damage()[0]) == 1:
                return True
        return False

    def work(self):
        """What the run may come to for each stripe: sets of alternatives."""
        kind = "name" if self.options.command == "scrub" else "plan" if self.options.dry else "make"
        for stripe in self.stripes:
            if kind == "name":
                outcomes = [stripe.scrub()]
            else:
                outcomes = stripe.plans() if self.options.dry else stripe.repairs()
            yield [Done(stripe, outcome, self.tended(stripe, outcome, kind)) for outcome in outcomes]

    def tended(self, stripe, outcome, kind):
        if stripe.name not in self.described:
            return Descriptions()
        return Copies(stripe, self.sums or {}).tend(kind, outcome)


def finish(run, all_done):
    """How a run has to end that came to this with its stripes."""
    options, expected = run.options, run.expected
    word = "would be rebuilt" if options.dry else "rebuilt"
    for done in all_done:
        lines = [{line} for line in done.lines()]
        if options.command == "repair" and options.reads != "few":
            why = done.why_unchecked()
            lines += [{escaped(f"{done.name(place)}: {word} unchecked: {why}")} for place in done.unchecked]
        if options.command == "repair":
            expected.err += lines
        elif not options.json:
            expected.out += lines
        expected.rows += done.rows(word)
        expected.files |= done.files
    expected.rows += [(stripe, place, "alone", ALONE) for stripe, place in run.alone]
    left = any(done.left for done in all_done)
    to_do = options.dry and any(done.outcome.rebuilt or done.descriptions.made for done in all_done)
    is_of_device = bool(run.has_unlisted or run.has_left or run.full) or any(done.is_of_device for done in all_done)
    if run.full:
        expected.say(run.full)
    expected.status = 3 if is_of_device else int(left or to_do)
    expected.counters = counters_of(run, all_done)
    if not options.quiet:
        last = scrubbed if options.command == "scrub" else planned if options.dry else repaired
        expected.last = escaped(last(run, all_done))
    return expected


def counters_of(run, all_done):
    """What counters say at the end of a run. What they say of what is to be done isn't known where digests are of some fragments alone."""
    damaged = sum(len(done.damaged) for done in all_done)
    others = sum(it.reason not in DAMAGE and it.place not in done.outcome.rebuilt for done in all_done for it in done.outcome.findings)
    described = sum(len(done.descriptions.findings) for done in all_done)
    found = {"damaged": damaged, "left": others + described, "status": run.expected.status}
    single = [stripe for stripe in run.stripes if len({len(file.data) for file in stripe.files.values()}) == 1]
    if run.options.command == "scrub":
        size = sum(len(file.data) for stripe in single for file in stripe.files.values())
        return found | {"units": len(run.stripes), "units_done": len(run.stripes), "bytes": size, "bytes_done": size}
    found["units_done"] = sum(len(done.outcome.rebuilt) for done in all_done)
    if all(stripe.files for stripe in run.stripes):
        found["units"] = sum(len(stripe.places) - len(stripe.files) for stripe in single)
    if run.options.reads == "all" or run.sums is None:
        size = sum(stripe.size_read(len(next(iter(stripe.files.values())).data)) for stripe in single)
        found |= {"bytes": size, "bytes_done": size}
    return found


def scrubbed(run, all_done):
    damaged = sum(len(done.damaged) for done in all_done)
    left = sum(done.left for done in all_done) - damaged
    unchecked = counted(sum(not done.outcome.is_checked for done in all_done), "stripe")
    count = counted(len(all_done), "stripe")
    return f"scrubbed {count}: {damaged} damaged, {left} lost or contradictory, {unchecked} without any check"


def repaired(_, all_done):
    rebuilt = sum(len(done.outcome.rebuilt) for done in all_done)
    size = sum(len(done.outcome.rebuilt) * done.outcome.length for done in all_done)
    unchecked = named([done.name(place) for done in all_done for place in done.unchecked])
    unchecked = unchecked.replace(":", " unchecked:", 1) if ":" in unchecked else f"{unchecked} unchecked"
    damaged = named([done.name(finding.place) for done in all_done for finding in done.damaged])
    replaceable = sum(done.replaceable for done in all_done)
    left = sum(done.left for done in all_done) - replaceable
    more = f"; left without --replace-damaged: {replaceable}" if replaceable else ""
    made = sum(len(done.descriptions.made) for done in all_done)
    described = f"; {counted(made, 'description')} made" if made else ""
    return (f"repaired {counted(rebuilt, 'fragment')}, {size_of(size)} ({unchecked}); damaged: {damaged}{more}; "
            f"not possible: {left}{described}")


def planned(run, all_done):
    sized = [done for done in all_done if not any(it.reason == LENGTHS for it in done.outcome.findings)]
    lengths = [done.outcome.length for done in sized]
    lost = [sum(place not in done.stripe.of_length(done.outcome.length) for place in done.stripe.places) for done in sized]
    sizes = size_of(max(lengths, default=0)) if len(set(lengths)) < 2 else f"{size_of(min(lengths))} to {size_of(max(lengths))}"
    rebuilt = sum(len(done.outcome.rebuilt) for done in all_done)
    writes = size_of(sum(len(done.outcome.rebuilt) * done.outcome.length for done in all_done))
    reads = size_of(sum(len(done.outcome.survivors) * done.outcome.length for done in sized))
    replaceable = sum(done.replaceable for done in all_done)
    left = sum(done.left for done in all_done) - replaceable
    more = f", with --replace-damaged {replaceable}" if replaceable else ""
    made = sum(len(done.descriptions.made) for done in all_done)
    described = f"; {counted(made, 'description')} can be made" if made else ""
    unchecked = sum(len(done.unchecked) for done in all_done)
    return (f"{counted(len(all_done), 'stripe')} of {run.code}, {sizes}; {sum(lost)} lost in {sum(map(bool, lost))}; {rebuilt} can be "
            f"rebuilt ({unchecked} unchecked){more}, {left} can't; reads {reads}, writes {writes}{described}")


def asked(run, stripe, length, lost):
    """The requests for what is lost of a stripe, as lines of standard output."""
    names = codes.code_of(run.code)[0]
    survivors = [place for place in names if place in stripe.of_length(length)]
    for place in lost:
        if run.options.json:
            yield json.dumps({"order": "rebuild", "stripe": stripe.name, "target": place, "length": length, "survivors": survivors,
                              "code": run.code})
        else:
            code = ",12-2-2" if run.code == "12-2-2" else ""
            yield f"rebuild,{stripe.name},{place},{length},{' '.join(survivors)}{code}"


def finish_lost(run):
    """How `lost` has to end."""
    expected, count, unlisted, is_left, is_of_device = run.expected, 0, 0, False, run.has_unlisted
    if not run.options.json:
        expected.first = HEADERS[run.code]
        expected.out.append({expected.first})
    run.say_alone(False)
    for stripe in run.stripes:
        described = run.tended(stripe, Outcome(), "name")
        expected.err += [{escaped(f"rebuild-store: {line}")} for line in described.findings]
        is_left, is_of_device = is_left or bool(described.findings), is_of_device or described.is_of_device
        outcome, length = stripe.begin()
        if length is None and stripe.files:
            is_left = True
            expected.say(*(stripe.name + ": " + LENGTHS + it.more for it in outcome.findings if it.reason == LENGTHS))
        several = len({len(file.data) for file in stripe.files.values()}) > 1
        for place in [place for place in stripe.places if several and place in stripe.closed]:
            expected.say(f"{run.pattern.name(stripe.name, place)}: {UNREAD}{os.strerror(13)}")
            is_of_device = True
        lost = [place for place in stripe.places if place not in stripe.of_length(length or 0)]
        unknown = [place for place in (lost if length is not None else stripe.places) if stripe.found[place][0] == "unknown"]
        for place in unknown:
            expected.say(f"{run.pattern.name(stripe.name, place)}: {NOT_SHOWN}{stripe.found[place][1]}")
        is_of_device = is_of_device or bool(unknown)
        if length is None and stripe.files:
            continue
        count += len(lost)
        unlisted += ask(run, stripe, length or 0, lost)
    expected.last = f"{counted(len(run.stripes), 'stripe')}; {counted(count, 'fragment')} lost, {unlisted} of them not in the list"
    expected.status = 3 if is_of_device else int(count > 0 or is_left)
    return expected


def ask(run, stripe, length, lost):
    """Asks for the lost fragments of a stripe, and gives for how many of them no list can ask."""
    is_name = 0 < len(stripe.name) <= 32 and set(stripe.name) <= LETTERS
    if run.options.json or (is_name and 1 <= length <= MOST_OF_LISTS):
        run.expected.out += [{line} for line in asked(run, stripe, length, lost)]
        return 0
    if len(lost) == len(stripe.places):
        run.expected.say(f"{stripe.name}: {NO_SURVIVOR}")
        return len(lost)
    why = f"it has {length} bytes, and lists take 1 to {MOST_OF_LISTS}" if is_name else "lists take other names of stripes"
    for place in lost:
        run.expected.say(f"{run.pattern.name(stripe.name, place)}: a list can't ask for it: {why}")
    return len(lost)
