"""`rebuild-lists put`: rebuilt fragments back into the store."""

from __future__ import annotations

import argparse
import dataclasses
import os
import pathlib
import stat
import sys

from .answered import hold_to_lists, racks_of
from .files import folder_named, held_alone, said_of, same_bytes, sync_folder, why_unreadable, write_whole
from .formats import PLACES, Failed, Refused, counted
from .progress import Progress
from .reports import Answer, Tally, read_report, reports_of


@dataclasses.dataclass
class Plan:
    """What is done with the rebuilt fragments: which are written, and like which file of the store; how many of them replace others;
    how many are there already; and which are left, since the store has other bytes under their names."""

    write: dict[str, tuple[Answer, os.stat_result]] = dataclasses.field(default_factory=dict)
    replaced: int = 0
    same: int = 0
    others: list[str] = dataclasses.field(default_factory=list)


def lists_for(out: pathlib.Path, named: str | None, store: pathlib.Path) -> pathlib.Path:
    """The folder of the lists that a served folder answers: the one that is named, that of split, or the store if it has lists."""
    if named:
        return folder_named(named)
    whole = out.resolve()
    split_made = whole.parent.parent / "in" / whole.name
    if whole.parent.name == "out" and racks_of(split_made):
        return split_made
    if racks_of(store):
        return store
    raise Refused(f"{out}: --lists names the folder of its lists, with which its reports are compared")


def rebuilt_of(args: argparse.Namespace, store: pathlib.Path, tally: Tally) -> dict[str, Answer]:
    """The rebuilt fragments by name. All reports and digests are compared here, so that nothing is written if one differs."""
    if args.lists and len(args.lists) != len(args.outs):
        raise Refused(f"--lists is given {len(args.lists)} times for {len(args.outs)} OUT: once for each, in their order, or never")
    found: dict[str, Answer] = {}
    with Progress("fragments compared") as shown:
        for place, name in enumerate(args.outs):
            reports = reports_of(folder_named(name))
            if reports[0].name != "report.csv":
                hold_to_lists(pathlib.Path(name), lists_for(pathlib.Path(name), args.lists and args.lists[place], store))
            for report in reports:
                for answer in read_report(report):
                    tally.add(answer.outcome, answer.unread)
                    if answer.rebuilt:
                        compare(found, answer)
                        shown(len(found))
    return found


def compare(found: dict[str, Answer], answer: Answer) -> None:
    """Compares a fragment with its report, and with one of the same name that another answer has."""
    answer.compare()
    first = found.setdefault(answer.name, answer)
    if first.digest != answer.digest:
        raise Refused(f"{answer.name}: {first.fragment} and {answer.fragment} have different bytes")


def has_bytes_of(path: pathlib.Path, answer: Answer) -> bool:
    """Whether a regular file of the store has a fragment's bytes."""
    return os.path.exists(path) and not why_unreadable(path) and same_bytes(path, answer.fragment)


def regular(path: pathlib.Path) -> os.stat_result | None:
    """What the system says of a regular file; None if there is none."""
    try:
        found = os.stat(path)
    except OSError:
        return None
    return found if stat.S_ISREG(found.st_mode) else None


def neighbour(store: pathlib.Path, answer: Answer) -> os.stat_result | None:
    """What the system says of another fragment of the stripe. A store that the fragment was rebuilt from has some."""
    for place in PLACES[answer.code]:
        found = regular(store / f"{answer.stripe}.{place}") if place != answer.target else None
        if found and found.st_size == answer.length:
            return found
    return None


def planned(store: pathlib.Path, found: dict[str, Answer], overwrite: bool) -> Plan:
    """What there is to do for a store, which is refused if it isn't the one that the fragments were rebuilt from."""
    plan = Plan()
    strange: list[str] = []
    for name, answer in found.items():
        if has_bytes_of(store / name, answer):
            plan.same += 1
            continue
        is_taken = os.path.lexists(store / name)
        if is_taken and not overwrite:
            plan.others.append(name)
            continue
        other = neighbour(store, answer)
        if other is None:
            strange.append(answer.stripe)
            continue
        plan.replaced += is_taken
        plan.write[name] = answer, regular(store / name) or other
    if strange:
        more = len(set(strange)) - 1
        raise Refused(f"{store}: has no other fragment of the stripe {strange[0]}{f' and of {more} more' if more else ''}, so it isn't "
                      "the store that was rebuilt; nothing was written")
    return plan


def write_all(store: pathlib.Path, plan: Plan, overwrite: bool) -> int:
    """Writes what is planned, and answers how many fragments were written: not one whose name came meanwhile."""
    written = 0
    with Progress("fragments put") as shown:
        for name, (answer, other) in plan.write.items():
            try:
                write_whole(store / name, answer.pieces(), overwrite, other)
            except FileExistsError:
                if has_bytes_of(store / name, answer):
                    plan.same += 1
                else:
                    plan.others.append(name)
                continue
            except OSError as error:
                why = said_of(error) if error.filename == os.fspath(answer.fragment) else f"{store / name}: {error.strerror}"
                raise Failed(f"{why}; wrote {written} of {counted(len(plan.write), 'fragment')}") from None
            written += 1
            shown(written)
    return written


def put(args: argparse.Namespace) -> int:
    """Copies the rebuilt fragments of served folders into the store. The status says whether all requests were rebuilt, and all their
    fragments are there."""
    store = folder_named(args.store)
    tally = Tally()
    found = rebuilt_of(args, store, tally)
    with held_alone(store):
        plan = planned(store, found, args.overwrite)
        try:
            written = write_all(store, plan, args.overwrite)
        finally:
            sync_folder(store)
    for name in plan.others:
        print(f"{store / name}: exists with different contents; not overwritten (--overwrite replaces it)", file=sys.stderr)
    others = f", {len(plan.others)} with different contents" if plan.others else ""
    print(f"wrote {counted(written, 'fragment')} to {store} ({plan.replaced} replaced, {plan.same} already present{others}); "
          f"{counted(tally.not_rebuilt, 'request')} not rebuilt")
    return 1 if plan.others or tally.not_rebuilt else 0
