"""The calls of rebuild-store whose failure may be passed over, each for a reason that the manual pages give or that is said here. All of
them hold only for a run that did all that it does without the failure."""

import dataclasses
import errno

from call_classes import class_of
from known_faults import READS, lock_that_cannot_be_removed_is_not_named

ALL = {"repair", "scrub", "lost", "list", "encode", "read", "verify", "remove"}
LOOKING, OF_FILES = {"repair", "scrub", "lost", "list"}, {"encode", "read", "verify", "remove"}
WRITING, READING = {"repair", "encode", "remove"}, {"read", "verify"}
LOOK, OPEN = {"look"}, {"look", "open"}
REFUSED = {errno.EPERM, errno.EACCES}


@dataclasses.dataclass(frozen=True)
class Excuse:
    """Calls that may fail unsaid: of these commands, of these kinds, of files of these classes, and why. Unless `always` is given, one call
    alone may fail, and not all later ones at its path too."""

    commands: set
    kinds: set
    classes: set
    why: str
    always: bool = False
    # The errors that are meant, if not all are.
    errors: set = frozenset()
    # Whether only calls after the first file was made, or after the file was opened, are meant.
    is_late: bool = False
    # Whether only stripes are meant of which files have several lengths.
    of_lengths: bool = False

    def holds(self, judge):
        failed = judge.failed
        if judge.trial.words[0] not in self.commands or failed.kind not in self.kinds or class_of(judge) not in self.classes:
            return False
        if failed.rest and not self.always or self.errors and failed.how not in self.errors:
            return False
        if self.of_lengths and not any(map(judge.has_several_lengths, judge.stripes_of([failed.paths[-1]]) - {None})):
            return False
        kinds = judge.trial.ended.kinds[:failed.number - 1]
        return not self.is_late or "create" in kinds or "open" in kinds[-3:]


OF_OUTPUTS = [
    Excuse(LOOKING, {"open", "read"}, {"output"}, "it isn't known then whether a run wrote what is at the path of a report", always=True),
    Excuse(LOOKING, {"create", "lock", "look"}, {"unfinished output"}, "if no file can be made beside it, a report is written as it is",
           always=True, errors=REFUSED),
    Excuse({*LOOKING, "read"}, {"chown"}, {"unfinished output"}, "the same, if a new one can't be given away", always=True, errors=REFUSED),
    Excuse({*LOOKING, "read"}, LOOK, {"output"}, "an output is looked at twice"),
]
OF_NO_STRIPE = [
    Excuse(ALL, LOOK, {"nothing"}, "what isn't there isn't there either if it can't be looked at", always=True),
    Excuse(ALL, LOOK, {"strange"}, "a file of another program is left alone", always=True),
    Excuse({*LOOKING, "encode", "remove"}, LOOK, {"alone"}, "what is of no stripe needn't be looked at", always=True),
    Excuse(LOOKING, LOOK, {"beside"}, "the ends of links are looked at to find what runs have left there", always=True),
    Excuse(LOOKING, {*LOOK, "readlink"}, {"link"}, "what a link leads to counts as lost, and a report is written there", always=True),
    Excuse(WRITING, {"lock"}, {"left over"}, "the store is locked, so what is unfinished there is left over", always=True),
    Excuse(WRITING, OPEN, {"left over"}, "what is left over is opened again after it was seen whether a run has locked it"),
    Excuse(WRITING, OPEN, {"left over"}, "what may not be opened is known to be left over", always=True, errors=REFUSED),
]
OF_STRIPES = [
    Excuse(LOOKING, READS, {"fragment", "beside"}, "of several lengths fragments are read to see which is right, and then once more",
           of_lengths=True),
    Excuse(LOOKING, LOOK, {"folder"}, "copies of descriptions are asked for the code, and their folders looked at again"),
    Excuse(LOOKING, {*LOOK, "readlink"}, {"folder beside", "description", "beside"}, "nothing is made where a link leads then",
           always=True),
    Excuse(LOOKING, READS, {"of another part"}, "of other parts descriptions alone are read, to see which code most say", always=True),
    Excuse(LOOKING, READS, {"description"}, "a description is read twice, of which the second time says it"),
    Excuse(LOOKING, LOOK, {"description"}, "its rights needn't be known", always=True, is_late=True),
    Excuse({"repair"}, READS, {"of a store without a code"}, "some are read to see whether the code is theirs", always=True),
    Excuse({"repair"}, READS, {"fragment", "beside"}, "if one of few can't be read, all are"),
    Excuse({"repair"}, LOOK, {"fragment", "description", "beside", "folder"}, "rights are those of another file of the stripe", always=True,
           is_late=True),
    Excuse({"repair"}, {"create", "write", "lock", "look", "open"}, {"unfinished", "folder"}, "what few give is made again of all",
           always=True),
    Excuse(WRITING, {"chown"}, {"unfinished"}, "who may not give a file away keeps it", always=True, errors=REFUSED),
]
OF_STORED_FILES = [
    Excuse({*READING, "remove"}, READS, {"fragment", "description", "beside", "folder", "nothing", "link", "staged"},
           "what is looked at twice, of which the second time says it"),
    Excuse(READING, {*OPEN, "read"}, {"description", "staged"}, "it was read before", always=True),
    Excuse({"remove"}, {"open", "read"}, {"description", "staged"}, "another copy says the code", always=True),
    Excuse({"remove"}, LOOK, {"fragment", "description", "staged"}, "what isn't removed is said, and not what stays with it", always=True),
    Excuse({"remove"}, LOOK, {"beside"}, "what a link leads to isn't removed", always=True),
    Excuse({"encode", "remove"}, READS, {"of another file"}, "other files of the store aren't read", always=True),
    Excuse({"encode", "remove"}, LOOK, {"digests"}, "what is looked at twice"),
    Excuse({"encode"}, LOOK, {"source"}, "how far a run is needn't be known", always=True),
    Excuse({"encode"}, READS, {"description", "fragment", "folder", "staged"}, "what is looked at twice, of which the second time says it"),
    Excuse({"encode"}, {*OPEN, "lock"}, {"staged"}, "a file that gets a second name is locked if that can be", always=True),
    Excuse({"encode"}, {"unlink"}, {"unfinished"}, "its name has gone already", always=True),
]
EXCUSES = [*OF_OUTPUTS, *OF_NO_STRIPE, *OF_STRIPES, *OF_STORED_FILES]


def may_be_unsaid(judge):
    """Why the failure may be passed over, or nothing."""
    return next((excuse.why for excuse in EXCUSES if excuse.holds(judge)), "")


def may_be_unnamed(judge):
    """Whether a line may name something else than the file."""
    return lock_that_cannot_be_removed_is_not_named(judge)
