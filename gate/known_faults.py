"""States in which rebuild-store doesn't do what the manual pages say if a call fails. They are left out until it does: each name of a
function says what is wrong, and what it gives is whether a failed run meets it."""

from call_classes import class_of
from failed_runs import is_unfinished

READS = {"look", "open", "read", "list", "readlink"}


def folder_that_cannot_be_looked_at_is_taken_for_a_good_one(judge):
    """It isn't known then whether it is a link. That isn't said of files that are encoded, read or taken out."""
    is_folder = judge.failed.kind == "look" and class_of(judge) in ("folder", "folder beside", "store")
    return judge.trial.words[0] in ("encode", "read", "verify", "remove") and is_folder and judge.is_as_whole and not judge.failed.said


def store_that_cannot_be_read_is_refused_as_none(judge):
    return "is this the store?" in judge.failed.ran.err and judge.trial.words[0] != "remove"


def lock_that_cannot_be_removed_is_not_named(judge):
    """The store's folder is named."""
    return class_of(judge) == "lock" and judge.failed.kind in ("look", "unlink") and judge.trial.words[0] not in ("encode", "remove")


OF_READS = [folder_that_cannot_be_looked_at_is_taken_for_a_good_one, store_that_cannot_be_read_is_refused_as_none]


def meets_fault(judge):
    """Whether a failure meets a fault of the program, so that its status and its lines aren't held to the pages."""
    return judge.failed.kind in READS and any(fault(judge) for fault in OF_READS)


# The calls by which a file that is made gets its owner, its rights and its name.
GIVING = {"sync", "link", "rename", "look", "open", "chown", "chmod"}


def loses_cause(both):
    """Of a file that can't get its name, and then can't be removed either, the last alone is said; so it is of a report, counters, digests
    or a description whose file can't be written, and of a fragment that is left out while a file is read into another one. Of several
    files that a repair can't remove at a stripe one is said."""
    is_of_made = both.kind in ("unlink", "look") and any(map(is_unfinished, both.paths)) and both.said
    if not is_of_made:
        return False
    of_records = ("SHA256SUMS: ", ".file: ", ".file.copy: ", "can't be written: ")
    is_of_record = any(words in line for line in both.said for words in of_records)
    if both.trial.words[0] == "read":
        return both.first.kind not in ("write", "chown", "chmod")
    if both.first.kind == "write" and both.trial.words[0] == "encode":
        # After one of the fragments all of them are removed, one after the other.
        return both.first.ran.kinds[both.first.number:][:3] != ["unlink"] * 3
    return is_of_record or both.first.kind in GIVING or both.trial.words[0] == "repair" and both.first.kind == "unlink"


def leaves_status(failed):
    """A leftover that couldn't be removed before an encode is refused is said, and the status is that of the refusal."""
    return failed.trial.words[0] == "encode" and all(": is left over, and can't be removed: " in line for line in failed.said)


def leaves_unsaid(both):
    """A file that was made and couldn't be locked or looked at, and then not be removed, isn't said where another one is made, or an output
    is written as it is."""
    return both.first.kind in ("lock", "look") and any(map(is_unfinished, both.first.paths)) and any(map(is_unfinished, both.paths))
