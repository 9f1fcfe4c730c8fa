"""Which names of a store lead to one path, where links are followed: what is written there would be another name's too."""

import collections
import os

from stripe_model_listing import end_of_links
from stripe_model_names import KEPT, described_stripe

SHARED = "another name leads there too"


def end_of(path):
    """The folder and the name to which a path leads; none if it leads nowhere."""
    end = end_of_links(path)
    folder = os.path.dirname(end or path)
    return (os.path.realpath(folder), os.path.basename(end)) if end and os.path.isdir(folder) else None


def joined(folder, name):
    return f"{folder}/{name}" if folder else name


class Shared:
    """The names under which nothing is written by a run whose folders were listed: first the one that it writes into."""

    def __init__(self, options, pattern, listings):
        self.pattern, self.written = pattern, listings[0]
        self.folders, self.names = collections.defaultdict(set), collections.defaultdict(set)
        if not options.follow:
            return
        for listing in listings:
            for path in listing.entered:
                self.folders[os.path.realpath(path)].add(os.path.relpath(path, listing.options.store).removeprefix("."))
            for name in listing.linked_names:
                self.names[end_of(listing.path(name))].add(name)
        for path in (options.sums or f"{options.store}/SHA256SUMS", options.stripes and f"{os.path.dirname(options.store)}/names",
                     options.report, options.progress):
            self.names[end_of(path) if path else None].add(None)

    def is_name(self, name):
        name = name.removesuffix(KEPT)
        return bool(self.pattern.read(name)) or name == "SHA256SUMS" or bool(described_stripe(name))

    def refuses(self, name, is_replaced):
        """Whether nothing is made under a name, or what is there isn't replaced."""
        path, is_link = self.written.path(name), name in self.written.linked_names
        end = end_of(path) if self.names or self.folders else None
        if not end:
            return False
        plain = {joined(folder, end[1]) for folder in self.folders.get(end[0], ())} - {name}
        linked = self.names.get(end, set()) - {name} if is_link or is_replaced else set()
        return any(map(self.is_name, plain)) or bool(linked)
