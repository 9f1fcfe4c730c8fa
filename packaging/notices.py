#!/usr/bin/env python3
"""Writes the notices that go with what is built: notices.py CRATE.. > NOTICES. The texts are those of the toolchain's crates; none of them
is kept in the repository."""

import sys
import textwrap

import parts

RULE = "-" * 78
HEAD = """\
What is built here may have parts of the works below, as ports to Rattle that come with its toolchain ({identity}). Each may be copied and
passed on under the terms that are given with it. Of a work that may be had under either of two licences this is the MIT licence.
"""
TAIL = """\
Libraries of the toolchain itself are in all of it, and come without the text of a licence: {plain}.
"""


def main():
    toolchain, tops = parts.Toolchain(), sys.argv[1:]
    works, plain, users = {}, {}, {}
    for top in tops:
        for it in parts.parts(toolchain, [top]):
            (works if it.texts else plain)[it.name] = it
            users.setdefault(it.name, []).append(top.replace("_", "-").replace("lrc-c", "liblrc"))
    print("Notices\n")
    print(textwrap.fill(HEAD.format(identity=toolchain.identity), 78) + "\n")
    for name, it in sorted(works.items()):
        ported = f", after the Rust crate {it.ported} {it.version}" if it.ported else ""
        print(f"- {name}{ported}: {', '.join(users[name])}")
    print("\n" + textwrap.fill(TAIL.format(plain=", ".join(sorted(plain))), 78))
    for name, it in sorted(works.items()):
        print(f"\n{RULE}\n{name}\n{RULE}\n\n{it.notice().strip()}")


main()
