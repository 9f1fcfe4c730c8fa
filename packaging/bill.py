#!/usr/bin/env python3
"""Writes what programs or the C library are made of, as a CycloneDX list for each, FOLDER/NAME.cdx.json: bill.py FOLDER COMMIT SECONDS
CRATE=VERSION.., with the commit's time in seconds since 1970."""

import datetime
import hashlib
import json
import pathlib
import sys
import uuid

import parts


def sum_of_sources(crate):
    """A sum over the names and the bytes of a crate's files."""
    found = hashlib.sha256()
    for part in parts.build.PARTS:
        for file in sorted(it for it in (crate.folder / part).rglob("*") if it.is_file()):
            found.update(f"{file.relative_to(parts.ROOT)}\0{parts.build.sum_of(file)}\n".encode())
    return found.hexdigest()


def properties(pairs):
    return [{"name": name, "value": value} for name, value in pairs]


def own_component(crate, version):
    return {"type": "library", "bom-ref": f"bucketuntil:{crate.name}", "name": crate.name, "version": version, "scope": "required",
            "properties": properties([("bucketuntil:sum-of-sources", sum_of_sources(crate))])}


def component(part, identity):
    """A crate of the toolchain."""
    found = {"type": "library", "bom-ref": f"rattle:{part.name}", "name": part.name, "group": "rattle", "version": identity,
             "scope": "required"}
    if part.ported:
        crate = {"type": "library", "name": part.ported, "version": part.version, "purl": f"pkg:cargo/{part.ported}@{part.version}"}
        found["pedigree"] = {"ancestors": [crate]}
    if part.licence():
        found["licenses"] = [{"expression": part.licence()}]
    return found


def dependencies(own, found, top):
    """Which component uses which."""
    names = {it.name for it in own}
    uses = [(f"bucketuntil:{it.name}", it.line.partition(":")[2].split() + ["std"]) for it in own]
    uses += [(f"rattle:{it.name}", it.uses) for it in found]
    listed = [{"ref": ref, "dependsOn": sorted(f"{'bucketuntil' if it in names else 'rattle'}:{it}" for it in set(below))}
              for ref, below in uses]
    return sorted([*listed, {"ref": top, "dependsOn": [f"bucketuntil:{own[-1].name}"]}], key=lambda it: it["ref"])


def bill(toolchain, name, version, commit, seconds):
    """The list of a crate."""
    own = parts.own_crates([name])
    found = parts.parts(toolchain, [name])
    top = f"pkg:generic/bucketuntil/{name}@{version}"
    kind = "application" if own[-1].is_program else "library"
    tool = {"type": "application", "name": "rattle", "version": toolchain.identity,
            "properties": properties((f"rattle:{key}", value) for key, value in sorted(toolchain.identities()))}
    return {
        "bomFormat": "CycloneDX", "specVersion": "1.5", "version": 1,
        "serialNumber": f"urn:uuid:{uuid.uuid5(uuid.NAMESPACE_URL, f'bucketuntil {commit} {name}')}",
        "metadata": {
            "timestamp": f"{datetime.datetime.fromtimestamp(int(seconds), datetime.timezone.utc):%Y-%m-%dT%H:%M:%SZ}",
            "component": {"type": kind, "bom-ref": top, "name": name, "version": version,
                          "properties": properties([("bucketuntil:commit", commit)])},
            "tools": {"components": [tool]},
        },
        "components": [*(own_component(it, version) for it in own), *(component(it, toolchain.identity) for it in found)],
        "dependencies": dependencies(own, found, top),
    }


def main():
    folder, commit, seconds, *crates = sys.argv[1:]
    toolchain = parts.Toolchain()
    for name, version in (it.split("=") for it in crates):
        text = json.dumps(bill(toolchain, name, version, commit, seconds), indent=1, sort_keys=True)
        file = pathlib.Path(folder) / f"{name.replace('_', '-').replace('lrc-c', 'liblrc')}.cdx.json"
        file.write_text(text + "\n", encoding="utf-8")


main()
