#!/usr/bin/env bash
# Compares the tables of virtual functions of the built plugin with those of the shipped plugins, by name and arguments, as the
# objects' relocations and symbols tell them.
#   abi.sh <folder of the built plugin> [folder of the shipped ones]
set -euo pipefail
exec python3 - "$1/libec_azure_lrc.so" "${2:-/usr/lib/x86_64-linux-gnu/ceph/erasure-code}" << 'END_OF_PYTHON'
import os, re, subprocess, sys

CODE, PLUGIN = 18, 3    # functions that programs call of each


def lines(*words):
    return subprocess.run(words, capture_output=True, text=True, check=True).stdout.splitlines()


def table(path, owner):
    """The functions in a class's table, in their order, as name(arguments); one of another library has its name in the relocation."""
    named, start, size = {}, None, None
    for line in lines("readelf", "-sWC", path):
        words = line.split(None, 7)
        if len(words) == 8 and re.fullmatch("[0-9a-f]{16}", words[1]):
            name = re.sub("@.*", "", words[7])
            named.setdefault(int(words[1], 16), name)
            if name == "vtable for " + owner:
                start, size = int(words[1], 16), int(words[2], 0)
    assert start, f"{path} has no class {owner}"
    slots = {}
    for line in lines("readelf", "-rWC", path):
        words = line.split(None, 4)
        if len(words) >= 4 and re.fullmatch("[0-9a-f]{16}", words[0]):
            name = named.get(int(words[3], 16), "?") if words[2] == "R_X86_64_RELATIVE" else words[-1]
            slots[int(words[0], 16)] = re.sub(r"@.*| \+ 0$", "", name)
    return [plain(slots.get(start + 8 * i, "?")) for i in range(2, size // 8)]


def plain(name):
    """Without its class, and destructors, which are called by their places alone, by that word."""
    name = name.replace("[abi:cxx11]", "")
    found = re.match(r"(?:\w+::)*(~?)(\w+)(\(.*)", name)
    assert found, name
    return "destructor" if found[1] else found[2] + found[3]


ours, shipped = sys.argv[1:]
compared = 0
for word, code in (("isa", "ErasureCodeIsaDefault"), ("jerasure", "ErasureCodeJerasureReedSolomonVandermonde"), ("lrc", "ErasureCodeLrc"),
                   ("shec", "ErasureCodeShecReedSolomonVandermonde"), ("clay", "ErasureCodeClay")):
    path = f"{shipped}/libec_{word}.so"
    if not os.path.exists(path):
        print(f"abi: left out: {word} (not installed)")
        continue
    for mine, theirs, count in (("azure_lrc::LrcCode", code, CODE), ("azure_lrc::Plugin", f"ErasureCodePlugin{word.capitalize()}", PLUGIN)):
        for i, (a, b) in enumerate(zip(table(ours, mine)[:count], table(path, theirs)[:count], strict=True)):
            if a != b:
                sys.exit(f"abi: function {i} of {theirs}:\n  ours   {a}\n  theirs {b}")
    compared += 1
if compared == 0:
    sys.exit("abi: there is no shipped plugin to compare with")
print(f"abi: the {CODE} functions of the code and the {PLUGIN} of the plugin are those of {compared} shipped plugins, "
      "in order and arguments")
END_OF_PYTHON
