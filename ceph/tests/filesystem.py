"""Files for filesystem.sh, in a folder whose files are in the pool of the first word, and beside them those that they must be like.

    filesystem.py POOL SEED      changes four files, 120 times in all, and compares them by a client that is mounted anew"""

import os
import random
import sys

import cephfs

FOLDER, MOST = "/coded", 3_000_000
SHADOWS = os.path.join(os.environ["RUN"], "shadows")


def mounted():
    client = cephfs.LibCephFS(conffile=os.environ["CEPH_CONF"])
    client.mount()
    return client


def change(client, name, shadow, choose):
    """Writes a part of a file, also beyond its end, or cuts it off."""
    file = client.open(f"{FOLDER}/{name}", "r+" if shadow else "w", 0o644)
    for _ in range(30):
        start = choose.randrange(MOST)
        if choose.randrange(8) == 0:
            client.ftruncate(file, start)
            del shadow[start:]
            shadow.extend(bytes(start - len(shadow)))
            continue
        data = choose.randbytes(choose.choice((1, 4096, 24_577, 300_000)))
        client.write(file, data, start)
        shadow.extend(bytes(max(start + len(data) - len(shadow), 0)))
        shadow[start:start + len(data)] = data
    client.fsync(file, 0)
    client.close(file)


def compare(client, name, shadow):
    file = client.open(f"{FOLDER}/{name}", "r")
    read = client.read(file, 0, len(shadow) + 1)
    client.close(file)
    if read != bytes(shadow):
        sys.exit(f"{name} has other bytes")


def main(pool, seed):
    choose = random.Random(int(seed))
    os.makedirs(SHADOWS, exist_ok=True)
    client = mounted()
    try:
        client.mkdir(FOLDER, 0o755)
        client.setxattr(FOLDER, "ceph.dir.layout.pool", pool.encode(), 0)
    except cephfs.ObjectExists:
        pass
    shadows = {}
    for name in ("a", "b", "c", "d"):
        path = os.path.join(SHADOWS, name)
        shadows[name] = bytearray(open(path, "rb").read()) if os.path.exists(path) else bytearray()
        change(client, name, shadows[name], choose)
    client.shutdown()
    client = mounted()
    for name, shadow in shadows.items():
        compare(client, name, shadow)
        with open(os.path.join(SHADOWS, name), "wb") as file:
            file.write(shadow)
    held = client.getxattr(f"{FOLDER}/a", "ceph.file.layout.pool").decode()
    client.shutdown()
    if held != pool:
        sys.exit(f"the files are in the pool {held}")
    print(f"120 writes and cuts in {len(shadows)} files of the pool {pool}: no byte differs after mounting anew")


main(*sys.argv[1:])
