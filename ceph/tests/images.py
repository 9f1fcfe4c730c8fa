"""An RBD image for images.sh, and a file beside it that has the bytes that it must have.

    make NAMES DATA            an image whose names are in one pool and whose data are in another
    write NAMES SEED COUNT     so many writes and discards of parts of the image, then a snapshot and its clone, all compared"""

import os
import random
import sys

import rados
import rbd

SIZE = 24 << 20
DISCARDED = 4096
SHADOW = os.path.join(os.environ["RUN"], "image")


def opened(pool):
    cluster = rados.Rados(conffile=os.environ["CEPH_CONF"])
    # Else parts of objects aren't discarded; this is the least that can be.
    cluster.conf_set("rbd_skip_partial_discard", "false")
    cluster.conf_set("rbd_discard_granularity_bytes", str(DISCARDED))
    cluster.connect()
    return cluster.open_ioctx(pool)


def make(names, data):
    rbd.RBD().create(opened(names), "disk", SIZE, old_format=False, data_pool=data)
    with open(SHADOW, "wb") as file:
        file.truncate(SIZE)


def change(image, shadow, choose):
    start = choose.randrange(SIZE)
    length = choose.choice((1, 512, 4096, 24_576, 24_577, 1 << 20))
    length = min(length, SIZE - start)
    if choose.randrange(5) == 0:
        start, length = start - start % DISCARDED, length + -length % DISCARDED
        length = min(length, SIZE - start)
        image.discard(start, length)
        shadow[start:start + length] = bytes(length)
    else:
        data = choose.randbytes(length)
        image.write(data, start)
        shadow[start:start + length] = data


def hold(image, shadow, what):
    read = image.read(0, SIZE)
    if read != bytes(shadow):
        first = next(k for k in range(SIZE) if read[k] != shadow[k])
        sys.exit(f"{what} has other bytes from {first} on")


def write(names, seed, count):
    choose, io = random.Random(int(seed)), opened(names)
    with open(SHADOW, "rb") as file:
        shadow = bytearray(file.read())
    with rbd.Image(io, "disk") as image:
        hold(image, shadow, "the image, before")
        for _ in range(int(count)):
            change(image, shadow, choose)
        hold(image, shadow, "the image")
        image.create_snap(f"s{seed}")
        image.protect_snap(f"s{seed}")
    before = bytes(shadow)
    rbd.RBD().clone(io, "disk", f"s{seed}", io, f"clone{seed}")
    with rbd.Image(io, "disk") as image:
        change(image, shadow, choose)
        hold(image, shadow, "the image after a snapshot")
    with rbd.Image(io, f"clone{seed}") as image:
        hold(image, before, "the clone")
    with open(SHADOW, "wb") as file:
        file.write(shadow)
    print(f"{count} writes and discards, a snapshot and a clone: no byte differs")


if __name__ == "__main__":
    {it.__name__: it for it in (make, write)}[sys.argv[1]](*sys.argv[2:])
    sys.stdout.flush()
    # At once, as objects.py ends.
    os._exit(0)
