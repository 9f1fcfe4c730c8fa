"""What the scripts share that run a program by a device that moves few bytes at a call, or fails."""

import pathlib
import struct
import tempfile

import refusals


class Device:
    """slow-device.c, built into a folder."""

    def __init__(self, folder):
        self.folder, self.file = pathlib.Path(folder), pathlib.Path(folder) / "slow-device.so"
        refusals.build(self.file, "slow-device.c", "-shared", "-fPIC")

    def counted(self, run, most="", error=0, **others):
        """What a run gives in an environment by which a device moves so many bytes at a call, and the read or the write of a number fails
        with an error; and the numbers of reads, writes and flushed bytes."""
        with tempfile.NamedTemporaryFile(dir=self.folder) as counts:
            counts.truncate(24)
            environment = {"LD_PRELOAD": str(self.file), "DEVICE_COUNTS": counts.name, "DEVICE_MOST": str(most), "DEVICE_ERROR": str(error)}
            environment |= {f"DEVICE_{kind.upper()}": str(number) for kind, number in others.items()}
            came = run(environment)
            return came, *struct.unpack("=3Q", pathlib.Path(counts.name).read_bytes())
