#!/usr/bin/env python3
"""make.py LIBRARY: writes the recording that README.md beside this file describes, its threshold and its page into the
folder above. LIBRARY is the C interface as a shared library."""
import ctypes
import os
import random
import struct
import sys

SEED = 20261117
FRAMES = 2600
THRESHOLD = 1000
# Six log words, medians of 32 for the left stem and 16 for the right one: about the noise.
ENTROPY = struct.pack("<6h", 0x600, 0x600, 0x600, 0x500, 0x500, 0x500)
NOISE = 6, 3
SILENCE = range(1100, 1200)

# What stands in the noise, from a frame on.
LEFT = {
    200: [5000],
    700: [9000, -7000, 5200, -3900, 2900, -2200, 1600, -1200, 900, -650],
    1023: [2500],
    1300: [THRESHOLD],
    1310: [-THRESHOLD - 1],
    2040: [(4000 - 100 * i) * (-1) ** i for i in range(16)],
    2599: [-3000],
}
RIGHT = {
    0: [-1500],
    300: [1800, 4, -1900],
    512: [1250],
    1024: [-6000],
    1500: [-32768],
    1900: [7000, -5000],
    2300: [8388607, -8388608],
    2400: [1001],
}


def stem(rng, noise, sounds):
    samples = [0 if i in SILENCE else rng.randint(-noise, noise) for i in range(FRAMES)]
    for at, sound in sounds.items():
        samples[at:at + len(sound)] = sound
    return samples


def pack(library, frames):
    """The residuals of frames, which without passes are the samples, packed by `wv_pack`."""
    residuals = (ctypes.c_int32 * (2 * FRAMES))(*(sample for frame in frames for sample in frame))
    entropy = (ctypes.c_uint8 * len(ENTROPY))(*ENTROPY)
    out, answer = (ctypes.c_uint8 * (28 * FRAMES))(), (ctypes.c_uint32 * 7)()
    size = ctypes.c_size_t
    refusal = ctypes.CDLL(library).wv_pack(residuals, size(2 * FRAMES), entropy, size(len(ENTROPY)), size(FRAMES),
                                           out, size(28 * FRAMES), answer, size(7))
    assert refusal == 0
    return bytes(out[:(answer[0] + 7) // 8])


def line(block, stems):
    """The line of a block, told from the samples of both stems."""
    here = range(1024 * block, min(1024 * (block + 1), FRAMES))
    peaks = [max(abs(samples[i]) for i in here) for samples in stems]
    over = [[abs(sample) > THRESHOLD for sample in samples] for samples in stems]
    clicks = [sum(loud[i] and not (i > 0 and loud[i - 1]) for i in here) for loud in over]
    return "%6d%11d%11d%8d%8d\n" % (block, *peaks, *clicks)


def main():
    rng = random.Random(SEED)
    stems = [stem(rng, noise, sounds) for noise, sounds in zip(NOISE, (LEFT, RIGHT))]
    payload = pack(os.path.abspath(sys.argv[1]), list(zip(*stems)))
    page = "".join(line(block, stems) for block in range((FRAMES + 1023) // 1024))
    above = os.path.join(os.path.dirname(os.path.abspath(__file__)), os.pardir)
    files = {
        "stdin": ENTROPY + struct.pack("<I", FRAMES) + payload,
        "args": b"%d\n" % THRESHOLD,
        "stdout": page.encode(),
    }
    for name, content in files.items():
        with open(os.path.join(above, name), "wb") as file:
            file.write(content)
    print(len(files["stdin"]), "bytes, of", len(payload), "of payload")
    print(page, end="")


main()
