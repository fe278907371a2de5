#!/usr/bin/env python3
"""make.py FILE: writes the blocks that README.md beside this file describes. Needs Debian's `wavpack` 5.6.0."""
import itertools
import math
import os
import random
import struct
import subprocess
import sys
import tempfile
import wave

SEED = 20261115
MODES = ["", "-f", "-h", "-hh", "-x2", "-f -x4", "-h -x4", "-x6", "-hh -x6"]
# In these modes the medians of a block are found from its own residuals: they are 0 where the right channel is soft.
FOUND_ANEW = MODES[5:]
# Flags of what the rules leave out: mono, hybrid, joint stereo, floats, wide integers, shifts, false stereo, DSD.
LEFT_OUT = 1 << 2 | 1 << 3 | 1 << 4 | 1 << 7 | 1 << 8 | 31 << 13 | 1 << 30 | 1 << 31


def clip(x):
    return max(-32768, min(32767, int(round(x))))


def tones(rng, i):
    return 6000 * math.sin(i * 0.031) + 2500 * math.sin(i * 0.17), 5000 * math.sin(i * 0.029 + 1) + rng.gauss(0, 40)


def clicks(rng, i):
    since = i % 173
    ring = 12000 * math.exp(-since / 15) * math.sin(since * 1.3)
    return ring + rng.gauss(0, 12), 0.6 * ring + rng.gauss(0, 15)


def loud(rng, i):
    return rng.uniform(-32768, 32767), rng.uniform(-32768, 32767)


def quiet(rng, i):
    if i % 97 < 70:
        return 0, 0
    return rng.randint(-3, 3), rng.randint(-3, 3)


def stretches(rng, i):
    if i % 400 < 330 and i % 400 > 60:
        return 0, 0
    return rng.gauss(0, 30), rng.gauss(0, 9)


def leaning(rng, i):
    left = 9000 * math.sin(i * i * 0.00004) + rng.gauss(0, 200)
    return left, 0.7 * left + rng.gauss(0, 60)


def opposed(rng, i):
    left = 15000 * math.sin(i * 0.011) * math.sin(i * 0.0031) + rng.gauss(0, 25)
    return left, -left + rng.gauss(0, 25)


def square(rng, i):
    return (20000 if i % 61 < 30 else -20000) + rng.gauss(0, 3), (32767 if i % 45 < 20 else -32768)


def silence(rng, i, level):
    return 0, 0


def left_only(rng, i, level):
    return tones(rng, i)[0], 0


def lone_clicks(rng, i, level):
    """Clicks that ring off into silence, in the right channel from frame 600 on."""
    left, right = (math.exp(-since / 8) * math.sin(since * 1.3) for since in (i % 173, (i - 600) % 211))
    return 12000 * left, level * right if i >= 600 else 0


def late(rng, i, level):
    return tones(rng, i)[0], level * (math.sin(i * 0.029 + 1) + rng.gauss(0, 0.02)) if i >= 600 else 0


def fade_in(rng, i, level):
    left, right = tones(rng, i)
    return (i / 2000) ** 4 * left, (i / 2000) ** 4 * right / 5


RECORDINGS = [tones, clicks, loud, quiet, stretches, leaning, opposed, square]
SILENT_AT_FIRST = [silence, left_only, lone_clicks, late, fade_in]


def encode(folder, frames, mode, block):
    sound, packed = os.path.join(folder, "a.wav"), os.path.join(folder, "a.wv")
    with wave.open(sound, "wb") as out:
        out.setparams((2, 2, 44100, 0, "NONE", ""))
        out.writeframes(b"".join(struct.pack("<hh", *f) for f in frames))
    subprocess.run(["wavpack", "-q", "-y", "-j0", f"--blocksize={block}", *mode.split(), sound, "-o", packed], check=True)
    with open(packed, "rb") as file:
        return file.read()


def blocks(data):
    """Each block with samples: its first frame, its frames, its flags and its sub-blocks by number."""
    at = 0
    while data[at:at + 4] == b"wvpk":
        size, = struct.unpack_from("<I", data, at + 4)
        first, count, flags = struct.unpack_from("<III", data, at + 16)
        parts, p, end = {}, at + 32, at + 8 + size
        while p < end:
            number, words, p = data[p], data[p + 1], p + 2
            if number & 0x80:
                words, p = words + (data[p] << 8) + (data[p + 1] << 16), p + 2
            parts[number & 0x3f] = data[p:p + 2 * words - (number >> 6 & 1)]
            p += 2 * words
        if count:
            yield first, count, flags, parts
        at = end


def passes(parts):
    """The passes, first one first, each with its bytes and its seed words by channel in the order that pass making takes."""
    weights, words, result = parts.get(3, b""), parts.get(4, b""), []
    words = [words[i:i + 2] for i in range(0, len(words), 2)]
    for k, byte in enumerate(parts.get(2, b"")):
        term = (byte & 31) - 5
        count = 2 if term > 8 else 1 if term < 0 else term
        mine, words = words[:2 * count], words[2 * count:]
        pair = weights[2 * k:2 * k + 2] or b"\0\0"
        if term > 8:
            a, b = mine[:2], mine[2:]
        elif term == -3:
            b, a = mine[::2], mine[1::2]
        else:
            a, b = mine[::2][::-1], mine[1::2][::-1]
        assert len(pair) == 2 and len(a) == len(b) and len(a) in (0, count)
        seeds = b"".join(x.ljust(16, b"\0") for x in (b"".join(a), b"".join(b)))
        result.append(bytes([byte]) + pair + bytes([len(a)]) + seeds)
    return result[::-1]


def record(label, frames, parts):
    made, payload, samples = passes(parts), parts[10], b"".join(struct.pack("<hh", *f) for f in frames)
    head = label.encode().ljust(24) + struct.pack("<HHH", len(frames), len(made), len(payload)) + parts[5]
    return head + b"".join(made) + samples + payload


def pack(folder, frames, mode, size):
    """The blocks that hold nothing left out, each as its samples and its sub-blocks."""
    for first, count, flags, parts in blocks(encode(folder, frames, mode, size)):
        if not flags & LEFT_OUT and 9 not in parts:
            yield frames[first:first + count], parts


def zero_right(parts):
    """Whether the right medians are all 0 (a log word below 256 is 0)."""
    return all(w < 256 for w in struct.unpack("<HHH", parts[5][6:]))


def sounding(folder, rng, make, mode):
    """The blocks of a recording whose right medians are not all 0."""
    size = 1500 if mode == "-f" else rng.randint(200, 500)
    start, count = rng.randint(0, 5000), size if mode in ("-f", "-h") else 2 * size
    frames = [tuple(clip(x) for x in make(rng, start + i)) for i in range(count)]
    return [(mine, parts) for mine, parts in pack(folder, frames, mode, size) if not zero_right(parts)]


def silent_at_first(folder, rng, make, mode):
    """The blocks of a recording whose right medians are all 0, with right sound in them where the recording has any."""
    size, start, level = rng.randint(150, 300), rng.randint(0, 300), 1.2 if mode in FOUND_ANEW else 8000
    frames = [tuple(clip(x) for x in make(rng, start + i, level)) for i in range(5 * size)]
    heard = any(right for _, right in frames)
    return [(mine, parts) for mine, parts in pack(folder, frames, mode, size)
            if zero_right(parts) and any(right for _, right in mine) == heard]


def main():
    made = []
    with tempfile.TemporaryDirectory() as folder:
        for find, makes, seed in (sounding, RECORDINGS, SEED), (silent_at_first, SILENT_AT_FIRST, SEED + 1):
            rng = random.Random(seed)
            for make, mode in itertools.product(makes, MODES):
                found = []
                while not found:
                    found = find(folder, rng, make, mode)
                made.append((f"{make.__name__} {mode}", *found[-1]))
    with open(sys.argv[1], "wb") as file:
        file.write(b"".join(record(*block) for block in made))
    terms = {(b & 31) - 5 for _, _, parts in made for b in parts.get(2, b"")}
    print(len(made), "blocks, terms", sorted(terms))


main()
