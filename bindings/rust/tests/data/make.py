#!/usr/bin/env python3
"""make.py FOLDER: writes the .wv files that README.md beside this file describes, and prints the
CRC-32 of what `wvunpack` decodes from each. Needs Debian's `wavpack` 5.6.0."""
import math
import os
import struct
import subprocess
import sys
import tempfile
import zlib


def sound(frames, scale=1):
    """Two tones a channel and a little noise, left and right."""
    noise, result = 1, []
    for i in range(frames):
        pair = []
        for step, other in ((0.031, 0.17), (0.029, 0.11)):
            noise = (noise * 1664525 + 1013904223) % 2**32
            tone = 6000 * math.sin(i * step + 1) + 2500 * math.sin(i * other)
            pair.append(round(scale * (tone + (noise >> 26) - 32)))
        result.append(tuple(pair))
    return result


def pcm(frames, size=2):
    return b"".join(x.to_bytes(size, "little", signed=True) for frame in frames for x in frame)


def pack(name, data, form, *options):
    """Packs raw samples of a form (bits, channels) and sees that they come back."""
    with tempfile.TemporaryDirectory() as folder:
        raw, packed = os.path.join(folder, "a.raw"), os.path.join(folder, "a.wv")
        write(raw, data)
        form = ",".join(map(str, (44100, *form)))
        subprocess.run(["wavpack", "-q", "-y", f"--raw-pcm={form}", *options, raw, "-o", packed], check=True)
        unpack = ["wvunpack", "-q", "--raw", packed, "-o", "-"]
        back = subprocess.run(unpack, check=True, capture_output=True).stdout
        with open(packed, "rb") as file:
            made = file.read()
    assert back == data or name == "hybrid.wv", name
    print(f"{name}: {'the same' if back == data else 'other'} samples, CRC-32 {zlib.crc32(back):08x}")
    write(os.path.join(sys.argv[1], name), made)
    return made


def write(name, data):
    with open(name, "wb") as file:
        file.write(data)


def flipped(data):
    """One bit of the second block's bitstream is another one."""
    second = 8 + struct.unpack_from("<I", data, 4)[0]
    end = second + 8 + struct.unpack_from("<I", data, second + 4)[0]
    return data[:end - 100] + bytes([data[end - 100] ^ 1]) + data[end - 99:]


def part(data, at):
    """Where the data of the sub-block at a place begin and end."""
    begin = at + (4 if data[at] & 0x80 else 2)
    return begin, begin + 2 * int.from_bytes(data[at + 1:begin], "little")


def place(data, block, wanted):
    """Where the data of a sub-block begin, in the block with a number from 0."""
    at = 0
    for _ in range(block):
        at += 8 + struct.unpack_from("<I", data, at + 4)[0]
    at += 32
    while data[at] & 0x3f != wanted:
        _, at = part(data, at)
    return part(data, at)[0]


def far(name, data, wanted, words):
    """Puts other log words into a sub-block, each with the number of its block and its number there."""
    data = bytearray(data)
    for block, word, value in words:
        struct.pack_into("<h", data, place(data, block, wanted) + 2 * word, value)
    write(os.path.join(sys.argv[1], name), data)


def loud():
    """Slow tones at full scale, then a period of three frames with the channels opposed: the residuals
    of its start are so much larger than samples that a median takes all of 32 bits."""
    top = 2**23 - 1
    tones = [(round(top * math.sin(i * 0.004)), round(top * math.sin(i * 0.01 + 2))) for i in range(210)]
    return tones + [(top, 1 - top) if i % 3 < 2 else (1 - top, top) for i in range(210, 350)]


def each(frames, change):
    return [tuple(change(x) for x in frame) for frame in frames]


def large():
    """Large integers whose low bits are stored as they are, all 0, all 1 or like the bit above them."""
    wide, one, frames = (32, 2), "--blocksize=128", sound(128, 240001)
    pack("large_literal.wv", pcm(frames, 4), wide, one, "-j0")
    pack("large_joint.wv", pcm(frames, 4), wide, one, "-j1")
    pack("large_zeros.wv", pcm(each(frames, lambda x: x & -256), 4), wide, one)
    pack("large_ones.wv", pcm(each(frames, lambda x: x | 255), 4), wide, one)
    pack("large_dups.wv", pcm(each(frames, lambda x: x | 255 if x & 256 else x & -256), 4), wide, one)
    pack("large_both.wv", pcm(each(frames[:99], lambda x: x | 7 if x & 8 else x & -8), 4), wide, one)
    pack("large_shifted.wv", pcm(each(frames[:40], lambda x: x & -16), 4), (28, 2), one)


def large_blocks():
    """Blocks that differ in their low bits, and a copy with one bit of the first four flipped."""
    frames, low, high = sound(128), -2**31, 2**31 - 1
    bits = each(frames, lambda x: x % 2)
    kinds = [
        [(2**27 + left % 32, right % 32 - 2**27) for left, right in frames],
        [(2**30 + left * 128, right * 128 - 2**30) for left, right in bits],
        each(bits, lambda bit: low if bit else 0),
        each(bits, lambda bit: high if bit else -1),
        each(bits, lambda bit: high if bit else low),
        bits,
        each(frames[:5], lambda x: 2**25 + x % 7),
    ]
    data = bytearray(pack("large_blocks.wv", pcm(sum(kinds, []), 4), (32, 2), "--blocksize=128"))
    for block, wanted, byte, bit in (0, 0x0c, 100, 3), (1, 0x09, 0, 1), (2, 0x09, 1, 5), (3, 0x09, 2, 0):
        data[place(data, block, wanted) + byte] ^= 1 << bit
    write(os.path.join(sys.argv[1], "large_flipped.wv"), data)


def main():
    long, short = sound(640), sound(128)
    stereo, three, one = (16, 2), "--blocksize=256", "--blocksize=128"
    plain = pack("plain.wv", pcm(long), stereo, three, "-j0", "-m", "-w", "Title=Stem")
    joint = pack("joint.wv", pcm(long), stereo, three, "-j1")
    pack("deep.wv", pcm(sound(128, 251), 3), (24, 2), one)
    pack("loud.wv", pcm(loud(), 3), (24, 2), "--blocksize=170", "-h", "-j1")
    late = [(left, right if i > 300 else 0) for i, (left, right) in enumerate(long)]
    pack("silent_right.wv", pcm(late), stereo, three, "-j0")
    silence = pack("silence.wv", pcm([(0, 0)] * 640), stereo, three)
    pack("mono.wv", pcm([(left,) for left, _ in short]), (16, 1), one)
    pack("hybrid.wv", pcm(short), stereo, one, "-b4")
    floats = [struct.pack("<ff", left / 32768, right / 32768) for left, right in short]
    pack("floats.wv", b"".join(floats), ("32f", 2), one)
    pack("wide.wv", pcm([(2 * left, 2 * right) for left, right in short]), stereo, one)
    pack("shifted.wv", pcm([(left & -16, right & -16) for left, right in short]), (12, 2), one)
    pack("false_stereo.wv", pcm([(left, left) for left, _ in short]), stereo, one)
    pack("four_channels.wv", pcm([frame + frame[::-1] for frame in short]), (16, 4), one)
    write(os.path.join(sys.argv[1], "flipped.wv"), flipped(plain))
    write(os.path.join(sys.argv[1], "cut.wv"), plain[:1000])
    far("far_seeds.wv", joint, 0x04, [(0, 3, -8192), (1, 0, 8192), (2, 0, 8191), (2, 3, -8191)])
    far("far_medians.wv", silence, 0x05, [(0, 5, 8192), (1, 0, -8191), (1, 5, -8192), (2, 5, 8191)])
    large()
    large_blocks()


main()
