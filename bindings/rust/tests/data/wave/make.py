#!/usr/bin/env python3
"""make.py FOLDER: writes the sound files that README.md beside this file describes. Needs Python's
`wave` and Debian's `sox`, in the versions that stand there."""
import io
import os
import struct
import subprocess
import sys
import tempfile
import wave

FRAMES = [(3, -1), (256, -256), (32767, -32768), (0, 12345)]
PCM = b"".join(struct.pack("<hh", *frame) for frame in FRAMES)


def python(data=PCM, rate=44100, channels=2, width=2):
    """The file that `wave` writes of raw samples."""
    file = io.BytesIO()
    with wave.open(file, "wb") as sound:
        sound.setparams((channels, width, rate, 0, "NONE", ""))
        sound.writeframes(data)
    return file.getvalue()


def sox(*options, rate=48000, piped=False):
    """The file that `sox` writes of the frames, with options for it; or what it writes into a pipe."""
    with tempfile.TemporaryDirectory() as folder:
        name = os.path.join(folder, "a.wav")
        raw = ["-t", "raw", "-r", str(rate), "-e", "signed", "-b", "16", "-c", "2", "-"]
        command = ["sox", "-V1", "-D", *raw, *options, "-t", "wav", "-" if piped else name]
        written = subprocess.run(command, input=PCM, check=True, capture_output=True).stdout
        if piped:
            return written
        with open(name, "rb") as file:
            return file.read()


def with_number(file, at, value):
    return file[:at] + struct.pack("<I", value) + file[at + 4:]


def with_chunk(file, at, chunk):
    """A chunk more, and the RIFF length counts it."""
    return with_number(file[:at] + chunk + file[at:], 4, len(file) + len(chunk) - 8)


def extensible(file):
    """The format chunk of 40 bytes that says the same."""
    tail = struct.pack("<HHI", 22, 16, 3) + b"\x01\0\0\0\0\0\x10\0\x80\0\0\xaa\0\x38\x9b\x71"
    longer = with_number(with_chunk(file, 36, tail), 16, 40)
    return longer[:20] + b"\xfe\xff" + longer[22:]


def files():
    plain, software = python(), b"LIST" + struct.pack("<I", 16) + b"INFOISFT" + struct.pack("<I", 4) + b"Stem"
    return {
        "python.wav": plain,
        "sox.wav": sox(),
        "empty.wav": python(b""),
        "slowest.wav": python(PCM[:4], rate=1),
        "fastest.wav": sox(rate=192000),
        "mono.wav": python(PCM[:8], channels=1),
        "three_channels.wav": python(PCM[:12], channels=3),
        "eight_bits.wav": sox("-b", "8"),
        "twenty_four_bits.wav": python(PCM[:12], width=3),
        "half_frame.wav": python(PCM[:14]),
        "byte_over.wav": python(PCM[:13]),
        "rate_192001.wav": python(rate=192001),
        "extensible_24_bits.wav": sox("-b", "24"),
        "floats.wav": sox("-e", "float", "-b", "32"),
        "u_law.wav": sox("-e", "u-law"),
        "rifx.wav": sox("-B"),
        "piped.wav": sox(piped=True),
        "extensible.wav": extensible(plain),
        "list_before.wav": with_chunk(plain, 36, software),
        "list_behind.wav": with_chunk(plain, len(plain), software),
        "data_length.wav": with_number(plain, 40, len(PCM) - 4),
        "byte_rate.wav": with_number(plain, 28, 88200),
        "riff_length.wav": with_number(plain, 4, len(plain)),
        "rate_0.wav": with_number(with_number(plain, 24, 0), 28, 0),
        "bytes_behind.wav": plain + bytes(4),
        "frame_missing.wav": plain[:-4],
        "cut.wav": plain[:43],
    }


def main():
    for name, made in files().items():
        with open(os.path.join(sys.argv[1], name), "wb") as file:
            file.write(made)


main()
