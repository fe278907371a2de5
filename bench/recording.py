#!/usr/bin/env python3
"""recording.py FILE [SEED]: writes 60 seconds of stereo sound, 44,100 frames a second, 16 bits.

As two contact microphones on neighbouring stems would hear it: tones that are struck and die away, a rustle
whose level wanders, clicks, and a rustle of each stem's own. What the stems share reaches them at different
levels, and the rustle and the clicks come to the right one a second time, a little later. The same seed gives
the same recording.
"""
import array
import math
import random
import sys
import wave

RATE = 44100
STEP = 441  # frames for which levels and pitches stay as they are
STEPS = 6000
LATER = 23  # frames until the right stem hears what runs through the ground
# Of each tone: pitch in Hz, seconds in which it falls to 1 / e, the hardest strike.
TONES = [(97, 1.2, 9000), (261, 1.0, 7500), (540, 0.8, 6000), (1130, 0.6, 4500), (2350, 0.4, 3500),
         (3900, 0.3, 3000), (6100, 0.2, 2500)]


class Tone:
    """A resonance, struck about twice a second; its pitch wanders by some percent."""

    def __init__(self, rng, hertz, decay, strike):
        self.rng, self.hertz, self.strike = rng, hertz * rng.uniform(0.9, 1.1), strike
        self.near, self.far = rng.uniform(0.5, 1), rng.uniform(0.3, 0.9)
        self.radius = math.exp(-1 / (decay * RATE))
        self.wander = self.last = self.before = 0.0

    def add_to(self, left, right):
        self.wander = 0.995 * self.wander + self.rng.uniform(-0.002, 0.002)
        angle = 2 * math.pi * self.hertz * (1 + self.wander) / RATE
        turn, fall = 2 * self.radius * math.cos(angle), self.radius * self.radius
        last, before, near, far = self.last, self.before, self.near, self.far
        if self.rng.random() < 0.02:
            last += self.strike * self.rng.uniform(-1, 1) * math.sin(angle)
        for i in range(STEP):
            last, before = turn * last - fall * before, last
            left[i] += near * last
            right[i] += far * last
        self.last, self.before = last, before


class Rustle:
    """Noise through two low passes, with a little of it as it is; its level wanders between soft and loud."""

    def __init__(self, rng, level, white):
        self.rng, self.level, self.white = rng, level, white
        self.wander = self.first = self.second = 0.0

    def samples(self):
        self.wander = 0.998 * self.wander + self.rng.uniform(-0.08, 0.08)
        level, white, draw = self.level * math.exp(self.wander), self.white, self.rng.random
        first, second, heard = self.first, self.second, []
        for _ in range(STEP):
            noise = level * (draw() - draw())
            first += 0.35 * (noise - first)
            second += 0.35 * (first - second)
            heard.append(second + white * noise)
        self.first, self.second = first, second
        return heard


class Clicks:
    """Sharp clicks, about three a second, each of which dies away in 0.2 to 2 milliseconds."""

    def __init__(self, rng):
        self.rng = rng
        self.now = self.keep = 0.0

    def add_to(self, heard):
        start = self.rng.randrange(STEP) if self.rng.random() < 0.03 else STEP
        height = self.rng.choice((-1, 1)) * 9000 * self.rng.random() ** 2
        keep = math.exp(-1 / (RATE * self.rng.uniform(0.0002, 0.002)))
        for i in range(STEP):
            if i == start:
                self.now, self.keep = self.now + height, keep
            self.now *= -self.keep
            heard[i] += self.now


def clip(sample):
    return max(-32768, min(32767, round(sample)))


def record(seed):
    rng = random.Random(seed)
    tones = [Tone(rng, *tone) for tone in TONES]
    shared, of_left, of_right = Rustle(rng, 2600, 0.06), Rustle(rng, 700, 0.1), Rustle(rng, 600, 0.1)
    clicks = Clicks(rng)
    frames, late = array.array("h"), [0.0] * LATER
    for _ in range(STEPS):
        left, right, both = of_left.samples(), of_right.samples(), shared.samples()
        for tone in tones:
            tone.add_to(left, right)
        clicks.add_to(both)
        late += both
        for i in range(STEP):
            frames.append(clip(left[i] + both[i]))
            frames.append(clip(right[i] + 0.6 * both[i] + 0.25 * late[i]))
        late = late[STEP:]
    return frames


def main():
    if len(sys.argv) not in (2, 3):
        sys.exit(__doc__)
    seed = int(sys.argv[2]) if len(sys.argv) == 3 else 1
    with wave.open(sys.argv[1], "wb") as file:
        file.setnchannels(2)
        file.setsampwidth(2)
        file.setframerate(RATE)
        file.writeframes(record(seed).tobytes())


main()
