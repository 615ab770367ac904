"""A decoder of the sender's sound, which knows of it only what a modem at the other end would: two tones, 300 bits a second, frames of ten bits.

It listens for the tone that is stronger in each symbol. Where the first symbol begins it takes from the first start bit, as a modem does,
and not from the sample at which the line went up.
"""

import math

MARK, SPACE, BAUD = 1270, 1070, 300


def power(samples, rate, hertz):
    """Sums of the samples with a tone's two phases, up to each sample: the strength of a stretch is a difference of them."""
    turn, cosines, sines, c, s = math.tau * hertz / rate, [0.0], [0.0], 0.0, 0.0
    for n, sample in enumerate(samples):
        c += sample * math.cos(turn * n)
        s += sample * math.sin(turn * n)
        cosines.append(c)
        sines.append(s)
    return lambda a, b: (cosines[b] - cosines[a]) ** 2 + (sines[b] - sines[a]) ** 2


def decoded(samples, rate):
    """The bytes in the samples, and how many frames had no stop bit."""
    mark, space = power(samples, rate, MARK), power(samples, rate, SPACE)
    symbol = rate / BAUD
    heard = lambda a, b: mark(a, b) > space(a, b)
    found, bad, at, step, half = bytearray(), 0, 0, max(1, round(symbol / 40)), round(symbol / 2)
    while at + 10 * symbol <= len(samples) + 1:
        if heard(at, at + half):
            at += step
            continue
        # A start bit. Its edge is where there is most of mark in the half symbol before and most of space in the one after.
        edge = lambda a: mark(max(0, a - half), a) - space(max(0, a - half), a) + space(a, a + half) - mark(a, a + half)
        start = max(range(max(0, at - half), at + half, step), key=edge)
        ends = [min(len(samples), round(start + k * symbol)) for k in range(11)]
        bits = [heard(a + round(symbol / 8), b - round(symbol / 8)) for a, b in zip(ends, ends[1:])]
        if bits[0] or not bits[9]:
            bad += 1
            at += round(symbol)
            continue
        found.append(sum(bit << i for i, bit in enumerate(bits[1:9])))
        at = ends[9] + half
    return bytes(found), bad
