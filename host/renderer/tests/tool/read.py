"""Reads a WAV or FLAC file by nothing but this, and prints what it holds.

The first line has the channels, the rate, the bits of a sample and the frames; the second every sample, a float by its bits;
then comes a line a tag: its name, a tab and its text.
"""
import hashlib
import struct
import sys


def chunks(data):
    assert data[:4] == b"RIFF" and data[8:12] == b"WAVE" and struct.unpack("<I", data[4:8])[0] == len(data) - 8
    at, found = 12, {}
    while at < len(data):
        size = struct.unpack("<I", data[at + 4 : at + 8])[0]
        found[data[at : at + 4]] = data[at + 8 : at + 8 + size]
        at += 8 + size + size % 2
    return found


def wav(data):
    found = chunks(data)
    tag, channels, rate, byte_rate, align, bits = struct.unpack("<HHIIHH", found[b"fmt "][:16])
    assert (byte_rate, align) == (align * rate, channels * bits // 8)
    body = found[b"data"]
    assert len(body) % align == 0
    if tag == 3:
        assert bits == 32 and struct.unpack("<I", found[b"fact"])[0] == len(body) // align
        samples = [s for (s,) in struct.iter_unpack("<I", body)]
    else:
        assert tag == 1
        step = bits // 8
        samples = [int.from_bytes(body[k : k + step], "little", signed=True) for k in range(0, len(body), step)]
    tags, info, at = {}, found.get(b"LIST", b"INFO")[4:], 0
    while at < len(info):
        size = struct.unpack("<I", info[at + 4 : at + 8])[0]
        tags[info[at : at + 4].decode()] = info[at + 8 : at + 8 + size].rstrip(b"\0").decode()
        at += 8 + size + size % 2
    bext = found[b"bext"]
    tags["bext"] = bext[:256].rstrip(b"\0").decode()
    tags["originator"] = bext[256:288].rstrip(b"\0").decode()
    tags["date"] = bext[320:338].rstrip(b"\0").decode()
    if b"smpl" in found:
        key, fraction = struct.unpack("<II", found[b"smpl"][12:20])
        tags["key"], tags["fraction"] = str(key), str(fraction)
    tags["chunks"] = " ".join(name.decode().strip() for name in found)
    return [channels, rate, bits, len(body) // align], samples, tags


class Bits:
    def __init__(self, data):
        self.data, self.at = data, 0

    def take(self, n):
        value = 0
        for _ in range(n):
            value = value << 1 | self.data[self.at >> 3] >> (7 - (self.at & 7)) & 1
            self.at += 1
        return value

    def signed(self, n):
        value = self.take(n)
        return value - (1 << n) if value >> (n - 1) else value

    def ones(self, until):
        n = 0
        while self.take(1) != until:
            n += 1
        return n


FIXED = [[], [1], [2, -1], [3, -3, 1], [4, -6, 4, -1]]


def residuals(bits, n, order):
    method = bits.take(2)
    assert method < 2
    width, escape = (4, 15) if method == 0 else (5, 31)
    parts = 1 << bits.take(4)
    out = []
    for part in range(parts):
        count = n // parts - (order if part == 0 else 0)
        k = bits.take(width)
        if k == escape:
            size = bits.take(5)
            out += [bits.signed(size) if size else 0 for _ in range(count)]
        else:
            for _ in range(count):
                value = bits.ones(1) << k | bits.take(k)
                out.append(value >> 1 ^ -(value & 1))
    return out


def subframe(bits, n, depth):
    assert bits.take(1) == 0
    kind = bits.take(6)
    wasted = bits.ones(1) + 1 if bits.take(1) else 0
    depth -= wasted
    if kind == 0:
        out = [bits.signed(depth)] * n
    elif kind == 1:
        out = [bits.signed(depth) for _ in range(n)]
    else:
        order = kind - 8 if kind < 32 else kind - 31
        out = [bits.signed(depth) for _ in range(order)]
        shift, weights = 0, FIXED[order] if kind < 32 else None
        if kind >= 32:
            precision = bits.take(4) + 1
            shift = bits.signed(5)
            weights = [bits.signed(precision) for _ in range(order)]
        for rest in residuals(bits, n, order):
            said = sum(w * out[-1 - k] for k, w in enumerate(weights))
            out.append(rest + (said >> shift))
    return [s << wasted for s in out]


def frame(bits, channels, depth, samples):
    assert bits.take(15) == 0x7FFC
    bits.take(1)
    size, rate, layout = bits.take(4), bits.take(4), bits.take(4)
    bits.take(4)
    first = bits.take(8)
    while first & 0xC0 == 0xC0:
        bits.take(8)
        first = first << 1 & 0xFF
    n = {6: lambda: bits.take(8) + 1, 7: lambda: bits.take(16) + 1, 1: lambda: 192}.get(
        size, lambda: 576 << (size - 2) if size < 6 else 256 << (size - 8)
    )()
    bits.take({12: 8, 13: 16, 14: 16}.get(rate, 0))
    bits.take(8)
    depths = [depth + (layout == 9 and k == 0 or layout in (8, 10) and k == 1) for k in range(channels)]
    sound = [subframe(bits, n, d) for d in depths]
    if layout == 8:
        sound[1] = [a - b for a, b in zip(*sound)]
    elif layout == 9:
        sound[0] = [a + b for a, b in zip(*sound)]
    elif layout == 10:
        mid = [(m << 1) + (s & 1) for m, s in zip(*sound)]
        sound = [[(m + s) >> 1 for m, s in zip(mid, sound[1])], [(m - s) >> 1 for m, s in zip(mid, sound[1])]]
    bits.at = (bits.at + 7) // 8 * 8 + 16
    samples += [s for frame in zip(*sound) for s in frame]


def flac(data):
    assert data[:4] == b"fLaC"
    at, last, tags = 4, False, {}
    while not last:
        last, kind = data[at] >> 7, data[at] & 127
        body = data[at + 4 : at + 4 + int.from_bytes(data[at + 1 : at + 4], "big")]
        at += 4 + len(body)
        if kind == 0:
            word = int.from_bytes(body[10:18], "big")
            rate, channels, depth, frames = word >> 44, (word >> 41 & 7) + 1, (word >> 36 & 31) + 1, word & (1 << 36) - 1
            checksum = body[18:34]
        elif kind == 4:
            place = 4 + int.from_bytes(body[:4], "little")
            count, place = int.from_bytes(body[place : place + 4], "little"), place + 4
            for _ in range(count):
                size = int.from_bytes(body[place : place + 4], "little")
                name, text = body[place + 4 : place + 4 + size].decode().split("=", 1)
                tags[name], place = text, place + 4 + size
    samples, bits = [], Bits(data)
    bits.at = 8 * at
    while bits.at < 8 * len(data):
        frame(bits, channels, depth, samples)
    raw = b"".join(s.to_bytes(depth // 8, "little", signed=True) for s in samples)
    assert hashlib.md5(raw).digest() == checksum and len(samples) == frames * channels
    return [channels, rate, depth, frames], samples, tags


data = open(sys.argv[1], "rb").read()
head, samples, tags = flac(data) if data[:4] == b"fLaC" else wav(data)
print(*head)
print(*samples)
for name, text in tags.items():
    print(name, text, sep="\t")
