#!/usr/bin/env python3
"""Turns the binary PPM (P6) on standard input, as examples/overlay.c writes it, into a PNG on standard output."""
import struct, sys, zlib


def chunk(kind, data):
    return struct.pack(">I", len(data)) + kind + data + struct.pack(">I", zlib.crc32(kind + data))


_, sides, _, pixels = sys.stdin.buffer.read().split(b"\n", 3)
width, height = map(int, sides.split())
rows = b"".join(b"\0" + pixels[i : i + 3 * width] for i in range(0, len(pixels), 3 * width))  # 0: not filtered
head = struct.pack(">IIBBBBB", width, height, 8, 2, 0, 0, 0)  # 8 bits each of red, green and blue
sys.stdout.buffer.write(b"\x89PNG\r\n\x1a\n" + chunk(b"IHDR", head) + chunk(b"IDAT", zlib.compress(rows, 9)) + chunk(b"IEND", b""))
