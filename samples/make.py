#!/usr/bin/env python3
"""Writes first.ppm, second.ppm and third.ppm beside this file: three exposures of a cratered ground in slanting light.

    make.py [FOLDER WIDTH HEIGHT]     larger frames of more ground, which are not kept in the repository, into that folder

Each is exposed longer than the one before (another tone curve, noise of its own), and the camera has slid in between:
moving the second frame right by 5 and up by 3 puts it onto the first, so `bracket` should print `offset 5 -3`; moving the
third one left by 4 and down by 6 does.
The seed is fixed: every run writes the same bytes.
"""
import math
import os
import random
import sys

FOLDER, WIDTH, HEIGHT = os.path.dirname(os.path.abspath(__file__)), 160, 120
if len(sys.argv) > 1:
    FOLDER, WIDTH, HEIGHT = sys.argv[1], int(sys.argv[2]), int(sys.argv[3])
MOVE = (5, -3)  # moves the second frame onto the first
THIRD_MOVE = (-4, 6)  # moves the third one there
MARGIN = 8  # ground beyond the frame on each side, so that both frames see ground everywhere
CRATERS = WIDTH * HEIGHT * 7 // 1920  # 70 on the frames kept here
NOISE = 2.0  # standard deviation, in grey steps

rng = random.Random(1994)
COLUMNS, ROWS = WIDTH + 2 * MARGIN, HEIGHT + 2 * MARGIN


def swell(cell):
    """Smooth noise from -1 to 1: random values every `cell` pixels, blended between."""
    w, h = COLUMNS // cell + 2, ROWS // cell + 2
    knots = [[rng.uniform(-1, 1) for _ in range(w)] for _ in range(h)]

    def at(x, y):
        i, u = divmod(x / cell, 1)
        j, v = divmod(y / cell, 1)
        i, j = int(i), int(j)
        u, v = u * u * (3 - 2 * u), v * v * (3 - 2 * v)
        top = knots[j][i] * (1 - u) + knots[j][i + 1] * u
        bottom = knots[j + 1][i] * (1 - u) + knots[j + 1][i + 1] * u
        return top * (1 - v) + bottom * v

    return at


def crater(d, r):
    """Height at distance d from the middle of a crater of radius r: a bowl, a rim, and nothing far out."""
    if d < r:
        return r * (0.35 * (d / r) ** 2 - 0.25)
    return 0.1 * r * math.exp(-3 * (d - r) / r)


def ground():
    """The heights, and how bright the ground is where it lies flat."""
    broad, fine, patches = swell(24), swell(5), swell(40)
    middles = [(rng.uniform(0, COLUMNS), rng.uniform(0, ROWS), 2.5 + 14 * rng.random() ** 4) for _ in range(CRATERS)]
    heights = [[6 * broad(x, y) + 0.5 * fine(x, y) for x in range(COLUMNS)] for y in range(ROWS)]
    for cx, cy, r in middles:
        for y in range(max(0, int(cy - 3 * r)), min(ROWS, int(cy + 3 * r) + 1)):
            for x in range(max(0, int(cx - 3 * r)), min(COLUMNS, int(cx + 3 * r) + 1)):
                heights[y][x] += crater(math.hypot(x - cx, y - cy), r)
    albedo = [[1 + 0.25 * patches(x, y) for x in range(COLUMNS)] for y in range(ROWS)]
    return heights, albedo


def lit(heights, albedo):
    """The light that comes back, about 0 to 1: the sun stands low in the upper left."""
    light = [[0.0] * COLUMNS for _ in range(ROWS)]
    for y in range(1, ROWS - 1):
        for x in range(1, COLUMNS - 1):
            slope = (heights[y][x + 1] - heights[y][x - 1]) + 0.5 * (heights[y + 1][x] - heights[y - 1][x])
            light[y][x] = albedo[y][x] * min(1.0, max(0.02, 0.4 + 0.35 * slope))
    return light


def exposed(light, dx, dy, exposure, gamma):
    """The raster of a frame whose upper left pixel sees the ground at (dx, dy)."""
    raster = bytearray()
    for y in range(HEIGHT):
        for x in range(WIDTH):
            v = min(1.0, exposure * light[y + dy][x + dx]) ** gamma
            for tint in (1.0, 0.97, 0.9):
                raster.append(min(255, max(0, round(255 * v * tint + rng.gauss(0, NOISE)))))
    return raster


def write(name, raster):
    with open(os.path.join(FOLDER, name), "wb") as file:
        file.write(b"P6\n%d %d\n255\n" % (WIDTH, HEIGHT) + raster)


light = lit(*ground())
write("first.ppm", exposed(light, MARGIN, MARGIN, 0.7, 1.0))
write("second.ppm", exposed(light, MARGIN + MOVE[0], MARGIN + MOVE[1], 1.1, 0.6))
write("third.ppm", exposed(light, MARGIN + THIRD_MOVE[0], MARGIN + THIRD_MOVE[1], 1.7, 0.5))
