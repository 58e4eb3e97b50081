"""Times FreeCAD's Adaptive2d on the pockets of job files: adaptive2d.py JOB.. prints a row a job.

Needs Debian's freecad-python3. Adaptive2d is other work: it plans by polygons and a bound on the area that is cut,
promises no contact angle, checks nothing, and its points are feeds without heights, rows or a report."""
import math
import os
import struct
import sys
import time

sys.path.append("/usr/lib/freecad-python3/lib")
import area  # noqa: E402

TOLERANCE = 0.1


def number(bits):
    return struct.unpack(">d", bytes.fromhex(bits))[0]


def read(path):
    """Diameter, engagement in degrees, and the pocket's loops, the outer one first."""
    words, vertices = {}, []
    with open(path) as lines:
        for line in lines:
            name, *rest = line.split()
            if words.get("verts"):
                if len(vertices) < int(words["verts"][0]):
                    vertices.append([number(name), number(rest[0])])
                continue
            words[name] = rest
    loops, at = [], 0
    for n in map(int, words["pocket"]):
        loops.append(vertices[at : at + n])
        at += n
    return number(words["diameter"][0]), number(words["engagement"][0]), loops


def plan(diameter, engagement, loops):
    """Seconds, regions, and points of the paths that cut or link."""
    a = area.Adaptive2d()
    a.toolDiameter = diameter
    a.stepOverFactor = (1 - math.cos(math.radians(engagement))) / 2
    a.helixRampDiameter = diameter / 2
    a.tolerance = TOLERANCE
    a.stockToLeave = 0
    a.opType = area.AdaptiveOperationType.ClearingInside
    start = time.process_time()
    regions = a.Execute([loops[0]], loops, lambda paths: False)
    spent = time.process_time() - start
    points = sum(len(path[1]) for region in regions for path in region.AdaptivePaths)
    return spent, len(regions), points


def row(path):
    spent, regions, points = plan(*read(path))
    return f"| {os.path.basename(path).removesuffix('.job')} | {spent:.2f} | {regions} | {points} |"


# Adaptive2d prints as it goes, so the rows come last
rows = [row(path) for path in sys.argv[1:]]
print("| job | Adaptive2d, s | regions | points |", "|---|---:|---:|---:|", *rows, sep="\n")
