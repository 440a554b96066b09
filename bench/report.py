#!/usr/bin/env python3
"""Writes docs/BENCHMARK.md and docs/benchmark.svg from what bench/run measured, and prints the ratios.

usage: report.py MEASURED DOCS     (MEASURED has results.tsv and the profiles callgrind.PROGRAM.NAME-JOB.txt)
"""
import math
import os
import re
import sys
from collections import namedtuple

import plot

LIBRARY, CAREFUL, OPENCV, MEMCPY = "library", "careful C", "OpenCV", "memcpy"
NAMES = (LIBRARY, CAREFUL, OPENCV, MEMCPY)
LEAST_MOVE = "least move"  # the library's calls in the other order
BAND = "band"  # those in that order with a noise band in place of the tolerance
ONLY = "only differences"  # the careful C program without compared numbers, as before Paper 2 but for inlined look-ups
# by frames: LIBRARY's, LEAST_MOVE's and BAND's
CALLS = {2: ("mtb_pair_ward", "mtb_pair", "mtb_pair_band"), 9: ("mtb_series_ward", "mtb_series", "mtb_series_band")}
KINDS = {2: "pair", 9: "9 frames"}
COUNTED_SIZES = ((640, 480), (1920, 1080))  # the sizes at which instructions are counted, and the two orders compared
# The library's instructions a pixel before Paper 2, by frames and size, the same in both orders; and of a single difference
# call. From docs/BENCHMARK.md as commit 060eb06 has it.
BEFORE = {(2, 640, 480): 25.35, (2, 1920, 1080): 23.80, (9, 640, 480): 22.36, (9, 1920, 1080): 20.91}
BEFORE_WINDOW = 0.70
# The library's instructions a word of the bitmap for a shift before Paper 5, by size: bench/shift.c with the archive of commit a66c07d.
BEFORE_SHIFT = {(640, 480): 31.96, (1920, 1080): 30.63}
SHIFTS = 7 * 7  # moves of the window of shifts
# Who takes the quadrants of a pair, or the pair: by name, in the table.
QUADRANTS = {LIBRARY: "`mtb_quadrants`", "pair": "`mtb_pair`", "four pairs": "four pairs", CAREFUL: CAREFUL}
# Who aligns the second frame with the first: by name, in the table.
LIVE = {LIBRARY: "`mtb_live_add`", "pair": "`mtb_pair`"}
ASKED = ((640, 480), (1920, 1080), (4096, 4096))  # the sizes of our goals
LARGE = 1920 * 1080  # goals against OpenCV and memcpy hold from here on
WINDOW = 65 * 65  # moves of the window of single difference calls

# A function of a profile belongs to the first step whose pattern its name has.
STEPS = (
    ("grey", r"to_grey|convert|mtb_pair|align_rasters|pair_in_order|pair::pair"),
    ("halving", r"halv"),
    ("histogram and threshold", r"threshold_of|histogram|count_fours|bitmaps_within|excluded|between"),
    ("bitmaps", r"pack"),
    ("difference counts", r"count|align_level|column|difference|overlap|slid|moved_word|clipped_word"),
    ("other", r""),
)

Job = namedtuple("Job", "content w h n s")
COUNTED = Job("scene", 640, 480, 2, 6)  # the pair whose instructions are told by step
# milliseconds; the last frame's offset, found and true; how many times the library's time, the median over the turns
Time = namedtuple("Time", "median least turns offset true to_library")
# all moves of the window: milliseconds, and how many times the library's time
Calls = namedtuple("Calls", "median least to_library")
# the quadrants of a pair, or the pair: milliseconds, and how many times the time that the library takes for the quadrants
Quartered = namedtuple("Quartered", "median to_library")
# a frame added to a live bracket, or the pair: milliseconds, and how many times the time of the frame added
Added = namedtuple("Added", "median to_library")
# one shift: microseconds, and how many times the library's time
Shifted = namedtuple("Shifted", "median to_library")


class Results:
    """What was measured: times[job][name] with freed memory kept, default[job][name] with the C library's own ways,
    window[name] of single difference calls, quadrants[size][name], live[size][name], shifts[size][name], facts, agreement, and the profiles in the folder."""

    def __init__(self, folder):
        self.folder = folder
        self.times, self.default, self.window, self.quadrants, self.live, self.shifts, self.facts = {}, {}, {}, {}, {}, {}, {}
        self.agreed, self.agreed_quadrants, self.agreed_live, self.agreed_shifts = (0, 0), (0, 0), (0, 0), 0
        with open(os.path.join(folder, "results.tsv")) as lines:
            for line in lines:
                self.take(line.rstrip("\n").split("\t"))

    def take(self, words):
        kind = words[0]
        if kind == "fact":
            self.facts[words[1]] = words[2]
        elif kind == "agree":
            self.agreed = (int(words[1]), int(words[2]))
        elif kind == "agree quadrants":
            self.agreed_quadrants = (int(words[1]), int(words[2]))
        elif kind == "agree live":
            self.agreed_live = (int(words[1]), int(words[2]))
        elif kind == "live":
            times = self.live.setdefault((int(words[1]), int(words[2])), {})
            times[words[3]] = Added(int(words[4]) / 1e6, float(words[5]))
        elif kind == "agree shift":
            self.agreed_shifts = int(words[1])
        elif kind == "shift":
            times = self.shifts.setdefault((int(words[1]), int(words[2])), {})
            times[words[3]] = Shifted(int(words[4]) / 1e3, float(words[5]))
        elif kind == "quadrants":
            times = self.quadrants.setdefault((int(words[1]), int(words[2])), {})
            times[words[3]] = Quartered(int(words[4]) / 1e6, float(words[5]))
        elif kind == "window":
            self.window[words[1]] = Calls(int(words[2]) / 1e6, int(words[3]) / 1e6, float(words[4]))
        elif kind in ("time", "default"):
            w, h, n, s = map(int, words[2:6])
            median, least = (int(v) / 1e6 for v in words[7:9])
            offset, true = (int(words[10]), int(words[11])), (int(words[12]), int(words[13]))
            table = self.times if kind == "time" else self.default
            job = Job(words[1], w, h, n, s)
            table.setdefault(job, {})[words[6]] = Time(median, least, int(words[9]), offset, true, float(words[14]))

    def profile(self, program, *words):
        """Instructions by function, of a contestant's name and the numbers of its job."""
        job = "-".join(map(str, words)).replace(" ", "-")
        return profile(os.path.join(self.folder, f"callgrind.{program}.{job}.txt"))

    def instructions(self, job, name):
        """Instructions by function of one pair or series."""
        return self.profile("contest", name, job.w, job.h, job.s, job.n)

    def counted(self, job, name):
        """Instructions a pixel and pair; None where they were not counted."""
        return sum(self.instructions(job, name).values()) / pixels(job) / (job.n - 1) or None

    def counted_in_window(self, name):
        """Instructions a pixel of a single difference call; None where they were not counted."""
        return sum(self.profile("window", name, COUNTED.w, COUNTED.h).values()) / (WINDOW * pixels(COUNTED)) or None

    def counted_quadrants(self, size, name):
        """Instructions a pixel of the frame, of its quadrants or of the pair; None where they were not counted."""
        return sum(self.profile("quadrants", name, *size).values()) / (size[0] * size[1]) or None

    def counted_live(self, size, name):
        """Instructions a pixel of a frame added, or of the pair; None where they were not counted."""
        return sum(self.profile("live", name, *size).values()) / (size[0] * size[1]) or None

    def counted_shift(self, size, name):
        """Instructions a word of the bitmap of one shift; None where they were not counted."""
        words = (size[0] + 63) // 64 * size[1]
        return sum(self.profile("shift", name, *size).values()) / (SHIFTS * words) or None

    def ratio(self, job, a, b):
        return ratio(self.times[job], a, b)

    def scenes(self):
        return [j for j in self.times if j.content == "scene" and j.n == 2]

    def pairs(self):
        """The pairs of the scene at s = 6, by size."""
        return sorted((j for j in self.scenes() if j.s == 6), key=pixels)

    def by_s(self):
        """The pairs of one size at every s."""
        return sorted((j for j in self.scenes() if (j.w, j.h) == (1920, 1080)), key=lambda j: j.s)


def ratio(times, a, b):
    """How many times b's time a takes, by the turns' ratios to the library; None where one was not timed."""
    return times[a].to_library / times[b].to_library if a in times and b in times else None


def pixels(job):
    return job.w * job.h


def profile(path):
    """Instructions by function, from callgrind_annotate; empty where there is none."""
    counts = {}
    if os.path.exists(path):
        with open(path) as lines:
            for line in lines:
                m = re.match(r" *([\d,]+) \([ \d.]+%\)  (?:[^ ]*?:)?([^ ].*?)(?: \[.*\])?$", line)
                if m and m.group(2) != "PROGRAM TOTALS":
                    counts[m.group(2)] = counts.get(m.group(2), 0) + int(m.group(1).replace(",", ""))
    return counts


def step_of(function):
    return next(step for step, pattern in STEPS if re.search(pattern, function))


def steps(counts):
    """Instructions a pixel by step."""
    total = dict.fromkeys((step for step, _ in STEPS), 0)
    for function, n in counts.items():
        total[step_of(function)] += n / pixels(COUNTED)
    return total


def exponent(points):
    """p of the best fit of time = c · pixels^p."""
    logs = [(math.log(x), math.log(y)) for x, y in points]
    mx, my = (sum(v) / len(logs) for v in zip(*logs))
    return sum((x - mx) * (y - my) for x, y in logs) / sum((x - mx) ** 2 for x, _ in logs)


def shown(ratio):
    return "–" if ratio is None else f"{ratio:.2f}"


def milliseconds(v):
    return f"{v:.3f}" if v < 10 else f"{v:.1f}"


def table(head, rows):
    lines = ["| " + " | ".join(head) + " |", "|" + "---|" * len(head)]
    return "\n".join(lines + ["| " + " | ".join(map(str, row)) + " |" for row in rows])


def size(job):
    return f"{job.w}×{job.h}"


def cells(results, job):
    """The times of one job, and the three ratios that the goals speak of."""
    times = results.times[job]
    row = [milliseconds(times[name].median) if name in times else "–" for name in NAMES]
    return row + [shown(ratio(times, a, b)) for a, b in ((LIBRARY, CAREFUL), (OPENCV, LIBRARY), (LIBRARY, MEMCPY))]


def a_pixel(results, job):
    return f"{results.times[job][LIBRARY].median * 1e6 / pixels(job):.2f}"


RATIOS = ["library / careful C", "OpenCV / library", "library / memcpy"]
TIMES = [f"{name}, ms" for name in NAMES]


def pair_table(results):
    rows = []
    for job in results.pairs():
        name = f"**{size(job)}**" if (job.w, job.h) in ASKED else size(job)
        rows.append([name, *cells(results, job), a_pixel(results, job)])
    noise = next(j for j in results.times if j.content == "noise")
    rows.append([f"{size(noise)}, random bytes", *cells(results, noise), a_pixel(results, noise)])
    return table(["pair, s = 6", *TIMES, *RATIOS, "library, ns a pixel"], rows)


def series_table(results):
    jobs = sorted((j for j in results.times if j.n > 2), key=pixels)
    rows = [[f"{j.n} frames of {size(j)}, s = {j.s}", *cells(results, j)] for j in jobs]
    return table(["series", *TIMES, *RATIOS], rows)


def call_cells(results, job, name):
    """A call's time, how many times the kept call's time it takes, and its instructions a pixel and pair."""
    times = results.times[job]
    return [milliseconds(times[name].median), shown(ratio(times, name, LIBRARY)), shown(results.counted(job, name))]


def order_table(results):
    """A row each call, in both orders and by a band."""
    rows = []
    for n, calls in CALLS.items():
        for call, name in zip(calls, (LIBRARY, LEAST_MOVE, BAND)):
            cells = [call_cells(results, Job("scene", w, h, n, 6), name) for w, h in COUNTED_SIZES]
            rows.append([f"`{call}`, {n} frames", *sum(cells, [])])
    head = [f"{w}×{h}, {what}" for w, h in COUNTED_SIZES for what in ("ms", "ratio to the kept call", "instructions a pixel")]
    return table(["call, s = 6", *head], rows)


COSTS = ["instructions a pixel", "for differences alone", "ratio"]


def costs(both, alone):
    """Instructions a pixel for both numbers, for differences alone, and the ratio; each may be unknown."""
    return [shown(both), shown(alone), shown(both / alone if both and alone else None)]


def numbers_table(results):
    """What it takes to count both numbers: a row each contestant that follows the rules."""
    rows = []
    for (n, w, h), before in BEFORE.items():
        job = Job("scene", w, h, n, 6)
        times, alone = results.times[job], {LIBRARY: before, CAREFUL: results.counted(job, ONLY)}
        rows += [[f"{KINDS[n]} of {size(job)}: {name}", milliseconds(times[name].median), shown(ratio(times, LIBRARY, name)),
                  *costs(results.counted(job, name), alone.get(name))] for name in (LIBRARY, CAREFUL, ONLY)]
    return table(["s = 6", "ms", "library / this", *COSTS], rows)


def s_table(results):
    jobs = results.by_s()
    rows = [[name, *(milliseconds(results.times[j][name].least) for j in jobs)] for name in (LIBRARY, CAREFUL)]
    return table(["1920×1080, fastest turn, ms", *(f"s = {j.s}" for j in jobs)], rows)


def instruction_table(results):
    profiles = {name: results.instructions(COUNTED, name) for name in (LIBRARY, CAREFUL, ONLY, OPENCV)}
    counted = {name: steps(profiles[name]) for name in (LIBRARY, CAREFUL, ONLY) if profiles[name]}
    if not counted:
        return "(valgrind was not installed.)"
    rows = [[step, *(f"{counted[name][step]:.2f}" for name in counted)] for step, _ in STEPS]
    rows.append(["**all**", *(f"**{sum(counted[name].values()):.1f}**" for name in counted)])
    text = table(["step", *counted], rows)
    if profiles[OPENCV]:
        total = sum(profiles[OPENCV].values()) / pixels(COUNTED)
        text += f"\n\nOpenCV: {total:.1f} (valgrind shows it a processor without AVX-512)."
    return text


def window_table(results):
    rows, alone = [], {LIBRARY: BEFORE_WINDOW, CAREFUL: results.counted_in_window(ONLY)}
    for name, calls in results.window.items():
        rows.append([name, milliseconds(calls.median), milliseconds(calls.least), f"{calls.median * 1e3 / WINDOW:.1f}",
                     f"{1 / calls.to_library:.2f}", *costs(results.counted_in_window(name), alone.get(name))])
    return table(["640×480, 65×65 moves", "median, ms", "fastest, ms", "a call, µs", "library / this", *COSTS], rows)


def quadrants_table(results):
    """A row each size: the four quadrants by the library, and what else takes four quadrants or the pair."""
    rows = []
    for (w, h), times in results.quadrants.items():
        ratios = [shown(ratio(times, LIBRARY, name)) for name in QUADRANTS if name != LIBRARY]
        rows.append([f"{w}×{h}", *(milliseconds(times[name].median) for name in QUADRANTS), *ratios])
    head = [f"{title}, ms" for title in QUADRANTS.values()]
    return table(["s = 5", *head, *(f"quadrants / {title}" for name, title in QUADRANTS.items() if name != LIBRARY)], rows)


def quadrants_counted(results):
    rows = [[f"{w}×{h}", *(shown(results.counted_quadrants((w, h), name)) for name in QUADRANTS)] for w, h in COUNTED_SIZES]
    return table(["instructions a pixel, s = 5", *QUADRANTS.values()], rows)


def live_table(results):
    """A row each size: a frame added to a live bracket, and the pair of the same two."""
    rows = [[f"{w}×{h}", *(milliseconds(times[name].median) for name in LIVE), shown(ratio(times, LIBRARY, "pair"))]
            for (w, h), times in results.live.items()]
    return table(["s = 6", *(f"{title}, ms" for title in LIVE.values()), "added / pair"], rows)


def live_counted(results):
    rows = [[f"{w}×{h}", *(shown(results.counted_live((w, h), name)) for name in LIVE)] for w, h in COUNTED_SIZES]
    return table(["instructions a pixel, s = 6", *LIVE.values()], rows)


def shift_table(results):
    """A row each size: a shift by each contestant, and the bitmap copied."""
    names = (LIBRARY, CAREFUL, MEMCPY)
    rows = [[f"{w}×{h}", *(f"{times[name].median:.2f}" for name in names), *(shown(ratio(times, LIBRARY, name)) for name in names[1:])]
            for (w, h), times in results.shifts.items()]
    return table(["moves of at most 3", *(f"{name}, µs" for name in names), "library / careful C", "library / memcpy"], rows)


def shift_counted(results):
    rows = [[f"{w}×{h}", *(shown(results.counted_shift((w, h), name)) for name in (LIBRARY, CAREFUL)), shown(BEFORE_SHIFT[w, h])]
            for w, h in COUNTED_SIZES]
    return table(["instructions a word", LIBRARY, CAREFUL, "library before Paper 5"], rows)


def default_table(results):
    rows = [[size(j), *(milliseconds(t[name].median) for name in (LIBRARY, OPENCV)), shown(ratio(t, OPENCV, LIBRARY))]
            for j, t in sorted(results.default.items(), key=lambda item: pixels(item[0])) if OPENCV in t]
    if not rows:
        return "(OpenCV was not installed.)"
    return table(["pair, s = 6, default allocator", f"{LIBRARY}, ms", f"{OPENCV}, ms", "OpenCV / library"], rows)


Goal = namedtuple("Goal", "text measured met")


def told(ratios):
    """(ratio, job) pairs as text."""
    return ", ".join(f"{r:.2f} at {size(j)}" for r, j in ratios)


def goal_careful(results):
    """1.0 at the sizes of our goals, 1.3 wherever it was measured."""
    every = [(results.ratio(j, LIBRARY, CAREFUL), j) for j in results.times]
    asked = [(r, j) for r, j in every if j in results.pairs() and (j.w, j.h) in ASKED]
    asked.sort(key=lambda item: pixels(item[1]))
    most, where = max(every)
    text = f"{told(asked)}; of all rows at most {most:.2f} ({size(where)}, n = {where.n}, s = {where.s}, {where.content})"
    met = "missed" if most > 1.3 else "met" if max(asked)[0] <= 1.005 else "1.0 missed, 1.3 met"
    return Goal("at most 1.0 times the careful C program, which counts both numbers too, 1.3 at the worst", text, met)


def goal_before(results):
    """Instructions against those before Paper 2: a bound on the pair, the series told beside it; the worse order of each."""
    goal = "a pair at most 1.15 times its instructions a pixel before Paper 2"
    told, most = [], dict.fromkeys(KINDS, 0)
    for (n, w, h), before in BEFORE.items():
        both = [results.counted(Job("scene", w, h, n, 6), name) for name in (LIBRARY, LEAST_MOVE)]
        if None in both:
            return Goal(goal, "valgrind is not installed", "not measured")
        now = max(both)
        most[n] = max(most[n], now / before)
        told.append(f"{KINDS[n]} of {w}×{h} {now / before:.2f} ({now:.2f} after {before:.2f})")
    met = "missed" if most[2] > 1.15 else "met" if most[9] <= 1.15 else "met, not by the series"
    return Goal(goal, ", ".join(told), met)


def goal_opencv(results, large):
    text = "at least 4 times faster than OpenCV on a scene of 1920×1080 and above"
    kept = [(results.ratio(j, OPENCV, LIBRARY), j) for j in large]
    if any(r is None for r, _ in kept):
        return Goal(text, "OpenCV is not installed", "not measured")
    default = [(ratio(results.default[j], OPENCV, LIBRARY), j) for j in large if j in results.default]
    met = "met" if min(kept)[0] >= 4 else "met with the default allocator only" if min(default)[0] >= 4 else "missed"
    careful = min(results.ratio(j, OPENCV, CAREFUL) for j in large)
    measured = f"{told(kept)}; with the default allocator {told(default)} (OpenCV / careful C: {careful:.2f} at the least)"
    return Goal(text, measured, met)


def goal_memcpy(results, large):
    ratios = [(results.ratio(j, LIBRARY, MEMCPY), j) for j in large]
    careful = max(results.ratio(j, CAREFUL, MEMCPY) for j in large)
    text = f"{told(ratios)} (careful C: {careful:.2f} at the most)"
    return Goal("at most 5 times memcpy of the two rasters there", text, "met" if max(ratios)[0] <= 5 else "missed")


def goal_linear(results):
    jobs = results.pairs()
    fit = {name: exponent([(pixels(j), results.times[j][name].least) for j in jobs]) for name in (LIBRARY, MEMCPY)}
    text = f"time ~ pixels^{fit[LIBRARY]:.2f} from 640×480 to 4096×4096 (memcpy: pixels^{fit[MEMCPY]:.2f})"
    met = "met" if abs(fit[LIBRARY] - 1) <= 0.1 else "as linear as memcpy" if fit[LIBRARY] <= fit[MEMCPY] else "missed"
    return Goal("time linear in pixels (exponent within 0.1 of 1)", text, met)


def goal_s(results):
    t = {j.s: results.times[j][LIBRARY].least for j in results.by_s()}
    text = f"s = 8 takes {t[8] / t[0]:.2f} times s = 0, and {t[8] / t[2]:.2f} times s = 2"
    met = "met" if t[8] / t[0] <= 4 / 3 else "missed"
    return Goal("nearly independent of s (at most 4/3, the sum of the levels' pixels)", text, met)


def goal_shift(results):
    """Against memcpy of the bitmap, at every size."""
    ratios = [(ratio(times, LIBRARY, MEMCPY), size) for size, times in results.shifts.items()]
    text = ", ".join(f"{r:.2f} at {w}×{h}" for r, (w, h) in ratios)
    reached = [f"{w}×{h}" for r, (w, h) in ratios if r <= 1.505]
    met = "met" if len(reached) == len(ratios) else f"met at {', '.join(reached)} only" if reached else "missed"
    return Goal("a shift by a few pixels at most 1.5 times memcpy of the bitmap", text, met)


def goal_band(results):
    """By a band against by a tolerance, in the same order, at every size."""
    ratios = [(results.ratio(j, BAND, LEAST_MOVE), j) for j in results.pairs()]
    most = max(ratios)[0]
    text = told(ratios)
    counted = [[results.counted(Job("scene", w, h, 2, 6), name) for name in (BAND, LEAST_MOVE)] for w, h in COUNTED_SIZES]
    if None not in sum(counted, []):
        text += "; instructions " + ", ".join(f"{band / tolerance:.3f}" for band, tolerance in counted)
    return Goal("a pair by band at most 1.05 times the pair by tolerance", text, "met" if most <= 1.05 else "missed")


def goal_live(results):
    """A frame added against the pair, at every size."""
    ratios = [(ratio(times, LIBRARY, "pair"), size) for size, times in results.live.items()]
    text = ", ".join(f"{r:.2f} at {w}×{h}" for r, (w, h) in ratios)
    counted = [[results.counted_live(size, name) for name in LIVE] for size in COUNTED_SIZES]
    if None not in sum(counted, []):
        text += "; instructions " + ", ".join(f"{added / pair:.3f}" for added, pair in counted)
    met = "met" if max(ratios)[0] <= 1.005 else "missed"
    return Goal("a frame added to a live bracket in a pair's time at most", text, met)


def goals(results):
    large = [j for j in results.pairs() if pixels(j) >= LARGE]
    return [goal_careful(results), goal_before(results), goal_opencv(results, large), goal_memcpy(results, large),
            goal_linear(results), goal_s(results), goal_shift(results), goal_band(results), goal_live(results)]


def machine(results):
    f = results.facts
    keys = ("processor", "caches", "system", "commit", "toolchain", "compiler", "OpenCV", "valgrind")
    return table(["", ""], [[key, f[key]] for key in keys if key in f] + [["load average as the run began", f["load"]]])


def busy(results):
    """A warning where other work ran beside the measurement."""
    load = float(results.facts["load"])
    text = f"\n> The load average was {load} when this run began: other work ran beside it, and its times are rough.\n"
    return "" if load < 0.5 else text


def turns(results):
    counts = [t.turns for by_name in results.times.values() for t in by_name.values()]
    return min(counts), max(counts)


def reaches(job, true):
    """Whether s halvings let a pair move so far; of a series only the sum of its pairs is known, and within reach."""
    return job.n > 2 or max(map(abs, true)) < 2 ** (job.s + 1)


def offsets_line(results):
    """Which contestants found the true offset of the scene's last frame, where s lets them."""
    said = []
    for name in (LIBRARY, LEAST_MOVE, BAND, OPENCV):
        jobs = [(j, t[name]) for j, t in results.times.items() if j.content == "scene" and name in t and reaches(j, t[name].true)]
        wrong = [f"{size(j)}, n = {j.n}, s = {j.s}" for j, t in jobs if t.offset != t.true]
        if jobs:
            said.append(f"{name}: {len(jobs) - len(wrong)} of {len(jobs)}" + (f" (not {'; '.join(wrong)})" if wrong else ""))
    return "True offset of the last frame found, in the rows whose s reaches it: " + ", ".join(said) + "."


def document(results):
    with open(os.path.join(os.path.dirname(__file__), "BENCHMARK.template.md")) as f:
        text = f.read()
    jobs, pairs = results.agreed
    alike, turned = results.agreed_quadrants
    brackets, frames = results.agreed_live
    few, many = turns(results)
    parts = {
        "busy": busy(results),
        "goals": table(["goal", "measured", ""], goals(results)),
        "pairs": pair_table(results),
        "series": series_table(results),
        "orders": order_table(results),
        "numbers": numbers_table(results),
        "default": default_table(results),
        "window": window_table(results),
        "quadrants": quadrants_table(results),
        "quartered": quadrants_counted(results),
        "live": live_table(results),
        "lived": live_counted(results),
        "live_alike": f"{brackets} random ones of {frames} frames in all",
        "shifts": shift_table(results),
        "shifted": shift_counted(results),
        "shifts_alike": f"{results.agreed_shifts} random bitmaps and moves",
        "s": s_table(results),
        "instructions": instruction_table(results),
        "machine": machine(results),
        "agreed": f"{pairs} pairs in {jobs} random series",
        "alike": f"{alike} random pairs, of which {turned} were turned",
        "offsets": offsets_line(results),
        "turns": f"{few} to {many}",
    }
    return re.sub(r"\{\{(\w+)\}\}", lambda m: parts[m.group(1)], text)


def picture(results):
    """Two panels: time against pixels, and time against s."""
    names = [name for name in NAMES if all(name in results.times[j] for j in results.pairs())]
    against_pixels = {name: [(pixels(j) / 1e6, results.times[j][name].least) for j in results.pairs()] for name in names}
    against_s = {name: [(j.s, results.times[j][name].least) for j in results.by_s()] for name in names}
    return plot.picture(against_pixels, against_s)


def main():
    measured, docs = sys.argv[1:]
    results = Results(measured)
    with open(os.path.join(docs, "BENCHMARK.md"), "w") as f:
        f.write(document(results))
    with open(os.path.join(docs, "benchmark.svg"), "w") as f:
        f.write(picture(results))
    for text in (pair_table(results), default_table(results), series_table(results), order_table(results),
                 numbers_table(results), window_table(results), quadrants_table(results), quadrants_counted(results), live_table(results),
                 live_counted(results), shift_table(results), shift_counted(results)):
        print(text + "\n")
    for goal in goals(results):
        print(f"{goal.met}: {goal.text}: {goal.measured}")


main()
