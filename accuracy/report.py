"""Makes the tables of docs/ACCURACY.md from what `measure` wrote and fills them into ACCURACY.template.md.

report.py SEED FOLDER: reads FOLDER/measured.tsv and FOLDER/scenes.pgm, prints the tables, writes the document. It goes
to docs/ only for the default seed and with OpenCV measured, so that docs/ACCURACY.md is what `accuracy/run` gives.
"""
import collections
import math
import operator
import os
import re
import statistics
import struct
import sys
import zlib

DEFAULT_SEED = "1"
DETAILED = ("leaves", "soft hills")
SKY = ("nebula", "nebula with stars", "dense stars", "sparse stars")
ALIGNED = (*DETAILED, "nebula with stars", "dense stars")  # whose quadrants are mostly aligned rightly
STARS = SKY[1:]
STARS_ALONE = SKY[2:]
HAZE = "flat haze"
OVEREXPOSED = ("over", "under, over")  # tones that clip highlights; of soft hills the threshold too
CALLS_A_PAIR = 15  # five tolerances, three percentiles
BAND_CALLS_A_PAIR = 18  # six bands, three percentiles

# Offsets: true, Ward's order (mtb_pair_ward), least move (mtb_pair), OpenCV; what was counted at Ward's and at the least
# move's; levels has the counts of mtb_pair_ward.
Trial = collections.namedtuple("Trial", "w h scene tone noise s T P truth ward least theirs at_ward at_least levels")
# An answer's own count on the finest level, and the pixels that were compared for it.
Counted = collections.namedtuple("Counted", "count compared")
Reexposed = collections.namedtuple(
    "Reexposed",
    "scene curve merges noise T P same same_least same_quadrants same_offset before after theirs same_least_offset")
# A call of mtb_pair (rule T, and its tolerance) or mtb_pair_band (rule b, and its band): the offset, which both choose by the
# least move, what was counted there, and the counts.
Ruled = collections.namedtuple("Ruled", "w h scene tone noise s rule number P truth least at_least levels")
RULED = ("band", "camera")  # experiments
ZERO = "T = b = 0"  # what band 0 and tolerance 0 are called: they are the same
# Whether the answer by such a call, and the offset, stayed as it was when the frames were re-exposed.
Stayed = collections.namedtuple("Stayed", "curve merges rule number same same_offset")
# A second frame that was turned, by tenths of a degree, and slid: the offsets and the warning of mtb_quadrants; levels has the
# counts of mtb_pair on the whole frames.
Posed = collections.namedtuple("Posed", "w h scene tone noise tenths slide offsets turned levels")
POSED = ("turned", "slid", "slid by parts")  # experiments


def by_level(counts):
    counts = [int(c) for c in counts.split()]
    return [counts[i:i + 9] for i in range(0, len(counts), 9)]


def read_posed(w, h, scene, tone, noise, tenths, dx, dy, *offsets, turned, counts):
    moves = tuple(zip(map(int, offsets[::2]), map(int, offsets[1::2])))
    return Posed(int(w), int(h), scene, tone, int(noise), float(tenths), (float(dx), float(dy)), moves, turned == "1",
                 by_level(counts))


def read_ruled(w, h, scene, tone, noise, s, rule, *numbers, counts):
    number, P, *numbers = map(int, numbers)
    truth, least, at_least = zip(numbers[::2], numbers[1::2])
    return Ruled(int(w), int(h), scene, tone, int(noise), int(s), rule, number, P, truth, least, Counted(*at_least),
                 by_level(counts))


def by_mtb_pair(trial):
    """The call of mtb_pair, to stand beside those of mtb_pair_band. (Its rows are clear where those of mtb_pair_ward are.)"""
    return Ruled(*trial[:6], "T", trial.T, trial.P, trial.truth, trial.least, trial.at_least, trial.levels)


def read(path):
    """OpenCV's version ('' when it was not measured), each experiment's trials in order, the re-exposed pairs."""
    kinds = ("pair", "beyond", "unrelated", *POSED, *RULED, "reexposed by band")
    opencv, trials, reexposed = "", {kind: [] for kind in kinds}, []
    for line in open(path, encoding="utf-8"):
        kind, *fields = line.rstrip("\n").split("\t")
        if kind == "opencv":
            opencv = fields[0]
        elif kind in POSED:
            *fields, turned, counts = fields
            trials[kind].append(read_posed(*fields, turned=turned, counts=counts))
        elif kind in RULED:
            trials[kind].append(read_ruled(*fields[:-1], counts=fields[-1]))
        elif kind == "reexposed by band":
            _, curve, merges, _, band, _, same, same_offset = fields
            trials[kind].append(Stayed(curve, merges == "1", "b", int(band), same == "1", same_offset == "1"))
        elif kind in trials:
            w, h, scene, tone, *numbers, counts = fields
            noise, s, T, P, *numbers = map(int, numbers)
            *moves, at_ward, at_least = zip(numbers[::2], numbers[1::2])
            trials[kind].append(Trial(int(w), int(h), scene, tone, noise, s, T, P, *moves, Counted(*at_ward),
                                      Counted(*at_least), by_level(counts)))
        else:
            reexposed.append(Reexposed(fields[0], fields[1], *map(int, fields[2:])))
    return opencv, trials, reexposed


def off(found, truth):
    return max(abs(found[0] - truth[0]), abs(found[1] - truth[1]))


def size(move):
    return off(move, (0, 0))


def reach(trial):
    return 2 ** (trial.s + 1) - 1


def at_rim(trial):
    return reach(trial) in map(abs, trial.ward)


def overlap(trial, move):
    """The pixels that have a partner in the frame."""
    return (trial.w - abs(move[0])) * (trial.h - abs(move[1]))


def insist_on_overlap(trial, move, at):
    if not at.count <= at.compared <= overlap(trial, move):
        sys.exit(f"accuracy: {at.count} of {at.compared} compared pixels differ, {overlap(trial, move)} overlap")


def share(trial, counted):
    """Compared pixels in percent of the frame's."""
    return 100 * counted.compared / (trial.w * trial.h)


def differing(trial):
    """By mtb_pair the count in percent of the compared number."""
    return 100 * trial.at_least.count / max(1, trial.at_least.compared)


def below(trial, part):
    """By mtb_pair less than 1/part of the frame's pixels were compared."""
    return part * trial.at_least.compared < trial.w * trial.h


def few(trials):
    return sum(below(t, 16) for t in trials)


def by_truth(trials):
    """The right and the wrong answers of mtb_pair."""
    return [t for t in trials if t.least == t.truth], [t for t in trials if t.least != t.truth]


def tied(trial):
    """Some level's least count stands more than once: only then can the two orders differ."""
    return any(row.count(min(row)) > 1 for row in trial.levels)


def clear(trial, numerator=3, denominator=4):
    """The rule of thumb: in each row the least count stands once and is at most that part of the largest."""
    for row in trial.levels:
        least, second, *_, largest = sorted(row)
        if least == second or denominator * least > numerator * largest:
            return False
    return True


# What might warn of an answer of mtb_pair. (Its rows are clear where those of mtb_pair_ward are: up to the first tie they are
# the same.)
WARNINGS = (
    *((f"less than 1/{part} of w·h was compared", lambda t, part=part: below(t, part)) for part in (16, 8, 4, 2)),
    ("less than 1/16 of the overlap", lambda t: 16 * t.at_least.compared < overlap(t, t.least)),
    ("the count is 1/4 of the compared number or more", lambda t: 4 * t.at_least.count >= t.at_least.compared > 0),
    ("the count is 1/16 of it or more", lambda t: 16 * t.at_least.count >= t.at_least.compared > 0),
    ("the rule of thumb is not met", lambda t: not clear(t)),
    ("it is not met, or less than 1/16 of w·h", lambda t: not clear(t) or below(t, 16)),
)


def rule_of(ruled):
    """A column's title."""
    return f"{ruled.rule} = {ruled.number}" if ruled.number else ZERO


def least_right(group):
    return sum(t.least == t.truth for t in group)


def clear_and_right(group):
    return sum(t.least == t.truth and clear(t) for t in group)


def stayed_cell(group):
    return f"{sum(t.same for t in group)} / {sum(t.same_offset for t in group)}"


def by_pair(calls, number):
    """The calls, that many a pair, pair by pair."""
    return [calls[i:i + number] for i in range(0, len(calls), number)]


def asked_row(name, asked):
    """Of each pair's calls, in turn, the first whose rows are clear, where both orders agree: right, one off, worse, none."""
    count = collections.Counter()
    for calls in asked:
        taken = next(filter(clear, calls), None)
        count["none" if taken is None else min(2, off(taken.least, taken.truth))] += 1
    return [name, count[0], count[1], count[2], count["none"]]


def percent(part, whole):
    return f"{100 * part / whole:.1f}" if whole else "–"


def share_cells(answers):
    """Of (trial, Counted) each: how many, and least, quartiles and most of the share."""
    shares = [share(*answer) for answer in answers]
    figures = min(shares), *statistics.quantiles(shares, method="inclusive"), max(shares)
    return [len(shares), *(f"{v:.1f}" for v in figures)]


def warning_cells(warns, right, wrong):
    """How many answers are warned of; parts of the wrong and of the right ones; how many are wrong then, and right if not."""
    of_right, of_wrong = sum(map(warns, right)), sum(map(warns, wrong))
    warned, kept = of_right + of_wrong, len(right) - of_right
    return [warned, percent(of_wrong, len(wrong)), percent(of_right, len(right)), percent(of_wrong, warned),
            percent(kept, len(right) + len(wrong) - warned)]


def markdown(head, rows):
    lines = ["| " + " | ".join(map(str, line)) + " |" for line in [head, *rows]]
    lines.insert(1, "|---" + "|--:" * (len(head) - 1) + "|")
    return "\n".join(lines)


def values(trials, key):
    return list(dict.fromkeys(key(t) for t in trials))


# Where the true offset lies, as seen from (0, 0), and how far out.
TRUTHS = (
    ("up and left", lambda t: max(t.truth) < 0),
    ("down and right", lambda t: min(t.truth) > 0),
    ("in the other two quarters", lambda t: min(t.truth) < 0 < max(t.truth)),
    ("on an axis", lambda t: 0 in t.truth),
    ("up to half of the reach", lambda t: 2 * size(t.truth) <= reach(t)),
    ("up to three quarters", lambda t: 2 * reach(t) < 4 * size(t.truth) <= 3 * reach(t)),
    ("beyond three quarters", lambda t: 4 * size(t.truth) > 3 * reach(t)),
)
# Of how far the weak calls are off.
FIGURES = (
    ("mean off", lambda offs: f"{statistics.mean(offs):.1f}"),
    ("median off", lambda offs: f"{statistics.median(offs):g}"),
    ("exact", lambda offs: offs.count(0)),
    ("at most one off", lambda offs: offs.count(0) + offs.count(1)),
    ("more than 8 off", lambda offs: sum(v > 8 for v in offs)),
)
TOLD_HEAD = ["calls", "clear and right", "clear, one off", "clear, worse", "unclear but right", "unclear and wrong"]
ASKED_HEAD = ["right", "one off", "worse", "no clear answer"]
# What may be asked of a pair, in turn: tolerances or bands, and percentiles with each.
ASKED = (
    ("P = 50; T = b = 0", (ZERO,), (50,)),
    ("P = 50; T = 0, then 1, then 4", (ZERO, "T = 1", "T = 4"), (50,)),
    ("P = 50; b = 0, then 4, then 16", (ZERO, "b = 4", "b = 16"), (50,)),
    ("P = 50, then 17, then 83; T = b = 0", (ZERO,), (50, 17, 83)),
    ("the three P each, T = 0, then 1, then 4", (ZERO, "T = 1", "T = 4"), (50, 17, 83)),
    ("the three P each, b = 0, then 4, then 16", (ZERO, "b = 4", "b = 16"), (50, 17, 83)),
)
WEAK_HEAD = ["weak calls", *(name for name, _ in FIGURES), "offsets differ", "nearer"]


def weak_row(name, trials):
    """Where counts tie: how far from the true offset the least move / Ward's order ends."""
    weak = [t for t in trials if tied(t)]
    least, ward = [off(t.least, t.truth) for t in weak], [off(t.ward, t.truth) for t in weak]
    figures = [f"{figure(least)} / {figure(ward)}" if weak else "–" for _, figure in FIGURES]
    nearer = f"{sum(map(operator.lt, least, ward))} / {sum(map(operator.gt, least, ward))}"
    return [name, f"{len(weak)} of {len(trials)}", *figures, sum(t.least != t.ward for t in weak), nearer]


def angle_of(posed):
    return f"{abs(posed.tenths) / 10:g}°"


def displacement(posed, k):
    """How far the middle of quadrant k lies off: the true offset there, which need not be whole."""
    angle = math.radians(posed.tenths / 10)
    x = (posed.w - posed.w // 2) / (2 if k % 2 else -2)
    y = (posed.h - posed.h // 2) / (2 if k // 2 else -2)
    return (math.cos(angle) * x - math.sin(angle) * y - x + posed.slide[0],
            math.sin(angle) * x + math.cos(angle) * y - y + posed.slide[1])


def four_right(posed):
    """Each offset is less than a pixel off what its quadrant's middle has moved by: of whole slides, exact."""
    return all(off(offset, displacement(posed, k)) < 1 for k, offset in enumerate(posed.offsets))


def goes_round(posed):
    """The four look like a turn: neighbours in a row agree in dx, in a column in dy, to a pixel, and of dx downwards and dy to
    the right one grows and the other shrinks."""
    upper_left, upper_right, lower_left, lower_right = posed.offsets
    rows = [upper_left[0] - upper_right[0], lower_left[0] - lower_right[0]]
    columns = [upper_left[1] - lower_left[1], upper_right[1] - lower_right[1]]
    down = lower_left[0] + lower_right[0] - upper_left[0] - upper_right[0]
    right = upper_right[1] + lower_right[1] - upper_left[1] - lower_left[1]
    return max(map(abs, rows + columns)) <= 1 and down * right < 0


def believable(posed):
    return posed.turned and goes_round(posed)


def warned(group):
    return sum(t.turned for t in group)


def warned_share(group):
    return percent(warned(group), len(group))


def warned_of(group):
    return f"{warned(group)} of {len(group)}"


def warned_cell(group):
    return f"{warned(group)} / {sum(map(believable, group))}"


def slid_cell(group):
    return f"{warned(group)} / {sum(map(four_right, group))}"


def expected_share(posed):
    """Of frames of this size turned so far and slid anyhow, those whose quadrants' middles, rounded, are two apart."""
    sine = abs(math.sin(math.radians(posed.tenths / 10)))
    far = [min(1, max(0, side * sine - 1)) for side in (posed.w - posed.w // 2, posed.h - posed.h // 2)]
    return 1 - (1 - far[0]) * (1 - far[1])


def slid_row(name, group):
    """Frames that only slid: all, where the whole frames' rows are clear, and where not."""
    cells = [len(group), warned(group), warned_share(group), sum(map(believable, group))]
    return [name, *cells, warned_of([t for t in group if clear(t)]), warned_of([t for t in group if not clear(t)])]


class Report:
    def __init__(self, opencv, trials, reexposed):
        self.opencv, self.trials, self.reexposed = opencv, trials["pair"], reexposed
        self.turned, self.slid, self.slid_by_parts = (trials[kind] for kind in POSED)
        self.beyond, self.unrelated = trials["beyond"], trials["unrelated"]
        self.ruled = [by_mtb_pair(t) for t in self.trials if 2 <= t.s <= 4] + trials["band"]
        self.cameras, self.reexposed_by_band = trials["camera"], trials["reexposed by band"]
        self.parts = {}  # what the template's {{names}} stand for

    def cell(self, trials, within=0):
        """Hits of the library and of OpenCV."""
        ours = sum(off(t.ward, t.truth) <= within for t in trials)
        theirs = sum(off(t.theirs, t.truth) <= within for t in trials)
        return f"{ours} / {theirs if self.opencv else '–'}"

    def hits(self, name, trials, row, column, head, title="{}", cell=None):
        """A table of hits, in {{name of}} the number of pairs a cell, and for the text each cell in {{name: row, column}}."""
        groups = collections.defaultdict(list)
        for t in trials:
            groups[row(t), title.format(column(t))].append(t)
        rows, columns = values(trials, row), [title.format(c) for c in values(trials, column)]
        cells = {(r, c): (cell or self.cell)(groups[r, c]) for r in rows for c in columns}
        self.parts[name] = markdown([head, *columns], [[r, *(cells[r, c] for c in columns)] for r in rows])
        self.parts[name + " of"] = len(next(iter(groups.values())))
        self.parts.update({f"{name}: {r}, {c}": v for (r, c), v in cells.items()})

    def ours(self, trials):
        return sum(t.ward == t.truth for t in trials)

    def tolerances(self):
        trials = [t for t in self.trials if t.w == 640 and t.P == 50 and t.s == 4]
        self.hits("tolerances", trials, lambda t: t.scene, lambda t: t.T, "scene", "T = {}")
        self.hits("near", trials, lambda t: t.scene, lambda t: t.T, "scene", "T = {}", lambda g: self.cell(g, 1))

    def halvings(self):
        for name, w in (("halvings", 640), ("halvings small", 320)):
            trials = [t for t in self.trials if t.w == w and t.P == 50 and t.T == 0]
            self.hits(name, trials, lambda t: t.scene, lambda t: t.s, "scene", "s = {}")

    def tones(self):
        some = [t for t in self.trials if t.P == 50 and 2 <= t.s <= 4 and t.scene != HAZE]
        for name, T in (("tones", 0), ("tones 4", 4)):
            self.hits(name, [t for t in some if t.T == T], lambda t: t.tone, lambda t: t.scene, "tone")

    def noises(self):
        trials = [t for t in self.trials if t.P == 50 and 2 <= t.s <= 4 and t.scene != HAZE]
        self.hits("noises", trials, lambda t: f"{t.scene}, noise {t.noise}", lambda t: t.T, "scene", "T = {}", self.ours)

    def percentiles(self):
        trials = [t for t in self.trials if t.T == 0 and 2 <= t.s <= 4 and t.scene != HAZE]
        self.hits("percentiles", trials, lambda t: t.scene, lambda t: t.P, "scene", "P = {}", self.ours)
        stars = [t for t in self.trials if t.T == 0 and t.w == 640 and t.scene in STARS]
        self.hits("stars", stars, lambda t: f"{t.scene}, P = {t.P}", lambda t: t.s, "scene", "s = {}", self.ours)
        for name, scenes in (("percentiles detailed", DETAILED), ("percentiles sky", SKY)):
            self.hits(name, [t for t in trials if t.scene in scenes], lambda t: t.tone, lambda t: t.P, "tone", "P = {}",
                      self.ours)

    def haze(self):
        """At which end each order stays, and how far it moves: the least move / Ward's order."""
        trials = [t for t in self.trials if t.scene == HAZE and t.P == 50]
        table = lambda name, some, cell: self.hits(name, some, lambda t: f"noise {t.noise}", lambda t: t.T, "flat haze",
                                                   "T = {}", cell)
        table("haze", trials, lambda group: f"{sum(t.least == (0, 0) for t in group)} / "
                                            f"{sum(t.ward == (-reach(t), -reach(t)) for t in group)}")
        mean = lambda moves: f"{statistics.mean(map(size, moves)):.1f}"
        table("haze size", [t for t in trials if t.s == 4],
              lambda group: f"{mean(t.least for t in group)} / {mean(t.ward for t in group)}")

    def weak(self):
        """Both orders where counts tie. Where none do they must agree."""
        untied = [t for t in self.trials if not tied(t)]
        if any(t.least != t.ward for t in untied):
            sys.exit("accuracy: the two orders differ where no least count stands twice")
        trials = [t for t in self.trials if t.P == 50 and 2 <= t.s <= 4]
        scenes = [t for t in trials if t.scene != HAZE]
        kind = lambda t: f"{t.scene}, noise {t.noise}" if t.scene == HAZE else t.scene
        self.parts["weak"] = markdown(["scene", *WEAK_HEAD], [
            weak_row(v, [t for t in trials if kind(t) == v]) for v in values(trials, kind)])
        self.parts["weak truths"] = markdown(["true offset", *WEAK_HEAD], [
            weak_row(name, list(filter(test, scenes))) for name, test in TRUTHS])
        self.parts["tied"], self.parts["untied"] = len(self.trials) - len(untied), len(untied)
        self.parts["least right"] = sum(t.least == t.truth for t in self.trials)
        self.parts["ward right"] = self.ours(self.trials)

    @staticmethod
    def told(trials, rule=clear, answer=operator.attrgetter("ward")):
        """Calls; told clear: right, off by one, worse; told unclear: right all the same, wrong."""
        count = collections.Counter((bool(rule(t)), min(2, off(answer(t), t.truth))) for t in trials)
        return [len(trials), count[True, 0], count[True, 1], count[True, 2], count[False, 0],
                count[False, 1] + count[False, 2]]

    def rule(self):
        by = lambda key: [[v, *self.told([t for t in self.trials if key(t) == v])] for v in values(self.trials, key)]
        total = self.told(self.trials)
        self.parts["rule"] = markdown(["scene", *TOLD_HEAD], by(lambda t: t.scene) + [["**all**", *total]])
        self.parts["rule tolerances"] = markdown(["", *TOLD_HEAD], by(lambda t: f"T = {t.T}"))
        cuts = [(9, 10, "nine tenths"), (3, 4, "three quarters"), (1, 2, "half")]
        self.parts["rule cuts"] = markdown(["at most", *TOLD_HEAD], [
            [name, *self.told(self.trials, lambda t: clear(t, a, b))] for a, b, name in cuts])
        _, right, near, far, missed, caught = total
        self.parts["rule clear"] = right + near + far
        self.parts["rule right"] = f"{100 * right / (right + near + far):.1f}"
        self.parts["rule near"] = f"{100 * (right + near) / (right + near + far):.1f}"
        self.parts["rule found"] = f"{100 * right / (right + missed):.0f}"
        self.parts["rule told"] = f"{100 * (right + caught) / len(self.trials):.0f}"
        self.parts["rule caught"] = f"{100 * caught / (caught + near + far):.1f}"

    def shares(self):
        """The share compared at right and at wrong answers. What the definitions say of compared numbers must hold."""
        for t in self.trials + self.beyond + self.unrelated:
            insist_on_overlap(t, t.ward, t.at_ward)
            insist_on_overlap(t, t.least, t.at_least)
        rows = []
        for call, answer in (("mtb_pair", lambda t: (t.least, t.at_least)), ("mtb_pair_ward", lambda t: (t.ward, t.at_ward))):
            answers = [(t, *answer(t)) for t in self.trials]
            for name, right in (("right", True), ("wrong", False)):
                some = ((t, at) for t, move, at in answers if (move == t.truth) == right)
                rows.append([f"{name}, by `{call}`", *share_cells(some)])
        for name, trials in (("true move out of reach", self.beyond), ("another scene", self.unrelated)):
            rows.append([f"{name}, by `mtb_pair`", *share_cells((t, t.at_least) for t in trials)])
        self.parts["shares"] = markdown(
            ["answers", "number", "least", "lower quartile", "median", "upper quartile", "most"], rows)

    def warnings(self):
        """How the share compared, and other signs, tell right answers of mtb_pair from wrong ones."""
        right, wrong = by_truth(self.trials)
        self.parts["warnings"] = markdown(
            ["warned of where", "answers", "% of the wrong ones", "% of the right ones", "% wrong among them",
             "% right among the others"], [[name, *warning_cells(warns, right, wrong)] for name, warns in WARNINGS])
        rows = []
        for key in (lambda t: f"T = {t.T}", lambda t: t.scene):
            for v in values(self.trials, key):
                groups = by_truth([t for t in self.trials if key(t) == v])
                rows.append([v, *(cell for some in groups for cell in (len(some), percent(few(some), len(some))))])
        self.parts["warnings by"] = markdown(["", "right", "% of them below 1/16", "wrong", "% of them below 1/16"], rows)

    def few_or_many(self):
        """What the text says of them."""
        right, wrong = by_truth(self.trials)
        many = by_truth([t for t in self.trials if not below(t, 2)])
        stars = [t for t in right if t.scene in STARS]
        noise = [share(t, t.at_least) for t in self.trials if (t.scene, t.noise, t.T) == (HAZE, 4, 0)]
        self.parts.update({
            "wrong": percent(len(wrong), len(self.trials)),
            "few wrong": percent(few(wrong), few(self.trials)),
            "few caught": percent(few(wrong), len(wrong)),
            "many wrong": percent(len(many[1]), len(many[0]) + len(many[1])),
            "few right": few(right),
            "few stars": few(stars),
            "few clipped": few(t for t in stars if t.tone == "both ends"),
            "part right": f"{statistics.median(map(differing, right)):.1f}",
            "part wrong": f"{statistics.median(map(differing, wrong)):.1f}",
            "noisy haze": f"{statistics.median(noise):.0f}",
            "strangers": f"{statistics.median(share(t, t.at_least) for t in self.unrelated):.0f}",
            "clear wrong": sum(map(clear, wrong)),
            "clear few wrong": few(filter(clear, wrong)),
            "clear few right": few(filter(clear, right)),
        })

    def hopeless(self):
        """Pairs without a right answer, and how many of them have clear rows all the same."""
        rows = []
        for scene in values(self.beyond, lambda t: t.scene):
            beyond, unrelated = ([t for t in trials if t.scene == scene] for trials in (self.beyond, self.unrelated))
            yet_clear = [t for t in beyond if clear(t)]
            rows.append([scene, len(beyond), len(yet_clear), sum(not at_rim(t) for t in yet_clear),
                         sum(map(clear, unrelated))])
        head = ["scene", "pairs of each", "out of reach, yet clear", "and not at the rim", "another scene, yet clear"]
        self.parts["hopeless"] = markdown(head, rows)

    def asking_again(self):
        """The first of P = 50, 17, 83 whose rows are clear, at T = 0."""
        pairs = [{t.P: t for t in calls if t.T == 0} for calls in by_pair(self.trials, CALLS_A_PAIR)]
        self.parts["asking"] = markdown(["asked at T = 0", *ASKED_HEAD], [
            asked_row(name, ([pair[P] for P in order] for pair in pairs))
            for name, order in (("P = 50 alone", (50,)), ("P = 50, then 17, then 83", (50, 17, 83)))])
        self.parts["asking of"] = len(pairs)

    def reexposure(self):
        rows, groups = [], collections.defaultdict(list)
        for r in self.reexposed:
            groups[r.curve].append(r)
        for curve, group in groups.items():
            at = {T: [r for r in group if r.T == T] for T in (0, 1, 4)}
            same = [sum(r.same for r in at[T]) for T in (0, 1, 4)]
            if not group[0].merges and not all(r.same and r.same_least and r.same_quadrants for r in at[0]):
                sys.exit(f"accuracy: {curve} merges nothing, but changed an answer at T = 0: the theorem says it cannot")
            median = [r for r in at[0] if r.P == 50]
            theirs = f"{sum(r.theirs for r in median)} of {len(median)}" if self.opencv else "–"
            rows.append([curve, "yes" if group[0].merges else "no", *same, sum(r.same_offset for r in at[0]),
                         sum(r.after for r in at[0]), theirs])
            self.parts["reexposure before"] = sum(r.before for r in at[0])
            self.parts["reexposure of"] = len(at[0])
        self.parts["reexposed quadrants"] = sum(r.T == 0 and not r.merges for r in self.reexposed)
        self.parts["reexposure"] = markdown(["curve", "merges values", "same at T = 0", "same at T = 1",
                                             "same at T = 4", "same offset at T = 0", "true after, T = 0",
                                             "OpenCV: same offset, T = 0"], rows)

    def bands(self):
        """Hits by band beside those by tolerance."""
        table = lambda name, some, row, head, cell=least_right: self.hits(name, some, row, rule_of, head, "{}", cell)
        scenes = [t for t in self.ruled if t.P == 50 and t.scene != HAZE]
        with_sums = (scenes + [t._replace(noise="1, 2 and 4") for t in scenes if t.noise > 0]
                     + [t._replace(noise="all") for t in scenes])
        table("bands noises", with_sums, lambda t: t.noise, "noise")
        table("bands clear", with_sums, lambda t: t.noise, "noise", clear_and_right)
        table("bands scenes", scenes, lambda t: f"{t.scene}, noise {t.noise}", "scene")
        table("bands tones", scenes, lambda t: t.tone, "tone")
        for name, some in (("cameras detailed", DETAILED), ("cameras sky", SKY)):
            table(name, [t for t in self.cameras if t.scene in some], lambda t: t.tone, "camera")
        others = [t for P in (17, 83) for t in self.ruled if t.P == P and t.scene != HAZE]
        table("bands percentiles", others, lambda t: f"{t.scene}, P = {t.P}", "scene")
        table("bands stars", [t for t in others if t.P == 83 and t.scene in STARS_ALONE],
              lambda t: f"{t.scene}, noise {t.noise}", "scene")
        self.parts["bands calls"] = sum(t.rule == "b" for t in self.ruled)
        self.parts["bands zero"] = sum(t.number == 0 for t in self.ruled)
        self.parts["bands all of"] = sum(t.number == 0 for t in scenes)

    def bands_compared(self):
        """How often a band or a tolerance leaves out nearly all, and what the mount does on haze."""
        for t in self.ruled + self.cameras:
            insist_on_overlap(t, t.least, t.at_least)
        median = [t for t in self.ruled if t.P == 50]
        self.hits("bands few", median, lambda t: t.scene, rule_of, "scene", "{}", few)
        self.hits("cameras few", self.cameras, lambda t: t.tone, rule_of, "camera", "{}", few)
        self.hits("bands haze", [t for t in median if t.scene == HAZE and t.s == 4], lambda t: f"noise {t.noise}", rule_of,
                  "flat haze", "{}", lambda group: f"{statistics.mean(size(t.least) for t in group):.1f}")

    def bands_rule(self):
        """The rule of thumb by tolerance and by band, and asking again with another."""
        least = operator.attrgetter("least")
        groups = {rule: [t for t in self.ruled if rule_of(t) == rule] for rule in values(self.ruled, rule_of)}
        told = {rule: self.told(group, answer=least) for rule, group in groups.items()}
        self.parts["bands rule"] = markdown(["", *TOLD_HEAD], [[rule, *row] for rule, row in told.items()])
        self.parts["bands clear right"] = f"{min(100 * row[1] / sum(row[1:4]) for row in told.values()):.1f}"
        tolerances, bands = ([t for t in self.ruled if t.rule == rule] for rule in "Tb")
        pairs = [{(rule_of(t), t.P): t for t in by_tolerance + by_band} for by_tolerance, by_band
                 in zip(by_pair(tolerances, CALLS_A_PAIR), by_pair(bands, BAND_CALLS_A_PAIR))]
        self.parts["bands asking"] = markdown(["asked", *ASKED_HEAD], [
            asked_row(name, ([pair[rule, P] for rule in rules for P in percentiles] for pair in pairs))
            for name, rules, percentiles in ASKED])
        self.parts["bands asking of"] = len(pairs)

    def bands_reexposed(self):
        """By mtb_pair and by mtb_pair_band. A curve that merges nothing must not change an answer by a band."""
        for t in self.reexposed_by_band:
            if not t.merges and not t.same:
                sys.exit(f"accuracy: {t.curve} merges nothing, but changed an answer at b = {t.number}: the theorem says it "
                         "cannot")
        stayed = [Stayed(r.curve, r.merges, "T", r.T, r.same_least, r.same_least_offset) for r in self.reexposed]
        stayed += self.reexposed_by_band
        self.hits("bands reexposed", stayed, lambda t: t.curve, rule_of, "curve", "{}", stayed_cell)
        self.hits("bands unmerged", [t for t in stayed if not t.merges], lambda t: "all", rule_of, "", "{}",
                  lambda group: f"{sum(t.same for t in group)} answers and {sum(t.same_offset for t in group)} offsets")

    def turned_frames(self):
        """From which angle on the warning comes, with what geometry says of middles that are found exactly."""
        for w, name in ((640, "turned"), (320, "turned small"), (1920, "turned large")):
            trials = [t for t in self.turned if t.w == w]
            self.hits(name, trials, lambda t: t.scene, angle_of, "scene", "{}", warned_cell)
            shares = {angle_of(t): expected_share(t) for t in trials}
            expected = [f"{self.parts[name + ' of'] * share:.0f}" for share in shares.values()]
            self.parts[name] += f"\n| *by geometry* | {' | '.join(expected)} |"
        self.hits("turned right", [t for t in self.turned if t.w == 640], lambda t: t.scene, angle_of, "scene", "{}",
                  lambda group: sum(map(four_right, group)))

    def slid_frames(self):
        """How often the warning comes where nothing has turned."""
        for w, name in ((640, "slid"), (320, "slid small")):
            trials = [t for t in self.slid if t.w == w]
            self.hits(name, trials, lambda t: t.scene, lambda t: t.noise, "scene", "noise {}", slid_cell)
        self.hits("slid tones", self.slid, lambda t: t.tone, lambda t: t.scene, "tone", "{}", slid_cell)
        both = self.slid + self.slid_by_parts
        rows = [slid_row(v, [t for t in both if t.scene == v]) for v in values(both, lambda t: t.scene)]
        for name, group in (("**all**", both), ("by whole pixels", self.slid), ("by parts of a pixel", self.slid_by_parts)):
            rows.append(slid_row(name, group))
        self.parts["slid all"] = markdown(["only slid", "pairs", "warned", "%", "and going round",
                                           "warned, whole frames' rows clear", "warned, not clear"], rows)

    def trust_in_warnings(self):
        """What the text says of them: warnings of frames that only slid, and that turned far enough to be certain of one."""
        slid = self.slid + self.slid_by_parts
        far = [t for t in self.turned if t.scene in ALIGNED and expected_share(t) == 1]
        near = [t for t in far if math.radians(abs(t.tenths) / 10) * t.w / 2 <= 4]
        leaves = [t for t in far if t.scene == "leaves"]
        aligned = [t for t in slid if t.scene in ALIGNED]
        self.parts.update({f"false alarms {v}": warned_share([t for t in slid if t.scene == v]) for v in (*SKY, "soft hills")})
        hills, haze = [t for t in slid if t.scene == "soft hills"], [t for t in slid if t.scene == HAZE and t.noise > 0]
        for name, some in (("hills", hills), ("noisy haze", haze)):
            self.parts[f"overexposed {name}"] = warned_of([t for t in some if t.tone in OVEREXPOSED])
            self.parts[f"other {name}"] = warned_of([t for t in some if t.tone not in OVEREXPOSED])
        self.parts.update({
            "slid pairs": len(slid),
            "false alarms": warned_share(slid),
            "false alarms aligned": warned_share(aligned),
            "false aligned": warned_of(aligned),
            "false rounds": sum(map(believable, slid)),
            "far": len(far),
            "far warned": warned(far),
            "near round": percent(sum(map(believable, near)), len(near)),
            "leaves clear": sum(map(clear, leaves)),
            "leaves": len(leaves),
        })

    def example(self, name, wanted):
        """The first trial that is wanted, as `bracket` prints it."""
        trial = next((t for t in self.trials if wanted(t)), None)
        if trial is None:
            self.parts[name] = "(no such pair in this run)"
            return
        lines = [f"offset {trial.ward[0]} {trial.ward[1]}"]
        lines += [f"{trial.s - k}: {' '.join(map(str, row))}" for k, row in enumerate(trial.levels)]
        title = (f"{trial.scene}, tone *{trial.tone}*, noise {trial.noise}; s = {trial.s}, T = {trial.T}, P = {trial.P}; "
                 f"true offset {trial.truth[0]} {trial.truth[1]}, `mtb_pair` gives {trial.least[0]} {trial.least[1]}:")
        self.parts[name] = "\n".join([title[0].upper() + title[1:], "```", *lines, "```"])

    def examples(self):
        def wanted(scene, tone, noise, T, right):
            return lambda t: (t[:8] == (640, 480, scene, tone or t.tone, noise, 3, T, 50) and (t.ward == t.truth) == right
                              and clear(t) == right and (right or off(t.ward, t.truth) > 1))
        self.example("example clear", wanted("leaves", "under, over", 2, 1, True))
        self.example("example tie", wanted("soft hills", "same", 0, 8, False))
        self.example("example level", wanted("sparse stars", None, 2, 0, False))
        self.example("example haze", wanted(HAZE, "same", 0, 0, False))

    def all(self):
        self.parts["opencv"] = self.opencv or "(not installed for this run)"
        self.parts["pairs"] = len(self.trials) // CALLS_A_PAIR
        self.parts["calls"] = len(self.trials)
        for part in (self.tolerances, self.halvings, self.tones, self.noises, self.percentiles, self.haze, self.weak,
                     self.rule, self.hopeless, self.asking_again, self.shares, self.warnings, self.few_or_many,
                     self.bands, self.bands_compared, self.bands_rule, self.reexposure, self.bands_reexposed,
                     self.turned_frames, self.slid_frames, self.trust_in_warnings, self.examples):
            part()
        return self.parts


def write_png(pgm, path):
    """A P5 picture, as `measure` writes it, as a grey PNG."""
    with open(pgm, "rb") as file:
        file.readline()
        w, h = map(int, file.readline().split())
        file.readline()
        rows = b"".join(b"\0" + file.read(w) for _ in range(h))
    chunk = lambda kind, data: struct.pack(">I", len(data)) + kind + data + struct.pack(">I", zlib.crc32(kind + data))
    with open(path, "wb") as file:
        file.write(b"\x89PNG\r\n\x1a\n" + chunk(b"IHDR", struct.pack(">IIBBBBB", w, h, 8, 0, 0, 0, 0))
                   + chunk(b"IDAT", zlib.compress(rows, 9)) + chunk(b"IEND", b""))


def main():
    seed, folder = sys.argv[1:]
    opencv, trials, reexposed = read(os.path.join(folder, "measured.tsv"))
    parts = Report(opencv, trials, reexposed).all()
    parts["seed"] = seed
    here = os.path.dirname(os.path.abspath(__file__))
    template = open(os.path.join(here, "ACCURACY.template.md"), encoding="utf-8").read()
    for name in re.findall(r"\{\{(.*?)\}\}", template):
        if "\n" in str(parts[name]):
            print(f"{name}\n{parts[name]}\n")
    target = os.path.join(here, "..", "docs") if seed == DEFAULT_SEED and opencv else folder
    path = os.path.normpath(os.path.join(target, "ACCURACY.md"))
    with open(path, "w", encoding="utf-8") as file:
        file.write(re.sub(r"\{\{(.*?)\}\}", lambda found: str(parts[found[1]]), template))
    write_png(os.path.join(folder, "scenes.pgm"), os.path.join(target, "accuracy-scenes.png"))
    print(f"wrote {path}")


if __name__ == "__main__":
    main()
