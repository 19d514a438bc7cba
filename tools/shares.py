"""How much of a listing is behind it, and how much may be left: by the letters of its last line, and honest where they don't tell.

The listing goes through the first pairs' relations in order, so its last line says how far it is: of a first pair with three possible
relations that is at the second of them, what stands below the first is behind, and of what is left the next pair says more. `mir` says which
relations are possible. How much stands below each of them is learnt from the worlds so far: pairs further behind have been through all
their relations many times. What is learnt so from a part of the listing may not hold for the rest, so what is left is told as a range, by
how much the estimate moved up to now; `unknown` where it moved much, and `or more` where it only grew.
"""

import subprocess
import time

import program

ORDER = "=><x!"
FINEST = 1e-15  # the share is no finer than this
ROUNDS = 5  # a pair that went through its relations so often tells how many worlds they have
KEPT = 800  # lines that are looked at
MOST_PAIRS = 64  # open pairs that are looked at; the first dozens decide
LEAST_LINES = 10
DOUBT = 2  # by how much a range is wider than what was seen
WILD = 4  # an estimate that moved by more than this says nothing


class Measure:
    """Shares by the relations that are possible for each of the first open pairs, and the weights of these.

    It looks at keys: the letters of a line at the places of these pairs, since a line may have half a million."""

    def __init__(self, sets):
        self.places = [k for k, one in enumerate(sets) if len(one) > 1][:MOST_PAIRS]
        self.sets = ["".join(letter for letter in ORDER if letter in sets[k]) for k in self.places]
        self.weights = [dict.fromkeys(one, 1 / len(one)) for one in self.sets]
        self.reach = self.places[-1] + 1 if self.places else 0

    def key(self, letters):
        """The key of a line, or of the front of one."""
        return "".join(letters[k] for k in self.places if k < len(letters))

    def learn(self, keys):
        """Takes the weights from keys in order: a pair's own where it went through its relations often, else those of such pairs."""
        often, shares = {}, {}
        for k in range(len(self.sets)):
            letters = [key[k] for key in keys if len(key) > k]
            rounds = sum(ORDER.index(b) < ORDER.index(a) for a, b in zip(letters, letters[1:]))
            if rounds >= ROUNDS:
                often[k] = {letter: letters.count(letter) for letter in ORDER}
                for letter, count in often[k].items():
                    shares[letter] = shares.get(letter, 0) + count / len(letters)
        for k, one in enumerate(self.sets):
            raw = {letter: often[k][letter] + 0.5 if k in often else shares.get(letter, 0) + 0.01 for letter in one}
            total = sum(raw.values())
            self.weights[k] = {letter: weight / total for letter, weight in raw.items()}

    def share(self, key):
        """The share before the first world with this key."""
        share, width = 0.0, 1.0
        for letter, one, weights in zip(key, self.sets, self.weights):
            if width < FINEST:
                break
            share += width * sum(weights[other] for other in one if ORDER.index(other) < ORDER.index(letter))
            if letter not in one:
                break  # a dead node of a certificate
            width *= weights[letter]
        return share


def measure_of(problem, switches, seconds):
    """The measure by what `mir` tells of a problem; None where it doesn't tell within some seconds."""
    try:
        code, out, _ = program.answer(["mir", f"in={problem}", *switches], timeout=seconds)
    except subprocess.TimeoutExpired:
        return None
    lines = [line.split(" ") for line in out.split("\n")]
    measure = Measure([words[2] for words in lines if len(words) == 3]) if code == 0 else None
    return measure if measure and measure.places else None


class Sample:
    """The keys of some of the lines of a listing, evenly, with the lines' numbers."""

    def __init__(self, measure):
        self.measure, self.keys, self.step, self.count, self.last = measure, [], 1, 0, ""

    def add(self, line, number=None):
        """The next line, or one of this number."""
        self.count = self.count + 1 if number is None else number
        if self.measure is None or (number is None and self.count % self.step != 0):
            return
        self.last = self.measure.key(line)
        self.keys.append((self.count, self.last))
        if len(self.keys) >= 2 * KEPT:
            self.keys, self.step = self.keys[1::2], 2 * self.step


class Forecast:
    """What a sample says of the share behind and of the number that is left; `begin` and `end` are positions, '' and None for the whole."""

    def __init__(self, measure, sample, begin="", end=None):
        self.behind = self.left = None
        self.grows = False
        if measure is None or sample.count < LEAST_LINES or not sample.keys:
            return
        measure.learn([key for _, key in sample.keys])
        first, last = measure.share(measure.key(begin)), 1.0 if end is None else measure.share(measure.key(end))
        share = lambda key: (measure.share(key) - first) / (last - first) if last > first else 0.0
        self.behind = min(1.0, max(0.0, share(sample.last)))
        whole = []
        for part in (0.25, 0.5, 0.75):
            count, key = next((one for one in sample.keys if one[0] >= part * sample.count), sample.keys[-1])
            whole.append(count / share(key) if share(key) > 0 else None)
        if not self.behind or None in whole:
            return
        whole.append(sample.keys[-1][0] / self.behind)
        moved = max(whole) / min(whole)
        rest = sample.count * (1 - self.behind) / self.behind
        self.grows = whole == sorted(whole) and moved > 1.3
        if self.grows:
            self.left = (rest / DOUBT, None)
        elif moved <= WILD:
            self.left = (rest / (DOUBT * moved), rest * DOUBT * moved)


class Pace:
    """How fast a count grows, by when it was seen to be how great."""

    def __init__(self):
        self.seen = []

    def add(self, count):
        self.seen.append((time.monotonic(), count))
        self.seen = self.seen[-30:]

    def rates(self):
        """The slowest and the fastest of late, a second; None where nothing grew."""
        if len(self.seen) < 2 or self.seen[-1][1] == self.seen[0][1]:
            return None
        (begin, least), (end, most) = self.seen[0], self.seen[-1]
        half, middle = self.seen[len(self.seen) // 2]
        whole = (most - least) / (end - begin)
        late = (most - middle) / (end - half) if end > half else whole
        return min(whole, late), max(whole, late)


def in_time(seconds):
    for size, word in ((86400, "d"), (3600, "h"), (60, "min")):
        if seconds >= 2 * size:
            return f"{seconds / size:,.0f} {word}"
    return f"{seconds:,.0f} s"


def in_share(share):
    return "less than 0.1 %" if share < 0.001 else f"{100 * share:.1f} %"


def share_behind(forecast):
    """`about 15.0 %`; `.. or less` where the estimate of the whole only grew, and `unknown` where it moved too much."""
    if forecast.behind is None or (forecast.left is None and forecast.behind > 0):
        return "unknown"
    return f"about {in_share(forecast.behind)}" + (" or less" if forecast.grows else "")


def time_left(forecast, pace):
    """`2 min to 9 min`, `20 s or more`, or `unknown`."""
    rates = pace.rates()
    if forecast.left is None or rates is None or rates[0] <= 0:
        return "unknown"
    low, high = forecast.left
    if high is None:
        return f"{in_time(low / rates[1])} or more"
    return f"{in_time(low / rates[1])} to {in_time(high / rates[0])}"


def report(forecast, pace, count, things="worlds"):
    rates = pace.rates()
    rate = f"{rates[1]:,.0f} a second" if rates and rates[1] >= 10 else f"{rates[1]:.1f} a second" if rates else "rate unknown"
    return f"{count:,} {things}, {share_behind(forecast)} behind, {rate}, time left {time_left(forecast, pace)}"
