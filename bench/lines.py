#!/usr/bin/env python3
"""Times a copy of 1 MiB over lines that lose packets, and over lines with a rate and a queue, beside other programs.

    make bench-lines, or bench/lines.py [PROGRAM [RUNS [AT_ONCE]]]

PROGRAM is bin/chaosd by default. Each figure is the median of RUNS copies, 3 by default, each with a line and a seed of its own. Over a
line with a rate nothing is left to chance, so there each figure is that of one copy. AT_ONCE copies go on side by side, 24 by default:
they wait for the line nearly all the time. chaosd has its usual options, but for the server's window and both carriages. curl, scp and
atftp need a line of devices (bench/line.py); TCP grows its windows by cubic, Linux's own choice, and curl also by bbr. The bench reports
which programs can't run here, and leaves them out.
"""

import concurrent.futures
import itertools
import pathlib
import statistics
import subprocess
import sys
import tempfile

sys.dont_write_bytecode = True

import line  # noqa: E402
from copiers import FILE_DATA, FILE_LIMIT, Atftp, Chaosd, Curl, Scp, content_of, told_by  # noqa: E402

PROGRAM = pathlib.Path(__file__).resolve().parent.parent / "bin/chaosd"
RUNS, AT_ONCE = 3, 24
DELAYS, SHARES = [0.020, 0.100], [0, 0.001, 0.01, 0.05]
# the lines with a rate take 20 ms each way
RATES, QUEUES, RATED_DELAY = [10_000, 100_000, 1_000_000], [20, 1_000], 0.020
WAYS = ["put", "get"]
WINDOWS, CARRIAGES = [13, 64], [1, 2]
# with such a share lost a copy may take so many times as long as without; over a line with a rate, so many times as long as its bytes or,
# where the window bounds it, as its windows
LOSSY, RATED_RATIO = {0.01: 2, 0.05: 4}, 1.3


def name_of(window, carriage):
    return f"chaosd, window {window}, carriage {carriage}"


def makers_of(program, over):
    """How to make each copier that can run here, by its name: each copy has its own."""
    makers = {}
    for own in itertools.product(WINDOWS, CARRIAGES):
        name = name_of(*own)
        makers[name] = lambda name=name, own=own: Chaosd(name, program, *own)
    makers |= {f"curl, {control}": lambda control=control: Curl(control) for control in ["cubic", "bbr"]}
    makers |= {"scp": Scp, "atftp, window 32": Atftp}
    for name, maker in list(makers.items()):
        is_kept_out = over is line.of_datagrams and not name.startswith("chaosd")
        if why := maker().missing() or is_kept_out and "it needs a line of devices":
            print(f"    {name} is left out: {why}", flush=True)
            del makers[name]
    return makers


def copied(copier, over, way, manners):
    """The seconds that a copy takes over a line of its own."""
    with tempfile.TemporaryDirectory() as name, over(manners, copier.control) as place:
        top, content = pathlib.Path(name), content_of()
        here, far = top / "here", top / "far"
        here.mkdir()
        far.mkdir()
        source, target = (here, far) if way == "put" else (far, here)
        (source / "FILE").write_bytes(content)
        with copier.serving(place, far, top / "scratch"):
            spent = copier.copied(way, ["FILE"], here).seconds
        if (target / "FILE").read_bytes() != content:
            raise OSError("the file differs")
        return spent


def tried(maker, over, way, manners):
    """The seconds of a copy; infinite, and reported, where it failed."""
    copier = maker()
    try:
        return copied(copier, over, way, manners)
    except (OSError, subprocess.SubprocessError) as fault:
        print(f"    {copier.name}: {way}, {manners}: {told_by(fault)}", flush=True)
        return float("inf")


def lossy(runs):
    """The lines that lose packets, each as often as it is run."""
    for delay, lost in itertools.product(DELAYS, SHARES):
        yield (delay, lost), [line.Manners(delay, lost, seed) for seed in range(runs)]


def rated():
    """The lines with a rate and a queue."""
    for rate, queue in itertools.product(RATES, QUEUES):
        yield (rate, queue), [line.Manners(RATED_DELAY, rate=rate, queue=queue)]


def all_copied(makers, over, lines, at_once):
    """The median seconds by line, copier and way."""
    with concurrent.futures.ThreadPoolExecutor(at_once) as pool:
        jobs = {
            (key, name, way): [pool.submit(tried, maker, over, way, each) for each in manners]
            for key, manners in lines
            for name, maker in makers.items()
            for way in WAYS
        }
    return {key: statistics.median_low([run.result() for run in runs]) for key, runs in jobs.items()}


def short(seconds):
    return "fails" if seconds == float("inf") else f"{seconds:.1f}" if seconds >= 10 else f"{seconds:.2f}"


def limit_of(window, delay):
    """The seconds in which the line alone carries the file, one window in each round trip."""
    return FILE_LIMIT / (window * FILE_DATA) * 2 * delay


def cell_of(figures, key, name):
    return "/".join(short(figures[key, name, way]) for way in WAYS)


def print_rows(title, head, rows):
    print(f"<!-- {title}: written by make bench -->", f"put/get in seconds|{'|'.join(head)}", "---|" * len(head) + "---", sep="\n")
    for name, cells in rows:
        print(name, *cells, sep="|")
    print(f"<!-- end of {title} -->", flush=True)


def print_losses(figures, names):
    rows = []
    for delay in DELAYS:
        at = f"{delay * 1000:.0f} ms"
        rows += [(f"{at}: {name}", [cell_of(figures, (delay, lost), name) for lost in SHARES]) for name in names]
        for window in WINDOWS:
            rows.append((f"{at}: the line's limit, window {window}", [short(limit_of(window, delay)), *[""] * (len(SHARES) - 1)]))
    print_rows("lines", [f"{lost:.1%} lost" if lost else "none lost" for lost in SHARES], rows)


def named(rate):
    """A rate as people write it: `100 kB/s`."""
    return f"{rate // 1_000_000} MB/s" if rate >= 1_000_000 else f"{rate // 1_000} kB/s"


def print_rates(figures, names):
    keys = list(itertools.product(RATES, QUEUES))
    rows = [(name, [cell_of(figures, key, name) for key in keys]) for name in names]
    rows.append(("the bytes of the file alone", [short(FILE_LIMIT / rate) for rate, _ in keys]))
    print_rows("rates", [f"{named(rate)}, queue {queue:,}" for rate, queue in keys], rows)


def print_missed(losses, rates):
    for delay, carriage, way in itertools.product(DELAYS, CARRIAGES, WAYS):
        for window, (lost, aim) in itertools.product(WINDOWS, LOSSY.items()):
            name = name_of(window, carriage)
            ratio = losses[(delay, lost), name, way] / losses[(delay, 0), name, way]
            if ratio > aim:
                what = f"a {way} with {lost:.0%} lost over one without loss, {delay * 1000:.0f} ms each way, window {window}, carriage {carriage}"
                print(f"missed: `lines`, {what}: {ratio:.2f}, aim {aim}. A loss stops the stream until its packet goes again.")
    for (rate, queue), window, carriage, way in itertools.product(itertools.product(RATES, QUEUES), WINDOWS, CARRIAGES, WAYS):
        ratio = rates[(rate, queue), name_of(window, carriage), way] / max(FILE_LIMIT / rate, limit_of(window, RATED_DELAY))
        if ratio > RATED_RATIO:
            what = f"a {way} at {named(rate)}, queue {queue:,}, window {window}, carriage {carriage}"
            why = "A short queue overflows." if queue == min(QUEUES) else "A copy begins with 8 commands in flight."
            print(f"missed: `lines`, {what}: {ratio:.2f} times the limit of its line, aim {RATED_RATIO}. {why}")


def main():
    words = sys.argv[1:]
    program = pathlib.Path(words[0]).resolve() if words else PROGRAM
    runs, at_once = (int(words[n]) if len(words) > n else usual for n, usual in [(1, RUNS), (2, AT_ONCE)])
    if not program.is_file():
        sys.exit(f"{program} isn't there: run make first")
    why = line.why_no_devices()
    if why:
        print(f"    no line of devices here, so a relay of datagrams carries chaosd alone: {why}")
    over = line.of_datagrams if why else line.of_devices
    makers = makers_of(program, over)
    losses = all_copied(makers, over, lossy(runs), at_once)
    rates = all_copied(makers, over, rated(), at_once)
    print_losses(losses, makers)
    print_rates(rates, makers)
    print_missed(losses, rates)


if __name__ == "__main__":
    main()
