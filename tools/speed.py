#!/usr/bin/env python3
"""Times the commands, on inputs that are made here and on files that are named: how docs/SPEED.md was measured.

    tools/speed.py PROGRAM [FILE X Y Z FOCAL TAU LIMIT ..]

PROGRAM is the built viewer (out/jichallay once the launcher has run). Each time is the least of several runs, in
seconds: that on the clock, and the processor's (user and system). Beside them stand the greatest memory of a run and
its system calls, where GNU `time` and `strace` are there. Then come the growth shapes, at n and at 4n, and the ratio
of the processor times.
"""
import os
import pathlib
import shutil
import struct
import subprocess
import sys
import tempfile
import time

RUNS = 7
COLUMNS = 16384
STEPS = 16000
VIEWS = 60
OTHERS = 63
IDLE_TURNS = 6000
SWINGS = 8
ALL = "4294967295"


def once(program, words, script):
    """Seconds on the clock and of the processor of one run that reads the script."""
    begun = time.perf_counter()
    with open(script, "rb") as source:
        child = subprocess.Popen([program, *words], stdin=source, stdout=subprocess.DEVNULL)
    _, status, used = os.wait4(child.pid, 0)
    clock = time.perf_counter() - begun
    if os.waitstatus_to_exitcode(status) != 0:
        raise SystemExit(f"{' '.join(words)}: ended with {status}")
    return clock, used.ru_utime + used.ru_stime


def least(program, words, script=os.devnull):
    """The least of several runs, each number by itself."""
    clocks, times = zip(*(once(program, words, script) for _ in range(RUNS)))
    return min(clocks), min(times)


def memory(program, words, script):
    """The greatest memory of a run in megabytes, by GNU `time`: a child of this script would count the script's own."""
    if not shutil.which("time"):
        return "-"
    with open(script, "rb") as source:
        ran = subprocess.run(["time", "-f", "%M", program, *words], stdin=source, stdout=subprocess.DEVNULL,
                             stderr=subprocess.PIPE)
    return f"{int(ran.stderr.decode().split()[-1]) / 1024:.1f}"


def system_calls(program, words, script):
    """How many calls of the system a run makes, as far as `strace` tells."""
    if not shutil.which("strace"):
        return "-"
    with open(script, "rb") as source:
        ran = subprocess.run(["strace", "-f", "-c", "-U", "calls,name", program, *words], stdin=source,
                             stdout=subprocess.DEVNULL, stderr=subprocess.PIPE)
    return next((line.split()[0] for line in ran.stderr.decode().splitlines() if line.endswith("total")), "-")


def spelled(nodes, patches):
    """A patch file of version 1 whose nodes are one ball. A patch is its tail, its head, its points, its triangles."""
    out = [b"BMTG", struct.pack("<HHII", 1, 0, nodes, len(patches))]
    out += [struct.pack("<iiiII", 0, 0, 0, 100_000, 1)] * nodes
    out += [struct.pack("<IIHH", tail, head, len(points), len(corners)) for tail, head, points, corners in patches]
    for _, _, points, corners in patches:
        out += [struct.pack("<iii", *point) for point in points]
        out += [struct.pack("<HHH", *triangle) for triangle in corners]
    return b"".join(out)


def apart(i):
    """The points of a triangle that shares none with those of other numbers."""
    return [(4 * i, 0, 0), (4 * i + 2, 0, 0), (4 * i, 2, 0)]


ONE = [(0, 1, 2)]


def in_a_fan(i):
    """The points of a triangle of a fan, which has a side in common with the triangles before and behind it."""
    return [(0, 0, 0), (i, 1, 0), (i + 1, 1, 0)]


def many_into_a_node(n):
    """Patches of a triangle lead into a node, and one patch of all these triangles out of it."""
    points = [(0, 0, 0)] + [(i, 1, 0) for i in range(n + 1)]
    fan = [(0, i + 1, i + 2) for i in range(n)]
    return spelled(3, [(0, 1, in_a_fan(i), ONE) for i in range(n)] + [(1, 2, points, fan)])


def chain_of_nodes(n):
    """Each node has a patch of one triangle from the node before it."""
    return spelled(n + 1, [(i, i + 1, apart(0), ONE) for i in range(n)])


def around_an_edge(n):
    """One patch, whose triangles have one edge in common."""
    points = [(0, 0, 0), (0, 0, 8)] + [(i + 1, 1, 0) for i in range(n)]
    return spelled(2, [(0, 1, points, [(0, 1, i + 2) for i in range(n)])])


def root_to_sink(n):
    """Patches of a triangle, each from the root to the sink."""
    return spelled(2, [(0, 1, apart(i), ONE) for i in range(n)])


SHAPES = [many_into_a_node, chain_of_nodes, around_an_edge, root_to_sink]


def tell(program, words, name, script=os.devnull):
    clock, processor = least(program, words, script)
    kept, calls = memory(program, words, script), system_calls(program, words, script)
    print(f"{name:34} {clock:8.3f} {processor:8.3f} {kept:>8} MB {calls:>8} calls", flush=True)


def turns_without_a_candidate():
    """A view that wants all is posted, and turns of the top tier find nothing in the tier below it, which has none."""
    return "open 1\nview 1 0 2 0 65536 1 4294967295\n" + "turn 0\n" * IDLE_TURNS


def views_of_many(moves):
    """64 sessions have views along the strip, and the last one's moves so often."""
    posted = "".join(f"open {i}\nview {i} {1000 * i} 2 400 1000 20 100000\n" for i in range(1, OTHERS + 2))
    return posted + "".join(f"view {OTHERS + 1} {500 * i} 2 400 1000 20 100000\n" for i in range(moves))


def swinging_view(swings):
    """A view goes from one end of the strip to the other, and a tier that holds half of it settles at each."""
    ends = (f"view 1 {4 * COLUMNS * (at % 2)} 2 0 65536 1 4294967295\nsettle\n" for at in range(swings))
    return "open 1\n" + "".join(ends)


def moving_view():
    """A script in which a session's view moves along the strip, settles and prints a frame at each place."""
    places = (f"view 1 {4 * COLUMNS * at // VIEWS} 2 400 1000 20 100000\nsettle\nframe 1\n" for at in range(VIEWS))
    return "open 1\n" + "".join(places)


def shown_views(shows):
    """A driver fetches the whole strip, and then looks so often, each time from another place."""
    looks = "".join(f"view 1 {2 * COLUMNS + i % 7} 2 0 65536 1 {ALL}\nshow 1\n" for i in range(shows))
    return f"open 1\nview 1 {2 * COLUMNS} 2 0 65536 1 {ALL}\nturns 1000000\n" + looks


def given_bodies(bodies):
    """A driver fetches the whole strip, locks it all, and asks for so many bodies."""
    return shown_views(1) + "".join(f"body {i % COLUMNS}\n" for i in range(bodies))


def long_drive(shows):
    """A driver's view goes to and fro over a short strip, with turns and a frame at each place."""
    places = (f"view 1 {397 * i % 1024} 2 0 300 1 {700 + 200 * (i % 3)}\nturns 60\nshow 1\n" for i in range(shows))
    return "open 1\n" + "".join(places)


def tell_play(program, folder, words, name, text, command="play"):
    script = folder / "script.txt"
    script.write_text(text)
    tell(program, [command, *words], name, str(script))


def time_strip(program, folder):
    strip = folder / "strip.bmtg"
    strip.write_bytes(subprocess.run([program, "make", str(COLUMNS)], stdout=subprocess.PIPE, check=True).stdout)
    name = str(strip)
    eye = [str(2 * COLUMNS), "2", "0", "65536", "1", ALL]
    tell(program, ["make", str(COLUMNS)], f"make {COLUMNS}")
    tell(program, ["check", name], "check, strip")
    tell(program, ["base", name], "base, strip")
    tell(program, ["full", name, *eye], "full, strip, all triangles")
    tell(program, ["pick", name, *eye, str(2 * COLUMNS), "2", "100", "0", "0", "-1"], "pick, strip, all triangles")
    tell(program, ["cull", name, *eye, "1", "0", "0", str(2 * COLUMNS)], "cull, strip, the right half")
    tell(program, ["sides", name, "1", "0", "0", str(2 * COLUMNS)], "sides, strip")
    tell(program, ["convert", name, "2"], "convert to version 2, strip")
    tell(program, ["bench", str(COLUMNS)], f"bench {COLUMNS}")
    whole, half = str(300 * COLUMNS), str(150 * COLUMNS)
    tell_play(program, folder, [name, whole], f"play, {VIEWS} views along the strip", moving_view())
    tell_play(program, folder, [name, whole, whole], f"play, {IDLE_TURNS} turns without a candidate",
              turns_without_a_candidate())
    for moves in (0, 60):
        tell_play(program, folder, [name, whole], f"play, 64 views and {moves} more", views_of_many(moves))
    for swings in (SWINGS, 4 * SWINGS):
        tell_play(program, folder, [name, half], f"play, {swings} settlings of half the strip", swinging_view(swings))


def time_driver(program, folder):
    whole, strip, short = str(300 * COLUMNS), str(folder / "strip.bmtg"), folder / "short.bmtg"
    short.write_bytes(subprocess.run([program, "make", "256"], stdout=subprocess.PIPE, check=True).stdout)
    for shows in (0, 100):
        tell_play(program, folder, [strip, whole], f"live, the strip and {shows} shows", shown_views(shows), "live")
    for bodies in (0, 100_000):
        tell_play(program, folder, [strip, whole], f"live, the strip and {bodies} bodies", given_bodies(bodies), "live")
    tell_play(program, folder, [strip, whole, whole], "live, the strip through two tiers", shown_views(0), "live")
    for shows in (100, 10_000):
        tell_play(program, folder, [str(short), "30000", "45000"], f"live, {shows} shows over a short strip",
                  long_drive(shows), "live")


def time_file(program, words):
    name = pathlib.Path(words[0]).name
    tell(program, ["check", words[0]], f"check, {name}")
    tell(program, ["base", words[0]], f"base, {name}")
    tell(program, ["full", *words], f"full, {name}")


def time_growth(program, folder):
    for shape in SHAPES:
        taken = []
        for n in (STEPS, 4 * STEPS):
            file = folder / f"{shape.__name__}.bmtg"
            file.write_bytes(shape(n))
            taken.append(least(program, ["check", str(file)])[1])
        print(f"{shape.__name__:34} {taken[0]:8.4f} {taken[1]:8.4f} ratio {taken[1] / taken[0]:.2f}", flush=True)


def main(words):
    if not words or words[0].startswith("-") or len(words) % 7 != 1:
        raise SystemExit(__doc__)
    program = str(pathlib.Path(words[0]).resolve())
    with tempfile.TemporaryDirectory() as made:
        time_strip(program, pathlib.Path(made))
        time_driver(program, pathlib.Path(made))
        for at in range(1, len(words), 7):
            time_file(program, words[at:at + 7])
        time_growth(program, pathlib.Path(made))


if __name__ == "__main__":
    main(sys.argv[1:])
