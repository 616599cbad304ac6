"""Runs the importer and the checker, and holds what they made against the mesh that went in."""
import itertools
import json
import os
import pathlib
import subprocess
import sys
import unittest

import formats
from patch_files import PatchFile, in_grid, nets_of, turned_to_least

TOOLS = pathlib.Path(__file__).resolve().parent.parent.parent
IMPORTER = os.environ.get("BMTG_IMPORT", "bmtg-import")


def start_of_program():
    """The words that start the checker: BMTG_CHECKER, or the program that the gate's scripts take."""
    if "BMTG_CHECKER" in os.environ:
        return [os.environ["BMTG_CHECKER"]], None
    sys.path.insert(0, str(TOOLS))
    import readme_runs
    return readme_runs.START, readme_runs.FOLDER


START, FOLDER = start_of_program()


def viewer(*words):
    """What the proved program prints, where it ends well."""
    run = subprocess.run([*START, *map(str, words)], cwd=FOLDER, stdout=subprocess.PIPE, stderr=subprocess.PIPE,
                         text=True)
    assert run.returncode == 0, f"{words[0]} says {run.stderr.strip()}"
    return run.stdout.splitlines()


def run_importer(*words):
    return subprocess.run([IMPORTER, *map(str, words)], stdout=subprocess.PIPE, stderr=subprocess.PIPE, text=True)


def views_of(file):
    """Fourteen eyes round the mesh, from near and far, with their thresholds: its six sides and eight corners."""
    x, y, z, radius, _ = file.nodes[0]
    greatest = max([error for *_, error in file.nodes[1:]] + [1])
    directions = [d for d in itertools.product((-1, 0, 1), repeat=3) if sum(map(abs, d)) in (1, 3)]
    for number, direction in enumerate(directions):
        reach = radius * (1 + number % 3) // 2
        eye = [max(-2_097_152, min(2_097_152, centre + part * reach)) for centre, part in zip((x, y, z), direction)]
        distance = max(1, reach)
        # Scores from that of the coarsest step down to a hundredth of it.
        threshold = max(1, min(65_535, 65_536 * greatest // distance // (1 + 7 * number)))
        yield [*eye, 65_536, threshold, 4_294_967_295]


class ImportCase(unittest.TestCase):
    """A folder for each test, and the checks that each import has to pass."""

    def setUp(self):
        import tempfile
        self.kept = tempfile.TemporaryDirectory()
        self.addCleanup(self.kept.cleanup)
        self.folder = pathlib.Path(self.kept.name)

    def imported(self, mesh, *options, write=formats.ply, name="mesh.ply"):
        """Imports a mesh, asks the checker and 14 views, and returns the file and what was told."""
        source, target = self.folder / name, self.folder / "mesh.bmtg"
        write(source, mesh)
        run = run_importer(*options, source, target)
        self.assertEqual((run.returncode, run.stderr), (0, ""))
        told = json.loads((self.folder / "mesh.json").read_text())
        file = PatchFile(target)
        self.check(file, in_grid(mesh, told), told, target)
        self.assertEqual(sorted(it.name for it in self.folder.iterdir()), sorted({name, "mesh.bmtg", "mesh.json"}))
        return file, told

    def check(self, file, wanted, told, target):
        nets = nets_of(wanted)
        accepted = viewer("check", target)[0].split()
        self.assertEqual(accepted[0], "accepted")
        self.assertEqual(int(accepted[-1]), len(nets))
        finest = file.finest()
        self.assertEqual(len(finest), len(wanted), "the finest frame has other triangles than the input")
        self.same({turned_to_least(triangle) for triangle in finest}, wanted, "the finest frame has other triangles")
        self.same(nets_of(file.base()), nets, "the base has other open edges than the input")
        self.assertEqual(told["base"], {"triangles": len(file.base()), "open_edges": len(nets)})
        self.assertEqual(told["file"]["nodes"], len(file.nodes))
        self.assertEqual(told["file"]["patches"], len(file.patches))
        self.assertTrue(all(len(body) <= told["triangles_a_patch"] for body in file.bodies))
        for view in views_of(file):
            frame = viewer("full", target, *view)
            self.assertEqual(int(frame[0].split()[-1]), len(nets))
            numbers = (list(map(int, line.split())) for line in frame[4:])
            triangles = [tuple(zip(*[iter(it)] * 3)) for it in numbers]
            self.same(nets_of(triangles), nets, f"view {view} has other open edges")

    def same(self, found, wanted, what):
        """As assertEqual, without the difference of two long lists, which takes minutes."""
        if found != wanted:
            self.fail(what)

    def refused(self, source, *options):
        """The line that the importer refuses a file with; nothing is written."""
        before = sorted(self.folder.iterdir())
        run = run_importer(*options, source, self.folder / "refused.bmtg")
        self.assertEqual((run.returncode, run.stdout), (1, ""))
        self.assertEqual(sorted(self.folder.iterdir()), before)
        lines = run.stderr.splitlines()
        self.assertEqual(len(lines), 1, run.stderr)
        return lines[0]
