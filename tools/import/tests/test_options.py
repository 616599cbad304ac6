"""Options, limits of the format, measuring, and what an interrupted run leaves."""
import json
import os
import pathlib
import pty
import signal
import subprocess
import time
import unittest

import formats
import meshes
from importing import IMPORTER, ImportCase, run_importer


class Options(ImportCase):
    def test_version_two(self):
        for mesh in (meshes.sphere(30), meshes.terrain(30)):
            file, told = self.imported(mesh, "--version", 2, "--triangles", 64)
            self.assertEqual((file.version, told["version"], told["notes"]), (2, 2, []))
            (self.folder / "mesh.bmtg").unlink()
            (self.folder / "mesh.json").unlink()

    def test_version_two_splits_patches_that_spread_too_wide(self):
        # 2,500 units a square and 100,000 in all: no patch may have the whole sheet, and no triangle is too wide.
        file, told = self.imported(meshes.terrain(40), "--version", 2, "--unit", 1 / 2500, "--triangles", 4096)
        self.assertEqual((file.version, told["notes"]), (2, []))
        self.assertGreater(len(file.bodies), len(file.nodes) - 1)

    def test_version_one_where_a_triangle_spans_too_much(self):
        file, told = self.imported(meshes.sphere(3), "--version", 2, "--unit", 1e-4)
        self.assertEqual((file.version, told["version"]), (1, 1))
        self.assertIn("a triangle spans", told["notes"][0])

    def test_unit(self):
        file, told = self.imported(meshes.cubes({(0, 0, 0), (1, 0, 0)}), "--unit", 0.25)
        self.assertEqual((told["unit"], told["offset"]), (0.25, [1, 0.5, 0.5]))
        self.assertEqual(max(point for triangle in file.finest() for point in triangle), (4, 2, 2))

    def test_more_patches_than_the_format_has(self):
        source, target = self.folder / "mesh.ply", self.folder / "mesh.bmtg"
        formats.ply(source, meshes.terrain(300))
        self.assertEqual(run_importer("--triangles", 8, source, target).returncode, 0)
        told = json.loads((self.folder / "mesh.json").read_text())
        self.assertIn("at most 65536 patches", told["notes"][0])
        self.assertGreater(told["triangles_a_patch"], 8)
        self.assertLessEqual(told["file"]["patches"], 65_536)

    def test_threads_make_the_same_file(self):
        source = self.folder / "mesh.ply"
        formats.ply(source, meshes.torus(60, 40))
        for threads in (1, 3):
            run_importer("--threads", threads, "--triangles", 64, source, self.folder / f"{threads}.bmtg")
        self.assertEqual((self.folder / "1.bmtg").read_bytes(), (self.folder / "3.bmtg").read_bytes())

    def test_measure_finds_what_the_file_says(self):
        for mesh in (meshes.sphere(40), meshes.terrain(60), meshes.box_with_handles(10)):
            _, told = self.imported(mesh, "--measure", "--triangles", 64)
            frames = told["measured"]
            self.assertEqual((frames[0]["told"], frames[0]["triangles"]), (0, told["mesh"]["triangles"]))
            self.assertEqual(frames[-1]["triangles"], told["base"]["triangles"])
            for frame in frames:
                # Rounding to the grid moves a point by half the diagonal of a unit.
                self.assertLessEqual(frame["greatest"], frame["told"] + 0.87)
                self.assertLessEqual(frame["mean"], frame["nearly_all"])
            (self.folder / "mesh.bmtg").unlink()
            (self.folder / "mesh.json").unlink()

    def test_quiet_and_told(self):
        source = self.folder / "mesh.ply"
        formats.ply(source, meshes.sphere(10))
        self.assertEqual(run_importer("--quiet", source, self.folder / "a.bmtg").stdout, "")
        lines = run_importer(source, self.folder / "a.bmtg").stdout
        self.assertIn("mesh: 182 points, 360 triangles", lines)
        self.assertIn("base:", lines)


    def test_line_on_a_terminal(self):
        source = self.folder / "mesh.ply"
        formats.ply(source, meshes.sphere(20))
        for quiet, shown in ((), True), (("--quiet",), False):
            ours, terminal = pty.openpty()
            words = [IMPORTER, *quiet, source, self.folder / "a.bmtg"]
            run = subprocess.run(words, stdout=subprocess.PIPE, stderr=terminal)
            os.close(terminal)
            try:
                text = os.read(ours, 65_536)
            except OSError:
                text = b""
            os.close(ours)
            self.assertEqual(run.returncode, 0)
            self.assertEqual(b"level 0 [########################] 1 of 1 regions" in text, shown, text)


class Interrupted(ImportCase):
    def test_leaves_no_half_file(self):
        source, target = self.folder / "mesh.ply", self.folder / "mesh.bmtg"
        formats.ply(source, meshes.terrain(200))
        target.write_bytes(b"what was there before")
        for part in range(8):
            run = subprocess.Popen([IMPORTER, "--triangles", "64", source, target], stdout=subprocess.PIPE,
                                   stderr=subprocess.PIPE)
            time.sleep(0.05 * part)
            run.send_signal(signal.SIGTERM if part % 2 else signal.SIGINT)
            run.communicate()
            left = sorted(it.name for it in self.folder.iterdir())
            if run.returncode != 0:
                # Before the program is set up the system ends it.
                ends = [sign * number for number in (signal.SIGINT, signal.SIGTERM) for sign in (1, -1)]
                self.assertIn(run.returncode, [end + 128 if end > 0 else end for end in ends])
                self.assertEqual(left, ["mesh.bmtg", "mesh.ply"])
                self.assertEqual(target.read_bytes(), b"what was there before")
            else:
                self.assertEqual(left, ["mesh.bmtg", "mesh.json", "mesh.ply"])
                break

    def test_leaves_nothing_where_the_disk_is_full(self):
        full = pathlib.Path("/dev/full")
        if not full.exists():
            self.skipTest("there is no /dev/full")
        source, target = self.folder / "mesh.ply", self.folder / "mesh.bmtg"
        formats.ply(source, meshes.torus(60, 40))
        # The shell's limit stands for a disk: 8 blocks of 512 or 1,024 bytes.
        run = subprocess.run(["bash", "-c", 'trap "" XFSZ; ulimit -f 8; exec "$@"', "-", IMPORTER, source, target],
                             stdout=subprocess.PIPE, stderr=subprocess.PIPE, text=True)
        self.assertEqual(run.returncode, 1)
        self.assertIn("can't be written", run.stderr)
        self.assertEqual([it.name for it in self.folder.iterdir()], ["mesh.ply"])


if __name__ == "__main__":
    unittest.main()
