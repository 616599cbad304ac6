"""heights_to_ply.py: each kind of file, closed and open, with gaps; and what comes of a mesh of heights."""
import json
import pathlib
import subprocess
import sys
import unittest

from importing import ImportCase, run_importer, viewer
from patch_files import PatchFile, nets_of

SCRIPT = pathlib.Path(__file__).resolve().parent.parent / "heights_to_ply.py"


def python_with_packages():
    """This Python or the system's, if it has numpy and PIL; else None."""
    for python in (sys.executable, "/usr/bin/python3"):
        try:
            if subprocess.run([python, "-c", "import numpy, PIL"], stderr=subprocess.DEVNULL).returncode == 0:
                return python
        except OSError:
            pass
    return None


PYTHON = python_with_packages()
HEIGHTS = "numpy.fromfunction(lambda i, j: 20 * numpy.sin(i / 6) * numpy.cos(j / 5) + 30, (40, 50))"


@unittest.skipIf(PYTHON is None, "python3-numpy or python3-pil isn't there")
class Heights(ImportCase):
    def heights(self, name, code):
        """Writes a file of heights by a line of numpy, in which `h` are the heights and `path` is the file's name."""
        path = self.folder / name
        lines = f"import numpy\nfrom PIL import Image\nh = {HEIGHTS}\npath = {str(path)!r}\n{code}"
        subprocess.run([PYTHON, "-c", lines], check=True)
        return path

    def mesh(self, source, *options):
        """The mesh of a file of heights, imported: the file, and how many open edges its base has."""
        target = self.folder / "heights.ply"
        run = subprocess.run([PYTHON, SCRIPT, *map(str, options), source, target], stdout=subprocess.PIPE,
                             stderr=subprocess.PIPE, text=True)
        self.assertEqual((run.returncode, run.stderr), (0, ""))
        run = run_importer("--triangles", 64, target, self.folder / "heights.bmtg")
        self.assertEqual((run.returncode, run.stderr), (0, ""))
        told = json.loads((self.folder / "heights.json").read_text())
        self.assertEqual((told["dropped"]["flat"], told["dropped"]["doubled"], told["dropped"]["joined"]), (0, 0, 0))
        accepted = viewer("check", self.folder / "heights.bmtg")[0].split()
        self.assertEqual(int(accepted[-1]), told["base"]["open_edges"])
        file = PatchFile(self.folder / "heights.bmtg")
        self.upwards(file, told)
        return file, told

    def upwards(self, file, told):
        """The volume below the triangles, above the floor, is above 0: their outside is up."""
        volume = 0
        for a, b, c in file.finest():
            volume += (a[2] + b[2] + c[2]) * ((b[0] - a[0]) * (c[1] - a[1]) - (c[0] - a[0]) * (b[1] - a[1]))
        low = min(point[2] for triangle in file.finest() for point in triangle)
        area = sum((b[0] - a[0]) * (c[1] - a[1]) - (c[0] - a[0]) * (b[1] - a[1]) for a, b, c in file.finest())
        self.assertGreater(volume - 3 * low * area, 0)

    def test_each_kind_of_file(self):
        kinds = {"h.npy": "numpy.save(path, h)", "h.npz": "numpy.savez(path, heights=h, other=3)",
                 "h.png": "Image.fromarray((h * 100).astype('uint16')).save(path)",
                 "h.asc": "numpy.savetxt(path, h, comments='', header='ncols 50\\nnrows 40\\nxllcorner 7\\n"
                          "yllcorner 8\\ncellsize 2\\nNODATA_value -1')"}
        for name, code in kinds.items():
            with self.subTest(name=name):
                _, told = self.mesh(self.heights(name, code))
                self.assertEqual(told["base"]["open_edges"], 0)
                self.assertEqual(told["mesh"]["triangles"], 2 * 39 * 49 + 3 * 2 * (39 + 49))
                self.assertLess(told["base"]["triangles"], 100)

    def test_open(self):
        _, told = self.mesh(self.heights("h.npy", "numpy.save(path, h)"), "--open", "--step", 30, "--scale", 2)
        self.assertEqual((told["base"]["open_edges"], told["mesh"]["triangles"]), (2 * (39 + 49), 2 * 39 * 49))

    def test_gaps(self):
        code = "h[:3, :4] = numpy.nan; h[20:25, 30] = numpy.nan; numpy.save(path, h)"
        source = self.heights("h.npy", code)
        _, told = self.mesh(source)
        self.assertEqual(told["base"]["open_edges"], 0)
        _, told = self.mesh(source, "--open")
        self.assertEqual(told["base"]["open_edges"], 2 * (39 + 49) + 2 * (6 + 2))

    def test_line_of_the_readme(self):
        """The heights of Debian's python-matplotlib-data, by the line that README shows."""
        lines = (SCRIPT.parent / "README.md").read_text().splitlines()
        words = next(line for line in lines if line.startswith("    tools/import/heights_to_ply.py")).split()
        source = pathlib.Path(words[-2])
        if not source.exists():
            self.skipTest("python-matplotlib-data isn't there")
        _, told = self.mesh(source, *words[1:-2])
        self.assertEqual(told["base"]["open_edges"], 0)
        self.assertEqual(told["read"]["triangles"], 2 * 343 * 402 + 3 * 2 * (343 + 402))
        self.assertLessEqual(told["base"]["triangles"], 0.02 * told["mesh"]["triangles"])

    def test_what_is_wrong(self):
        cases = {"a.asc": "open(path, 'w').write('ncols 3\\nnrows 2\\ncellsize 1\\n1 2 3 4 5\\n')",
                 "b.asc": "open(path, 'w').write('ncols 3\\ncellsize 1\\n1 2 3\\n')",
                 "c.npy": "numpy.save(path, numpy.zeros((2, 2, 2)))", "d.npy": "open(path, 'w')",
                 "e.npz": "numpy.savez(path, a=h, b=h)", "f.png": "Image.new('RGB', (4, 4)).save(path)",
                 "g.npy": "numpy.save(path, numpy.full((5, 5), numpy.nan))", "h.xyz": "open(path, 'w')"}
        for name, code in cases.items():
            with self.subTest(name=name):
                source = self.heights(name, code)
                run = subprocess.run([PYTHON, SCRIPT, source, self.folder / "no.ply"], stderr=subprocess.PIPE,
                                     text=True)
                self.assertEqual(run.returncode, 1)
                self.assertEqual(len(run.stderr.splitlines()), 1, run.stderr)
                self.assertFalse((self.folder / "no.ply").exists())


if __name__ == "__main__":
    unittest.main()
