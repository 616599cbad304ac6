"""Each format, and inputs that are wrong: the first fault is named with its place, and nothing is written."""
import struct
import unittest

import formats
import meshes
from importing import ImportCase, run_importer


class Formats(ImportCase):
    def test_each_format(self):
        mesh = meshes.torus(24, 12)
        for name, write in formats.WRITERS.items():
            with self.subTest(name=name):
                (self.folder / "mesh.bmtg").unlink(missing_ok=True)
                (self.folder / "mesh.json").unlink(missing_ok=True)
                _, told = self.imported(mesh, "--triangles", 64, write=write, name=name)
                self.assertEqual((told["mesh"]["points"], told["mesh"]["triangles"]), (288, 576))
                (self.folder / name).unlink()

    def test_polygons_are_cut_into_triangles(self):
        source = self.folder / "cube.obj"
        places = [(x, y, z) for z in (0, 1) for y in (0, 1) for x in (0, 1)]
        faces = [(1, 3, 4, 2), (5, 6, 8, 7), (1, 2, 6, 5), (3, 7, 8, 4), (1, 5, 7, 3), (2, 4, 8, 6)]
        source.write_text("".join(f"v {x} {y} {z}\n" for x, y, z in places)
                          + "".join("f " + " ".join(map(str, face)) + "\n" for face in faces))
        self.assertEqual(run_importer(source, self.folder / "cube.bmtg").returncode, 0)
        told = (self.folder / "cube.json").read_text()
        self.assertIn('"mesh": {"points": 8, "triangles": 12}', told)
        self.assertIn('"base": {"triangles": 12, "open_edges": 0}', told)

    def test_node_that_mirrors_keeps_the_outside(self):
        points, triangles = meshes.sphere(6)
        mirror = [-1.0, 0, 0, 0, 0, 1.0, 0, 0, 0, 0, 1.0, 0, 0, 0, 0, 1.0]
        write = lambda path, mesh: formats.gltf(path, (points, triangles), mirror)
        mirrored = [(-x, y, z) for x, y, z in points], [(a, c, b) for a, b, c in triangles]
        self.imported(mirrored, write=write, name="m.gltf")

    def test_offset_and_unit_bring_the_points_back(self):
        points, triangles = meshes.sphere(10)
        file, told = self.imported(([(x + 400_000, y - 30, z) for x, y, z in points], triangles), "--triangles", 64)
        places = {tuple(offset + told["unit"] * value for value, offset in zip(point, told["offset"]))
                  for triangle in file.finest() for point in triangle}
        # Singles have steps of 1/32 at 400,000.
        for x, y, z in points:
            self.assertTrue(any(abs(x + 400_000 - px) < 0.04 and abs(y - 30 - py) < 0.001 and abs(z - pz) < 0.001
                                for px, py, pz in places))


class Cleaning(ImportCase):
    def test_flat_and_doubled_triangles_are_dropped(self):
        points, triangles = meshes.sphere(8)
        doubled = triangles + [triangles[5], triangles[9][1:] + triangles[9][:1], (0, 0, 4), (3, 4, 3)]
        _, told = self.imported((points + [(1.0, 2.0, 3.0)], doubled), "--triangles", 32)
        self.assertEqual(told["dropped"], {"flat": 2, "doubled": 2, "joined": 0, "unused": 1, "thin_faces": 0})

    def test_points_are_joined_by_the_grid(self):
        mesh = meshes.torus(20, 10)
        apart = [mesh[0][corner] for triangle in mesh[1] for corner in triangle]
        triangles = [(3 * i, 3 * i + 1, 3 * i + 2) for i in range(len(mesh[1]))]
        _, told = self.imported((apart, triangles), "--triangles", 64)
        self.assertEqual((told["mesh"]["points"], told["dropped"]["joined"]), (200, 1000))
        self.assertEqual(told["base"]["open_edges"], 0)

    def test_lines_are_dropped_and_counted(self):
        source = self.folder / "lines.obj"
        source.write_text("v 0 0 0\nv 1 0 0\nv 0 1 0\nf 1 2 3\nl 1 2\n")
        self.assertEqual(run_importer(source, self.folder / "lines.bmtg").returncode, 0)


class Wrong(ImportCase):
    def written(self, name, text):
        path = self.folder / name
        path.write_text(text)
        return path

    def test_no_number(self):
        for value, what in (("nan", "no number"), ("inf", "infinite")):
            mesh = ([(0.0, 0.0, 0.0), (1.0, float(value), 0.0), (0.0, 1.0, 0.0)], [(0, 1, 2)])
            formats.ply(self.folder / "mesh.ply", mesh)
            line = self.refused(self.folder / "mesh.ply")
            self.assertIn("point 1: y is", line)
            self.assertIn(what, line)

    def test_huge_coordinates(self):
        points, triangles = meshes.sphere(8)
        for scale in (1e30, 1e-30):
            with self.subTest(scale=scale):
                _, told = self.imported(([tuple(value * scale for value in point) for point in points], triangles))
                self.assertEqual(told["mesh"]["triangles"], len(triangles))
        far = self.written("far.off", "OFF\n3 1 0\n0 0 0\n1e39 0 0\n0 1 0\n3 0 1 2\n")
        self.assertIn("point 1: x is", self.refused(far))

    def test_all_flat(self):
        flat = ([(1e30, 0.0, 0.0), (1e30, 1.0, 0.0), (1e30, 0.0, 1.0), (-1e30, 0.0, 0.0)], [(0, 1, 2)])
        formats.ply(self.folder / "mesh.ply", flat)
        self.assertEqual(run_importer(self.folder / "mesh.ply", self.folder / "m.bmtg").returncode, 0)
        self.assertIn("all 1 triangles are flat", self.refused(self.folder / "mesh.ply", "--unit", "1000000"))

    def test_unit_that_is_too_small(self):
        formats.ply(self.folder / "mesh.ply", meshes.sphere(4))
        self.assertIn("doesn't fit the grid", self.refused(self.folder / "mesh.ply", "--unit", "0.000001"))

    def test_corner_that_is_no_point(self):
        path = self.written("wrong.ply", "ply\nformat ascii 1.0\nelement vertex 3\nproperty float x\nproperty float y\n"
                            "property float z\nelement face 1\nproperty list uchar int vertex_indices\nend_header\n"
                            "0 0 0\n1 0 0\n0 1 0\n3 0 1 7\n")
        self.assertIn("wrong.ply", self.refused(path))

    def test_empty_files(self):
        for name in ("m.ply", "m.obj", "m.stl", "m.off", "m.gltf", "m.glb"):
            with self.subTest(name=name):
                self.assertIn(name, self.refused(self.written(name, "")))

    def test_cut_off_files(self):
        for name, write in formats.WRITERS.items():
            with self.subTest(name=name):
                path = self.folder / name
                write(path, meshes.sphere(6))
                path.write_bytes(path.read_bytes()[: path.stat().st_size // 3])
                run = run_importer(path, self.folder / "cut.bmtg")
                # Texts that end early may be meshes with fewer triangles; the program itself never breaks.
                self.assertIn(run.returncode, (0, 1), run.stderr)
                self.assertEqual(run.returncode == 0, (self.folder / "cut.bmtg").exists())
                (self.folder / "cut.bmtg").unlink(missing_ok=True)

    def test_points_alone(self):
        path = self.written("points.ply", "ply\nformat ascii 1.0\nelement vertex 2\nproperty float x\n"
                            "property float y\nproperty float z\nend_header\n0 0 0\n1 0 0\n")
        self.assertIn("points.ply", self.refused(path))

    def test_names(self):
        self.assertIn("missing.ply", self.refused(self.folder / "missing.ply"))
        other = self.written("mesh.xyzw", "no mesh")
        self.assertIn("mesh.xyzw", self.refused(other))
        formats.ply(self.folder / "mesh.ply", meshes.sphere(4))
        run = run_importer(self.folder / "mesh.ply", self.folder / "no_folder" / "out.bmtg")
        self.assertEqual(run.returncode, 1)
        self.assertIn("can't be written", run.stderr)

    def test_words(self):
        for line in ("", "a.ply", "a.ply b.bmtg c", "--unit 0 a b", "--unit nan a b", "--triangles 7 a b", "a b --unit",
                     "--triangles +9 a b", "--version 3 a b", "--wrong a b", "a.ply a.ply"):
            with self.subTest(line=line):
                run = run_importer(*line.split())
                self.assertEqual((run.returncode, run.stdout), (2, ""))


if __name__ == "__main__":
    unittest.main()
