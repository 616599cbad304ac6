"""Shapes of every kind: each is accepted, its finest frame is the input, and each frame has the input's open edges."""
import unittest

import meshes
from importing import ImportCase


class Shapes(ImportCase):
    def refines(self, mesh, *options, base):
        """An import whose base has at most so many triangles."""
        file, told = self.imported(mesh, *options)
        self.assertLessEqual(told["base"]["triangles"], base)
        return file, told

    def keeps_half(self, told):
        """Each level keeps at most 0.55 of the one below, until there are 2 percent of the input."""
        enough = 0.02 * told["mesh"]["triangles"]
        for level in told["levels"]:
            if level["triangles_before"] > enough:
                self.assertLessEqual(level["triangles"], max(enough, 0.55 * level["triangles_before"]))

    def test_sphere(self):
        _, told = self.refines(meshes.sphere(40), "--triangles", 64, base=128)
        self.keeps_half(told)

    def test_torus(self):
        _, told = self.refines(meshes.torus(90, 30), "--triangles", 100, base=110)
        self.keeps_half(told)

    def test_box_with_handles(self):
        self.refines(meshes.box_with_handles(12), "--triangles", 32, base=120)

    def test_terrain_with_holes(self):
        _, told = self.refines(meshes.terrain(50, [(5, 5, 4), (30, 12, 9), (20, 38, 1)]), "--triangles", 64, base=420)
        self.assertEqual(told["base"]["open_edges"], 4 * (50 + 4 + 9 + 1))

    def test_open_sheet(self):
        _, told = self.refines(meshes.flat_sheet(40), "--triangles", 64, base=400)
        self.assertEqual(told["base"]["open_edges"], 160)

    def test_soup_stays_as_it_is(self):
        file, told = self.imported(meshes.soup(meshes.sphere(16)), "--triangles", 64)
        self.assertEqual(len(file.nodes), 2)
        self.assertEqual(told["base"]["open_edges"], 3 * told["mesh"]["triangles"])

    def test_sheet_with_two_faces_keeps_its_rim(self):
        for other_diagonal in (False, True):
            with self.subTest(other_diagonal=other_diagonal):
                side = 24
                mesh = meshes.two_faces(side, other_diagonal)
                file, told = self.refines(mesh, "--triangles", 64, base=500)
                self.assertEqual(told["base"]["open_edges"], 0)
                unit, offset = told["unit"], told["offset"]
                corners = {tuple(round((value - middle) / unit) for value, middle in zip(point, offset))
                           for point in mesh[0] if point[0] in (0, side) or point[1] in (0, side)}
                gone = corners - {corner for triangle in file.base() for corner in triangle}
                self.assertEqual(len(gone), 0)

    def test_one_triangle(self):
        file, _ = self.imported(([(0.0, 0.0, 0.0), (1.0, 0.0, 0.0), (0.0, 1.0, 0.0)], [(0, 1, 2)]))
        self.assertEqual((len(file.nodes), len(file.patches)), (2, 1))

    def test_two_triangles(self):
        points = [(0.0, 0.0, 0.0), (1.0, 0.0, 0.0), (1.0, 1.0, 0.0), (0.0, 1.0, 0.0)]
        self.imported((points, [(0, 1, 2), (0, 2, 3)]))
        self.imported((points, [(0, 1, 2), (0, 2, 1)]))

    def test_three_sheets_at_one_edge(self):
        self.imported(meshes.three_wings(16), "--triangles", 32)

    def test_cubes_that_meet_at_edges(self):
        self.imported(meshes.stairs(8), "--triangles", 32)

    def test_spheres_that_meet_at_a_point(self):
        points, triangles = meshes.sphere(16)
        above = ([(x, y, z + 20) for x, y, z in points], triangles)
        self.imported(meshes.joined((points, triangles), above), "--triangles", 32)

    def test_many_small_pieces(self):
        piece = meshes.sphere(4, 1.0)
        moved = [([(x + 3 * i, y + 3 * j, z) for x, y, z in piece[0]], piece[1]) for i in range(10) for j in range(10)]
        self.imported(meshes.joined(*moved), "--triangles", 64)

    def test_surface_turned_inside_out(self):
        self.refines(meshes.turned(meshes.sphere(20)), "--triangles", 32, base=64)


if __name__ == "__main__":
    unittest.main()
