"""Writes a mesh as a file of each format that the importer reads."""
import base64
import json
import struct


def ply(path, mesh, binary=True, kind="float"):
    points, triangles = mesh
    form = "binary_little_endian" if binary else "ascii"
    axes = "".join(f"property {kind} {axis}\n" for axis in "xyz")
    head = (f"ply\nformat {form} 1.0\nelement vertex {len(points)}\n{axes}"
            f"element face {len(triangles)}\nproperty list uchar int vertex_indices\nend_header\n")
    if binary:
        body = b"".join(struct.pack("<3f", *point) for point in points)
        body += b"".join(struct.pack("<B3i", 3, *triangle) for triangle in triangles)
    else:
        lines = [" ".join(repr(value) for value in point) for point in points]
        lines += [" ".join(map(str, (3, *triangle))) for triangle in triangles]
        body = "".join(line + "\n" for line in lines).encode()
    path.write_bytes(head.encode() + body)


def ply_text(path, mesh):
    ply(path, mesh, binary=False)


def obj(path, mesh):
    points, triangles = mesh
    lines = ["v " + " ".join(repr(value) for value in point) for point in points]
    lines += ["f " + " ".join(str(corner + 1) for corner in triangle) for triangle in triangles]
    path.write_text("".join(line + "\n" for line in lines))


def stl(path, mesh):
    points, triangles = mesh
    body = b"".join(struct.pack("<12fH", 0, 0, 0, *(value for corner in triangle for value in points[corner]), 0)
                    for triangle in triangles)
    path.write_bytes(b"binary".ljust(80) + struct.pack("<I", len(triangles)) + body)


def stl_text(path, mesh):
    points, triangles = mesh
    lines = ["solid mesh"]
    for triangle in triangles:
        lines += ["facet normal 0 0 0", "outer loop"]
        lines += ["vertex " + " ".join(repr(value) for value in points[corner]) for corner in triangle]
        lines += ["endloop", "endfacet"]
    path.write_text("\n".join(lines + ["endsolid mesh"]) + "\n")


def off(path, mesh):
    points, triangles = mesh
    lines = ["OFF", f"{len(points)} {len(triangles)} 0"]
    lines += [" ".join(repr(value) for value in point) for point in points]
    lines += [" ".join(map(str, (3, *triangle))) for triangle in triangles]
    path.write_text("\n".join(lines) + "\n")


def gltf(path, mesh, matrix=None):
    """With its bytes in the text; `matrix` is the place of its node, by columns."""
    points, triangles = mesh
    places = b"".join(struct.pack("<3f", *point) for point in points)
    corners = b"".join(struct.pack("<3I", *triangle) for triangle in triangles)
    node = {"mesh": 0} if matrix is None else {"mesh": 0, "matrix": matrix}
    columns = list(zip(*points))
    path.write_text(json.dumps({
        "asset": {"version": "2.0"}, "scene": 0, "scenes": [{"nodes": [0]}], "nodes": [node],
        "meshes": [{"primitives": [{"attributes": {"POSITION": 0}, "indices": 1}]}],
        "buffers": [{"byteLength": len(places + corners),
                     "uri": "data:application/octet-stream;base64," + base64.b64encode(places + corners).decode()}],
        "bufferViews": [{"buffer": 0, "byteOffset": 0, "byteLength": len(places)},
                        {"buffer": 0, "byteOffset": len(places), "byteLength": len(corners)}],
        "accessors": [{"bufferView": 0, "componentType": 5126, "count": len(points), "type": "VEC3",
                       "min": [min(column) for column in columns], "max": [max(column) for column in columns]},
                      {"bufferView": 1, "componentType": 5125, "count": 3 * len(triangles), "type": "SCALAR"}]}))


WRITERS = {"binary.ply": ply, "text.ply": ply_text, "mesh.obj": obj, "binary.stl": stl, "text.stl": stl_text,
           "mesh.off": off, "mesh.gltf": gltf}
