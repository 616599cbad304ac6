#include "read_mesh.h"

#include <assimp/postprocess.h>
#include <assimp/scene.h>

#include <assimp/Importer.hpp>
#include <cmath>
#include <limits>

namespace bmtg {
namespace {

std::string name_of(const aiScene& scene, unsigned mesh) {
    std::string name = "mesh " + std::to_string(mesh);
    if (scene.mMeshes[mesh]->mName.length > 0) name += std::string(" (") + scene.mMeshes[mesh]->mName.C_Str() + ")";
    return name;
}

// Coordinates are looked at before a node's place moves them, so that the fault names what stands in the file.
void look_at_points(const aiScene& scene, unsigned number) {
    const aiMesh& mesh = *scene.mMeshes[number];
    for (unsigned i = 0; i < mesh.mNumVertices; ++i) {
        for (int axis = 0; axis < 3; ++axis) {
            const float value = mesh.mVertices[i][axis];
            if (!std::isfinite(value)) {
                throw Fault(name_of(scene, number) + ", point " + std::to_string(i) + ": " + "xyz"[axis] + " is " +
                            (std::isnan(value) ? "no number" : "infinite, or beyond what 32 bits hold"));
            }
        }
    }
}

// Whether some face of the scene has more than three corners; corners are looked at too.
bool has_polygons(const aiScene& scene) {
    bool found = false;
    for (unsigned number = 0; number < scene.mNumMeshes; ++number) {
        const aiMesh& mesh = *scene.mMeshes[number];
        look_at_points(scene, number);
        for (unsigned face = 0; face < mesh.mNumFaces; ++face) {
            found = found || mesh.mFaces[face].mNumIndices > 3;
            for (unsigned i = 0; i < mesh.mFaces[face].mNumIndices; ++i) {
                const unsigned corner = mesh.mFaces[face].mIndices[i];
                if (corner >= mesh.mNumVertices) {
                    throw Fault(name_of(scene, number) + ", face " + std::to_string(face) + ": corner " +
                                std::to_string(i) + " is point " + std::to_string(corner) + ", and there are " +
                                std::to_string(mesh.mNumVertices));
                }
            }
        }
    }
    return found;
}

// Adds a mesh at its place. A place that mirrors turns each triangle round, so that the outside stays outside.
void add_mesh(const aiScene& scene, unsigned number, const aiMatrix4x4& place, RawMesh& raw) {
    const aiMesh& mesh = *scene.mMeshes[number];
    const auto first = static_cast<std::uint64_t>(raw.points.size());
    if (first + mesh.mNumVertices > std::numeric_limits<std::uint32_t>::max()) {
        throw Fault(name_of(scene, number) + ": the file has more points than 32 bits count");
    }
    for (unsigned i = 0; i < mesh.mNumVertices; ++i) {
        const aiVector3D at = place * mesh.mVertices[i];
        if (!std::isfinite(at.x) || !std::isfinite(at.y) || !std::isfinite(at.z)) {
            throw Fault(name_of(scene, number) + ", point " + std::to_string(i) +
                        ": its node moves it beyond what 32 bits hold");
        }
        raw.points.push_back({at.x, at.y, at.z});
    }
    const bool mirrors = place.Determinant() < 0;
    for (unsigned face = 0; face < mesh.mNumFaces; ++face) {
        if (mesh.mFaces[face].mNumIndices != 3) {
            ++raw.thin_faces;
            continue;
        }
        const unsigned* corner = mesh.mFaces[face].mIndices;
        const auto base = static_cast<std::uint32_t>(first);
        raw.triangles.push_back({{base + corner[0], base + corner[mirrors ? 2 : 1], base + corner[mirrors ? 1 : 2]}});
    }
}

void add_node(const aiScene& scene, const aiNode& node, const aiMatrix4x4& above, RawMesh& raw) {
    const aiMatrix4x4 place = above * node.mTransformation;
    for (unsigned i = 0; i < node.mNumMeshes; ++i) add_mesh(scene, node.mMeshes[i], place, raw);
    for (unsigned i = 0; i < node.mNumChildren; ++i) add_node(scene, *node.mChildren[i], place, raw);
}

}  // namespace

RawMesh read_mesh(const std::string& path) {
    Assimp::Importer importer;
    const aiScene* scene = importer.ReadFile(path, 0);
    if (scene == nullptr) throw Fault(path + ": " + importer.GetErrorString());
    try {
        if (has_polygons(*scene)) scene = importer.ApplyPostProcessing(aiProcess_Triangulate);
        if (scene == nullptr) throw Fault(importer.GetErrorString());
        RawMesh raw;
        if (scene->mRootNode != nullptr) add_node(*scene, *scene->mRootNode, aiMatrix4x4(), raw);
        if (raw.triangles.empty()) throw Fault("there is no triangle in it");
        return raw;
    } catch (const Fault& fault) {
        throw Fault(path + ": " + fault.what());
    }
}

}  // namespace bmtg
