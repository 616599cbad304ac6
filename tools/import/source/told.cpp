#include "told.h"

#include <cstdio>

namespace bmtg {
namespace {

// Enough digits to read the same number again.
std::string number(double value) {
    char text[40];
    std::snprintf(text, sizeof text, "%.17g", value);
    return text;
}

std::string rounded(double value) {
    char text[40];
    std::snprintf(text, sizeof text, "%.2f", value);
    return text;
}

// Bytes from 128 on are left as they are: names of files are mostly UTF-8.
std::string quoted(const std::string& text) {
    std::string out = "\"";
    for (const char letter : text) {
        char code[8];
        if (static_cast<unsigned char>(letter) < 0x20) {
            std::snprintf(code, sizeof code, "\\u%04x", static_cast<unsigned>(letter));
            out += code;
        } else {
            if (letter == '"' || letter == '\\') out += '\\';
            out += letter;
        }
    }
    return out + '"';
}

template <typename List, typename Text>
std::string list_of(const List& list, const Text& text) {
    std::string out = "[";
    for (const auto& item : list) out += (out.size() > 1 ? ",\n    " : "\n    ") + text(item);
    return out + (list.empty() ? "]" : "\n  ]");
}

std::string field(const char* name, std::uint64_t value) { return quoted(name) + ": " + std::to_string(value); }

std::string level_text(const LevelReport& level) {
    return "{" + field("regions", level.regions) + ", " + field("simplified", level.simplified) + ", " +
           field("triangles_before", level.triangles_before) + ", " + field("triangles", level.triangles) +
           ", \"greatest_error\": " + number(level.greatest_error) + "}";
}

std::string measured_text(const Measured& frame) {
    return "{" + field("error", frame.error) + ", " + field("triangles", frame.triangles) + ", " +
           field("told", frame.told) + ", \"mean\": " + number(frame.mean) +
           ", \"nearly_all\": " + number(frame.nearly_all) + ", \"greatest\": " + number(frame.greatest) + "}";
}

}  // namespace

std::string json_of(const Told& told, const Options& options) {
    const double* offset = told.placement.offset;
    std::string out = "{\n  \"input\": " + quoted(options.input) + ",\n  \"output\": " + quoted(options.output);
    out += ",\n  \"unit\": " + number(told.placement.unit);
    out += ",\n  \"offset\": [" + number(offset[0]) + ", " + number(offset[1]) + ", " + number(offset[2]) + "]";
    out += ",\n  " + field("version", told.version) + ",\n  " + field("triangles_a_patch", told.triangles_a_patch);
    out +=
        ",\n  \"read\": {" + field("points", told.read_points) + ", " + field("triangles", told.read_triangles) + "}";
    out += ",\n  \"dropped\": {" + field("flat", told.dropped.flat) + ", " + field("doubled", told.dropped.doubled) +
           ", " + field("joined", told.dropped.joined) + ", " + field("unused", told.dropped.unused) + ", " +
           field("thin_faces", told.thin_faces) + "}";
    out += ",\n  \"mesh\": {" + field("points", told.points) + ", " + field("triangles", told.triangles) + "}";
    out += ",\n  \"file\": {" + field("nodes", told.nodes) + ", " + field("patches", told.patches) + ", " +
           field("triangles", told.patch_triangles) + ", " + field("bytes", told.bytes) + "}";
    out += ",\n  \"base\": {" + field("triangles", told.base_triangles) + ", " + field("open_edges", told.open_edges) +
           "}";
    out += ",\n  \"levels\": " + list_of(told.levels, level_text);
    if (options.measure) out += ",\n  \"measured\": " + list_of(told.measured, measured_text);
    out += ",\n  \"notes\": " + list_of(told.notes, quoted);
    return out + "\n}\n";
}

std::string lines_of(const Told& told, const Options& options) {
    const auto count = [](std::uint64_t value) { return std::to_string(value); };
    const double* offset = told.placement.offset;
    std::string out;
    for (const std::string& note : told.notes) out += "note: " + note + "\n";
    out += "grid: one unit is " + number(told.placement.unit) + ", and (0, 0, 0) is (" + number(offset[0]) + ", " +
           number(offset[1]) + ", " + number(offset[2]) + ")\n";
    out += "input: " + count(told.read_points) + " points, " + count(told.read_triangles) +
           " triangles; dropped: " + count(told.dropped.flat) + " flat and " + count(told.dropped.doubled) +
           " doubled triangles, " + count(told.dropped.unused) + " unused points, " + count(told.thin_faces) +
           " points and lines; joined: " + count(told.dropped.joined) + " points\n";
    out += "mesh: " + count(told.points) + " points, " + count(told.triangles) + " triangles\n";
    out += options.output + ": version " + count(told.version) + ", " + count(told.nodes) + " nodes, " +
           count(told.patches) + " patches of at most " + count(told.triangles_a_patch) + " triangles, " +
           count(told.levels.size()) + " levels, " + count(told.bytes) + " bytes\n";
    out += "base: " + count(told.base_triangles) + " triangles, " + count(told.open_edges) + " open edges\n";
    if (options.measure) out += "frame of errors up to | triangles | file says | mean | 99.9 percent | greatest\n";
    for (const Measured& frame : told.measured) {
        out += count(frame.error) + " | " + count(frame.triangles) + " | " + count(frame.told) + " | " +
               rounded(frame.mean) + " | " + rounded(frame.nearly_all) + " | " + rounded(frame.greatest) + "\n";
    }
    return out;
}

}  // namespace bmtg
