#include "patch_file.h"

#include <fcntl.h>
#include <signal.h>
#include <unistd.h>

#include <algorithm>
#include <atomic>
#include <cerrno>
#include <cstdio>
#include <cstring>

namespace bmtg {
namespace {

// The names of unfinished files, where a signal's handler may read them: one for the mesh and one for what is told.
constexpr int kSlots = 4;
char unfinished[kSlots][4096];
std::atomic<bool> in_use[kSlots];

extern "C" void when_interrupted(int signal_number) {
    for (int slot = 0; slot < kSlots; ++slot) {
        if (in_use[slot]) unlink(unfinished[slot]);
    }
    _exit(128 + signal_number);
}

class Bytes {
public:
    template <typename Number>
    void add(Number number) {
        for (std::size_t i = 0; i < sizeof(Number); ++i) bytes_.push_back(static_cast<char>(number >> (8 * i)));
    }
    std::vector<char>& all() { return bytes_; }

private:
    std::vector<char> bytes_;
};

void add_body(Bytes& bytes, const Patch& patch, const std::vector<Point>& points, int version) {
    std::int32_t origin[3];
    if (version == 2) {
        for (int axis = 0; axis < 3; ++axis) {
            origin[axis] = kGridEnd;
            for (const std::uint32_t point : patch.points)
                origin[axis] = std::min(origin[axis], points[point].at[axis]);
            bytes.add(origin[axis]);
        }
    }
    for (const std::uint32_t point : patch.points) {
        for (int axis = 0; axis < 3; ++axis) {
            const std::int32_t value = points[point].at[axis];
            if (version == 2) {
                bytes.add(static_cast<std::uint16_t>(value - origin[axis]));
            } else {
                bytes.add(value);
            }
        }
    }
    for (const std::uint16_t corner : patch.corners) bytes.add(corner);
}

}  // namespace

void take_files_away_when_interrupted() {
    struct sigaction action {};
    action.sa_handler = when_interrupted;
    sigemptyset(&action.sa_mask);
    for (const int signal_number : {SIGINT, SIGTERM, SIGHUP}) {
        // One that is ignored, as under nohup, stays so.
        struct sigaction before {};
        if (sigaction(signal_number, nullptr, &before) == 0 && before.sa_handler == SIG_IGN) continue;
        sigaction(signal_number, &action, nullptr);
    }
}

WholeFile::WholeFile(const std::string& path)
    : path_(path), beside_(path + "." + std::to_string(getpid()) + ".part"), slot_(-1) {
    for (int slot = 0; slot < kSlots && slot_ < 0; ++slot) {
        if (!in_use[slot]) slot_ = slot;
    }
    if (slot_ < 0 || beside_.size() >= sizeof unfinished[0]) throw Fault(path_ + ": the name is too long");
    std::strcpy(unfinished[slot_], beside_.c_str());
    in_use[slot_] = true;
    // Only a new file: a link that stands there isn't followed.
    const int opened = open(beside_.c_str(), O_WRONLY | O_CREAT | O_EXCL | O_CLOEXEC, 0666);
    file_ = opened < 0 ? nullptr : fdopen(opened, "wb");
    if (file_ == nullptr) {
        in_use[slot_] = false;
        fail();
    }
}

WholeFile::~WholeFile() {
    if (file_ != nullptr) std::fclose(file_);
    if (in_use[slot_]) {
        unlink(beside_.c_str());
        in_use[slot_] = false;
    }
}

void WholeFile::fail() { throw Fault(path_ + " can't be written: " + std::strerror(errno)); }

void WholeFile::write(const void* bytes, std::size_t count) {
    if (std::fwrite(bytes, 1, count, file_) != count) fail();
}

void WholeFile::close() {
    const int closed = std::fclose(file_);
    file_ = nullptr;
    if (closed != 0) fail();
}

void WholeFile::keep() {
    if (std::rename(beside_.c_str(), path_.c_str()) != 0) fail();
    in_use[slot_] = false;
}

std::uint64_t write_graph(WholeFile& file, const Graph& graph, const std::vector<Point>& points, int version) {
    Bytes bytes;
    for (const char letter : {'B', 'M', 'T', 'G'}) bytes.add(letter);
    bytes.add(static_cast<std::uint16_t>(version));
    bytes.add(std::uint16_t{0});
    bytes.add(static_cast<std::uint32_t>(graph.nodes.size()));
    bytes.add(static_cast<std::uint32_t>(graph.patches.size()));
    for (const Node& node : graph.nodes) {
        for (const std::int32_t value : node.ball.centre.at) bytes.add(value);
        bytes.add(static_cast<std::uint32_t>(node.ball.radius));
        bytes.add(error_in_file(node));
    }
    for (const Patch& patch : graph.patches) {
        bytes.add(patch.tail);
        bytes.add(patch.head);
        bytes.add(static_cast<std::uint16_t>(patch.points.size()));
        bytes.add(static_cast<std::uint16_t>(patch.triangles()));
    }
    std::uint64_t written = 0;
    const auto let_go = [&] {
        file.write(bytes.all().data(), bytes.all().size());
        written += bytes.all().size();
        bytes.all().clear();
    };
    for (const Patch& patch : graph.patches) {
        let_go();
        add_body(bytes, patch, points, version);
    }
    let_go();
    return written;
}

}  // namespace bmtg
