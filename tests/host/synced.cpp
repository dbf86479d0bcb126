// For the kill test: notes what is on storage, so that the test can make what a power cut would leave. The test loads
// this into the host by LD_PRELOAD. After each fsync, the folder that HOST_SYNCED names has
//     INODE     the bytes of the synced file of that inode
//     names     the inode and name of each file that the synced folder had, one a line
// Each is replaced as a whole: the host may be killed in here, too.
#include <filesystem>
#include <fstream>
#include <iterator>
#include <sstream>
#include <string>

#include <dlfcn.h>
#include <stdlib.h>
#include <sys/stat.h>

namespace {

namespace fs = std::filesystem;

std::string names_in(const std::string& folder) {
    std::ostringstream names;
    for (const auto& file : fs::directory_iterator{folder}) {
        struct stat is;
        if (::stat(file.path().c_str(), &is) == 0) names << is.st_ino << " " << file.path().filename().string() << "\n";
    }
    return names.str();
}

std::string bytes_of(const std::string& path) {
    std::ifstream file{path, std::ios::binary};
    return std::string{std::istreambuf_iterator<char>{file}, {}};
}

void note(int fd) {
    const char* const notes = ::getenv("HOST_SYNCED");
    struct stat is;
    if (!notes || ::fstat(fd, &is) != 0) return;
    const std::string synced = "/proc/self/fd/" + std::to_string(fd);
    const bool folder = S_ISDIR(is.st_mode);
    const fs::path to = fs::path{notes} / (folder ? "names" : std::to_string(is.st_ino));
    const fs::path unfinished = fs::path{notes} / "unfinished";
    std::ofstream{unfinished, std::ios::binary} << (folder ? names_in(synced) : bytes_of(synced));
    fs::rename(unfinished, to);
}

}  // namespace

extern "C" int fsync(int fd) {
    static const auto system = reinterpret_cast<int (*)(int)>(::dlsym(RTLD_NEXT, "fsync"));
    const int result = system(fd);
    if (result == 0) note(fd);
    return result;
}
