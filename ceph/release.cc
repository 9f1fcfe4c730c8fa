/* Says, as a header, of which release the Ceph is that is installed, by the answer of its own common library: what is built beside this is
 * for that release alone. It ends with status 1 where this isn't one whose calls ceph_calls.h has. */
#include <cstdio>
#include <string>

const char *ceph_version_to_str();

int main()
{
    const std::string version = ceph_version_to_str();
    for (const std::string release : {"16.2", "18.2"})
        if (version.rfind(release + ".", 0) == 0) {
            std::printf("#define CEPH_RELEASE \"%s\"\n#define CEPH_VERSION \"%s\"\n", release.c_str(), version.c_str());
            return 0;
        }
    std::fprintf(stderr, "make ceph: Ceph %s is installed: it needs 16.2 or 18.2, whose calls are known.\n", version.c_str());
    return 1;
}
