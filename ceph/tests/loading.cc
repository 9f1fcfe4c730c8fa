/* A registry of plugins like that of Ceph's programs, and chunks for the tests. */
#include <cstdlib>
#include <cstring>
#include <dlfcn.h>
#include <iostream>
#include <random>
#include <sstream>

#include "host.h"

std::string given_version;

const char *plugin_folder()
{
    const char *folder = getenv("PLUGINS");
    return folder ? folder : "/usr/lib/x86_64-linux-gnu/ceph/erasure-code";
}

void stop(const std::string &why)
{
    std::cout.flush();
    std::cerr << "host: " << why << std::endl;
    exit(1);
}

void expect(bool holds, const std::string &what)
{
    if (!holds)
        stop("not so: " + what);
    printf("  %s\n", what.c_str());
}

/* ---- what plugins call of a program */

/* Replaces that of libceph-common, so that another version can be given. */
const char *ceph_version_to_str() { return given_version.c_str(); }

static std::map<std::string, ceph::ErasureCodePlugin *> plugins;
ceph::ErasureCodePluginRegistry ceph::ErasureCodePluginRegistry::singleton;

int ceph::ErasureCodePluginRegistry::add(const std::string &name, ErasureCodePlugin *plugin)
{
    return plugins.emplace(name, plugin).second ? 0 : -EEXIST;
}

static int load(const std::string &name, const std::string &directory, std::ostream *err)
{
    std::string path = directory + "/libec_" + name + ".so";
    void *library = dlopen(path.c_str(), RTLD_NOW);
    if (!library)
        stop(dlerror());
    auto version = reinterpret_cast<const char *(*)()>(dlsym(library, "__erasure_code_version"));
    auto start = reinterpret_cast<int (*)(const char *, const char *)>(dlsym(library, "__erasure_code_init"));
    if (!version || !start)
        stop(path + " has not the two functions of a plugin");
    if (version() != given_version) {
        *err << "the plugin is of version " << version();
        return -EXDEV;
    }
    return start(name.c_str(), directory.c_str());
}

int ceph::ErasureCodePluginRegistry::factory(const std::string &name, const std::string &directory, Profile &profile, Code *code,
                                             std::ostream *err)
{
    if (!plugins.count(name))
        if (int r = load(name, directory, err))
            return r;
    return plugins.at(name)->factory(directory, profile, code, err);
}

/* ---- profiles */

Profile parse(const std::string &words)
{
    Profile profile;
    std::stringstream in(words);
    for (std::string word; std::getline(in, word, ',');)
        profile[word.substr(0, word.find('='))] = word.substr(word.find('=') + 1);
    return profile;
}

int try_open(const std::string &words, Code *code, std::string *said)
{
    Profile profile = parse(words);
    std::stringstream err;
    int r = ceph::ErasureCodePluginRegistry::singleton.factory(profile["plugin"], plugin_folder(), profile, code, &err);
    *said = err.str();
    while (!said->empty() && said->back() == '\n')
        said->pop_back();
    if (r == 0 && *code && profile != (*code)->get_profile())
        stop(words + ": the profile is not the one that init left");
    return r;
}

Code open(const std::string &words)
{
    Code code;
    std::string said;
    int r = try_open(words, &code, &said);
    if (r != 0 || !code)
        stop(words + ": " + said + " " + std::to_string(r));
    return code;
}

/* ---- chunks and shards */

bufferlist random_bytes(unsigned length, unsigned seed)
{
    std::mt19937_64 random(seed);
    ceph::buffer::ptr bytes(ceph::buffer::create_aligned(length, 64));
    for (unsigned i = 0; i < length; i += 8) {
        uint64_t word = random();
        memcpy(bytes.c_str() + i, &word, std::min(8u, length - i));
    }
    bufferlist in;
    in.push_back(std::move(bytes));
    return in;
}

Shards everything(const Code &code)
{
    Shards all;
    for (unsigned i = 0; i < code->get_chunk_count(); i++)
        all.insert(int(i));
    return all;
}

std::vector<Shards> sets_of(unsigned n, unsigned size)
{
    std::vector<Shards> sets;
    for (unsigned mask = 0; mask < 1u << n; mask++)
        if (unsigned(__builtin_popcount(mask)) == size) {
            sets.emplace_back();
            for (unsigned i = 0; i < n; i++)
                if (mask >> i & 1)
                    sets.back().insert(int(i));
        }
    return sets;
}

Chunks without(const Chunks &chunks, const Shards &lost)
{
    Chunks left;
    for (auto &[shard, chunk] : chunks)
        if (!lost.count(shard))
            left[shard] = chunk;
    return left;
}

Shards shards_of(const Chunks &chunks)
{
    Shards shards;
    for (auto &[shard, chunk] : chunks)
        shards.insert(shard);
    return shards;
}

int data_shard(const Code &code, unsigned i)
{
    return code->get_chunk_mapping().empty() ? int(i) : code->get_chunk_mapping()[i];
}

/* A chunk's bytes in pieces of memory, most of them not aligned. */
bufferlist in_pieces(bufferlist chunk)
{
    bufferlist pieces;
    unsigned at = 0, step = 1;
    while (at < chunk.length()) {
        unsigned length = std::min(step, chunk.length() - at);
        pieces.push_back(ceph::buffer::ptr(ceph::buffer::copy(chunk.c_str() + at, length)));
        at += length;
        step = step * 3 + 1;
    }
    return pieces;
}

/* The chunk at this shard with another byte. */
Chunks with_damage(Chunks chunks, int shard)
{
    std::string bytes = chunks.at(shard).to_str();
    bytes[bytes.size() / 2] = char(bytes[bytes.size() / 2] ^ 0x40);
    chunks[shard] = bufferlist();
    chunks[shard].append(bytes);
    return chunks;
}
