/* What a plugin has to know of Ceph 16.2 ("pacific") and 18.2 ("reef"), in which it is the same: the names, arguments and order of the
 * functions through which programs call a code. Debian ships no header of them. They are facts of the binary interface, written down here;
 * tests/abi.sh compares their order and arguments with those of the shipped plugins. `ceph::bufferlist` is that of the release's own
 * libradospp-dev. */
#ifndef CEPH_CALLS_H
#define CEPH_CALLS_H

#include <iosfwd>
#include <map>
#include <memory>
#include <set>
#include <string>
#include <utility>
#include <vector>

#include <rados/buffer.h>

/* The placement map, of which a plugin needs the call that makes a plain rule: its number, or an error below 0. */
class CrushWrapper {
public:
    int add_simple_rule(std::string name, std::string root, std::string failure_domain, std::string device_class,
                        std::string mode, int rule_type, std::ostream *err);
};

/* The version of the program that runs, as "16.2.15". */
const char *ceph_version_to_str();

namespace ceph {

using Profile = std::map<std::string, std::string>;
using Shards = std::set<int>;
using Costs = std::map<int, int>;
using Chunks = std::map<int, bufferlist>;
/* For each shard the runs of its parts to read, as (first, how many); a code without parts has one run, (0, 1). */
using Reads = std::map<int, std::vector<std::pair<int, int>>>;

class ErasureCodeInterface {
public:
    virtual ~ErasureCodeInterface() {}
    virtual int init(Profile &profile, std::ostream *err) = 0;
    virtual const Profile &get_profile() const = 0;
    virtual int create_rule(const std::string &name, CrushWrapper &crush, std::ostream *err) const = 0;
    virtual unsigned int get_chunk_count() const = 0;
    virtual unsigned int get_data_chunk_count() const = 0;
    virtual unsigned int get_coding_chunk_count() const = 0;
    virtual int get_sub_chunk_count() = 0;
    virtual unsigned int get_chunk_size(unsigned int object_size) const = 0;
    virtual int minimum_to_decode(const Shards &want, const Shards &available, Reads *minimum) = 0;
    virtual int minimum_to_decode_with_cost(const Shards &want, const Costs &available, Shards *minimum) = 0;
    virtual int encode(const Shards &want, const bufferlist &in, Chunks *encoded) = 0;
    virtual int encode_chunks(const Shards &want, Chunks *encoded) = 0;
    virtual int decode(const Shards &want, const Chunks &chunks, Chunks *decoded, int chunk_size) = 0;
    virtual int decode_chunks(const Shards &want, const Chunks &chunks, Chunks *decoded) = 0;
    virtual const std::vector<int> &get_chunk_mapping() const = 0;
    virtual int decode_concat(const Chunks &chunks, bufferlist *decoded) = 0;
};

using Code = std::shared_ptr<ErasureCodeInterface>;

class ErasureCodePlugin {
public:
    void *library = nullptr; /* the program's: what dlopen gave it */
    virtual ~ErasureCodePlugin() {}
    virtual int factory(const std::string &directory, Profile &profile, Code *code, std::ostream *err) = 0;
};

/* The program's own, from which it takes plugins, and a plugin another plugin. */
class ErasureCodePluginRegistry {
public:
    static ErasureCodePluginRegistry singleton;
    int add(const std::string &name, ErasureCodePlugin *plugin);
    int factory(const std::string &name, const std::string &directory, Profile &profile, Code *code, std::ostream *err);
};

} // namespace ceph

#endif
