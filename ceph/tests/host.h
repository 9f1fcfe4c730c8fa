/* What the parts of the host share: plugins that it loads as Ceph's programs do, and chunks. */
#ifndef HOST_H
#define HOST_H

#include "ceph_calls.h"

using ceph::Chunks;
using ceph::Code;
using ceph::Costs;
using ceph::Profile;
using ceph::Reads;
using ceph::Shards;
using ceph::bufferlist;

/* The program's version as plugins are given it, and the folder in which they are looked for. */
extern std::string given_version;
const char *plugin_folder();

[[noreturn]] void stop(const std::string &why);

/* Ends the program where something does not hold; else says it. */
void expect(bool holds, const std::string &what);

/* "plugin=name,word=value,.." as a profile, and the code of it; `try_open` answers what the plugin answers, and its words. */
Profile parse(const std::string &words);
int try_open(const std::string &words, Code *code, std::string *said);
Code open(const std::string &words);

bufferlist random_bytes(unsigned length, unsigned seed);
Shards everything(const Code &code);
/* All sets of so many of the shards 0 to n-1. */
std::vector<Shards> sets_of(unsigned n, unsigned size);
Chunks without(const Chunks &chunks, const Shards &lost);
Shards shards_of(const Chunks &chunks);
/* The shard of the i-th data chunk. */
int data_shard(const Code &code, unsigned i);

/* A chunk's bytes in pieces of memory, most of them not aligned. */
bufferlist in_pieces(bufferlist chunk);
/* The chunk at this shard with another byte. */
Chunks with_damage(Chunks chunks, int shard);

/* What is wrong is answered with an error, and damaged chunks are decoded around. */
void odd(const std::string &words);

/* Decoding in eight threads at once over one code. */
void threads(const std::string &words);

/* Where the plugin says what goes wrong. */
void said(const std::string &words);

/* What plugins do in calls that Ceph may make; ours, the first, has to survive what another survives. */
void beside(const std::vector<std::string> &profiles);

/* Calls whose allocations are refused in turn. */
void starved(const std::string &words);

/* GB/s of encoding and decoding, the profiles in turn. */
void bench(double seconds, unsigned chunk, const std::vector<std::string> &profiles);

#endif
