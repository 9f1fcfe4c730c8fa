/* Loads erasure code plugins as Ceph's programs do, ours and the shipped ones, and tries or times them.
 *
 *   host sets    <profile> [length]..  every set of 1 to 4 lost shards: decoded, and compared with what was encoded
 *   host least   <profile> [most]      minimum_to_decode against the least there is, over all sets, for 1 to `most` wanted shards
 *   host cost    <profile>..           shares of chunks read for 1 and 2 lost shards
 *   host odd     <profile>             what is wrong is answered with an error
 *   host starved <profile>             no exception leaves a call that is refused memory
 *   host threads <profile>             decoding in eight threads at once over one code
 *   host said    <profile>             where the plugin says that chunks contradict each other: standard error, or the system's log
 *   host beside  <profile>..           calls that Ceph may make: what each plugin does, a line each
 *   host words   <profile>             words that are refused
 *   host version <profile>             releases of Ceph into which the plugin loads, and which it refuses
 *   host bench   <seconds> <chunk> <profile>..   GB/s, the profiles in turn
 *
 * A profile is "plugin=name,word=value,..". PLUGINS is the folder of the plugins. It ends with status 1 where ours is not as it has
 * to be; of other plugins it says what they do. */
#include <algorithm>
#include <cerrno>
#include <cstdio>
#include <cstdlib>
#include <cstring>

#include <rados/librados.h>

#include "host.h"
#include "release.h"

namespace ceph::common {
class CephContext;
}
namespace ceph::global {
extern ceph::common::CephContext *g_ceph_context; /* the shipped plugins log through it */
}
extern "C" int ceph_arch_probe();

static bool is_ours(const std::string &words) { return parse(words)["plugin"] == "azure_lrc"; }

/* ---- sets */

struct Counts {
    unsigned tried, rebuilt, refused, disagree, wrong, promised;
};

/* Whether the lost shards, and the data, come from what is left, and the lost ones from the planned reads alone in pieces. */
static bool same_bytes(const Code &code, const Chunks &encoded, const bufferlist &whole, const Shards &lost, const Reads &reads,
                       Chunks &all)
{
    Chunks left = without(encoded, lost), few, from_few;
    const bool whole_chunks = !reads.empty() && code->get_sub_chunk_count() == 1;
    for (auto &[shard, runs] : reads)
        few[shard] = in_pieces(left.at(shard));
    if (whole_chunks && code->decode(lost, few, &from_few, 0) != 0)
        return false;
    for (int shard : lost)
        if (!all.at(shard).contents_equal(encoded.at(shard)) || (whole_chunks && !from_few.at(shard).contents_equal(encoded.at(shard))))
            return false;
    bufferlist concat;
    return code->decode_concat(left, &concat) == 0 && concat.contents_equal(whole);
}

static Counts try_sets(const Code &code, const Chunks &encoded, const bufferlist &whole, unsigned size)
{
    Counts counts = {};
    for (const Shards &lost : sets_of(code->get_chunk_count(), size)) {
        Chunks left = without(encoded, lost), all;
        Reads reads;
        counts.tried++;
        const bool planned = code->minimum_to_decode(lost, shards_of(left), &reads) == 0;
        const bool decoded = code->decode(lost, left, &all, int(encoded.begin()->second.length())) == 0;
        counts.disagree += planned != decoded;
        if (!decoded) {
            counts.refused++;
        } else if (same_bytes(code, encoded, whole, lost, planned ? reads : Reads(), all)) {
            counts.rebuilt++;
        } else {
            counts.wrong++;
            counts.promised += planned;
        }
    }
    return counts;
}

static void sets(const std::string &words, unsigned length)
{
    Code code = open(words);
    bufferlist in = random_bytes(length, length), whole, head;
    Chunks encoded;
    if (code->encode(everything(code), in, &encoded) != 0 || encoded.size() != code->get_chunk_count())
        stop("encode");
    if (code->decode_concat(encoded, &whole) != 0)
        stop("decode_concat");
    head.substr_of(whole, 0, length);
    if (!head.contents_equal(in))
        stop("decode_concat: other bytes");
    printf("%s: object of %u bytes, chunks of %u\n", words.c_str(), length, code->get_chunk_size(length));
    for (unsigned size = 1; size <= 4; size++) {
        Counts c = try_sets(code, encoded, whole, size);
        printf("  %u lost: %u sets, %u rebuilt with the same bytes, %u refused, %u where the plan and decode disagree\n", size, c.tried,
               c.rebuilt, c.refused, c.disagree);
        if (c.wrong > 0)
            printf("  OTHER BYTES with status 0 in %u of them; in %u of these minimum_to_decode had said that it can be done\n", c.wrong,
                   c.promised);
        const unsigned wanted = size < 4 ? c.tried : code->get_chunk_count() == 10 ? 180 : 1568;
        if (is_ours(words) && (c.rebuilt != wanted || c.refused != c.tried - wanted || c.disagree != 0))
            stop("these are not as the code has to be");
    }
}

/* ---- least */

/* For each set of available shards whether minimum_to_decode reads as few as the least of its subsets that suffices. */
static void least_of(const Code &code, const Shards &want, unsigned *asked, unsigned *more)
{
    const unsigned n = code->get_chunk_count();
    std::vector<uint8_t> fewest(size_t(1) << n, 255);
    for (unsigned mask = 0; mask < 1u << n; mask++) {
        Shards have;
        Reads reads;
        for (unsigned i = 0; i < n; i++)
            if (mask >> i & 1)
                have.insert(int(i));
        if (code->minimum_to_decode(want, have, &reads) == 0)
            fewest[mask] = uint8_t(__builtin_popcount(mask));
        for (unsigned i = 0; i < n; i++)
            if (mask >> i & 1)
                fewest[mask] = std::min(fewest[mask], fewest[mask & ~(1u << i)]);
        if (fewest[mask] == 255)
            continue;
        ++*asked;
        *more += reads.size() != fewest[mask];
    }
}

static void least(const std::string &words, unsigned most)
{
    Code code = open(words);
    unsigned asked = 0, more = 0;
    for (unsigned size = 1; size <= most; size++)
        for (const Shards &want : sets_of(code->get_chunk_count(), size))
            least_of(code, want, &asked, &more);
    Shards data;
    for (unsigned i = 0; i < code->get_data_chunk_count(); i++)
        data.insert(data_shard(code, i));
    least_of(code, data, &asked, &more);
    printf("%s: 1 to %u wanted shards, and the data: %u answers, %u of them not of the least number of shards\n", words.c_str(), most,
           asked, more);
    if (is_ours(words) && more > 0)
        stop("minimum_to_decode reads too much");
}

/* ---- cost */

static void cost(const std::string &words)
{
    Code code = open(words);
    for (unsigned size = 1; size <= 2; size++) {
        double least = 1e9, most = 0, sum = 0;
        unsigned count = 0, refused = 0;
        for (const Shards &lost : sets_of(code->get_chunk_count(), size)) {
            Shards have;
            for (int shard : everything(code))
                if (!lost.count(shard))
                    have.insert(shard);
            Reads reads;
            if (code->minimum_to_decode(lost, have, &reads) != 0) {
                refused++;
                continue;
            }
            double chunks = 0;
            for (auto &[shard, runs] : reads)
                for (auto [first, number] : runs)
                    chunks += double(number) / code->get_sub_chunk_count();
            least = std::min(least, chunks), most = std::max(most, chunks), sum += chunks, count++;
        }
        printf("%-48s %u lost: %.2f to %.2f chunks read, %.2f on average of %u sets, %u refused\n", words.c_str(), size, least, most,
               sum / count, count, refused);
    }
}

static void refused_words(const std::string &words)
{
    for (const char *wrong : {"k=5", "m=3", "code=6-2-3", "layout=rows", "mapping=DDDDDD____", "k=12,code=6-2-2", "cod=12-2-2",
                              "crush-locality=rack,layout=plain", "stripe_unit=0", "stripe_unit=0K", "stripe_unit=-4096"}) {
        Code code;
        std::string said;
        if (try_open(words + "," + wrong, &code, &said) != -EINVAL || code)
            stop(std::string(wrong) + " is not refused");
        printf("  refused: %s: %s\n", wrong, said.c_str());
    }
}

/* A plugin that has been loaded stays, so the release that it is for comes last. */
static void version(const std::string &words)
{
    const std::string own = CEPH_RELEASE, other = own == "16.2" ? "18.2" : "16.2";
    for (const std::string &release : {other + ".7", other + ".15", std::string("17.2.7"), std::string("19.2.3"), own + "0.0",
                                       own.substr(0, 2) + ".1.0", own, own + ".9"}) {
        Code code;
        std::string said;
        given_version = release;
        int r = try_open(words, &code, &said);
        const bool is_own = release == own + ".9";
        if (r != (is_own ? 0 : -EXDEV))
            stop(release + " answers " + std::to_string(r));
        printf("  Ceph %s: %s\n", release.c_str(), is_own ? "loaded" : said.c_str());
    }
}

int main(int argc, char **argv)
{
    rados_t cluster; /* only for its context: nothing is connected */
    if (argc < 3 || rados_create(&cluster, nullptr) < 0)
        stop("host sets|least|cost|odd|starved|threads|said|beside|words|version|bench ..");
    ceph::global::g_ceph_context = static_cast<ceph::common::CephContext *>(rados_cct(cluster));
    ceph_arch_probe();
    const char *release = getenv("RELEASE"); /* that of the shipped plugins, for them */
    given_version = release ? release : CEPH_VERSION;
    std::string part = argv[1];
    std::vector<std::string> words(argv + 2, argv + argc);
    if (part == "sets" && words.size() == 1)
        sets(words[0], 100000);
    else if (part == "sets")
        for (size_t i = 1; i < words.size(); i++)
            sets(words[0], unsigned(atoi(words[i].c_str())));
    else if (part == "least")
        least(words[0], words.size() > 1 ? unsigned(atoi(words[1].c_str())) : 3);
    else if (part == "cost")
        std::for_each(words.begin(), words.end(), cost);
    else if (part == "odd")
        odd(words[0]);
    else if (part == "starved")
        starved(words[0]);
    else if (part == "threads")
        threads(words[0]);
    else if (part == "said")
        said(words[0]);
    else if (part == "beside")
        beside(words);
    else if (part == "words")
        refused_words(words[0]);
    else if (part == "version")
        version(words[0]);
    else if (part == "bench" && words.size() > 2)
        bench(atof(argv[2]), unsigned(atoi(argv[3])), {words.begin() + 2, words.end()});
    else
        stop("there is no part " + part);
    fflush(stdout);
    quick_exit(0); /* without the ends of Ceph's threads */
}
