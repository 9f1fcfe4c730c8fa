/* The plugin "azure_lrc" for Ceph 16.2 or 18.2: the (6,2,2) and (12,2,2) codes of liblrc as an erasure code of pools.
 *
 *   plugin=azure_lrc [code=6-2-2|12-2-2] [layout=plain|groups] [k=6|12] [m=4] [stripe_unit=4K]
 *                    [crush-root=default] [crush-failure-domain=host] [crush-device-class=] [crush-locality=]
 *
 * All sums, and the answer what to read, are liblrc's and proved. Here is what joins them to Ceph: words of profiles, shards as
 * places, and memory; it is tested. A code doesn't change after `init`, so threads share it. */
#include <algorithm>
#include <cerrno>
#include <chrono>
#include <cstdio>
#include <cstring>
#include <mutex>
#include <new>
#include <ostream>
#include <sys/stat.h>
#include <sys/sysmacros.h>
#include <syslog.h>
#include <unistd.h>

#include "ceph_calls.h"
#include "lrc.h"
#include "release.h"
#include "reports.h"

namespace azure_lrc {

using ceph::bufferlist;
using ceph::Chunks;
using ceph::Costs;
using ceph::Profile;
using ceph::Reads;
using ceph::Shards;

namespace {

constexpr unsigned kAlignment = 32; /* of chunks: their lengths, and memory that is taken for them */
constexpr int kErasureRule = 3;     /* the number of erasure coded pools in placement rules */
constexpr unsigned kMostLost = 4;   /* the parities: of five lost shards none is determined by data alone */

const char *const kWords[] = {"plugin",     "directory",            "stripe_unit",        "code",          "layout", "k", "m",
                              "crush-root", "crush-failure-domain", "crush-device-class", "crush-locality"};

const uint8_t *bytes(const bufferlist &chunk) { return reinterpret_cast<const uint8_t *>(chunk.front().c_str()); }

/* A chunk of memory of its own, in one piece. */
bufferlist fresh(unsigned length)
{
    bufferlist chunk;
    chunk.push_back(ceph::buffer::ptr(ceph::buffer::create_aligned(length, kAlignment)));
    return chunk;
}

/* Which build this is, for those who look into the file: strings -a libec_azure_lrc.so | grep '^azure_lrc ' */
__attribute__((used)) const char kVersion[] = "azure_lrc " LRC_VERSION " for Ceph " CEPH_RELEASE;

/* Whether nobody gets what is written on standard error: a daemon that went into the background has the null device in its place, which
 * that of Ceph 18 can write. */
bool is_unheard() noexcept
{
    struct stat place;
    return fstat(STDERR_FILENO, &place) != 0 || (S_ISCHR(place.st_mode) && place.st_rdev == makedev(1, 3));
}

/* Says something where the daemon says what goes wrong: on standard error, which systemd keeps, or else in the system's log. Ceph's own log
 * is reached by headers that Debian doesn't ship. */
void say(const char *call, const char *what) noexcept
{
    if (is_unheard() || std::fprintf(stderr, "azure_lrc: %s: %s\n", call, what) < 0)
        syslog(LOG_DAEMON | LOG_WARNING, "azure_lrc: %s: %s", call, what);
}

/* The same of decodes, of which each of a damaged object has something to say: not all of a minute are said. */
void say_of_decode(const std::string &what)
{
    static std::mutex writing;
    static Reports reports;
    const auto now = std::chrono::steady_clock::now().time_since_epoch();
    const std::lock_guard<std::mutex> alone(writing);
    for (const std::string &line : reports.at(std::chrono::duration_cast<std::chrono::seconds>(now).count(), what))
        say("decode", line.c_str());
}

/* No exception leaves a call. */
template <class Call> int guarded(Call call, const char *name = __builtin_FUNCTION()) noexcept
{
    try {
        return call();
    } catch (const std::bad_alloc &) {
        say(name, "out of memory");
        return -ENOMEM;
    } catch (const std::exception &fault) {
        say(name, fault.what());
        return -EIO;
    } catch (...) {
        say(name, "an exception");
        return -EIO;
    }
}

/* The number of a status in Ceph. -EIO, too few shards or a contradiction, is what OSDs expect of a decode that can't be done. */
int error_of(uint32_t status)
{
    switch (status) {
    case LRC_OK:
        return 0;
    case LRC_BAD_ARGUMENT:
        return -EINVAL;
    default:
        return -EIO;
    }
}

} // namespace

class LrcCode final : public ceph::ErasureCodeInterface {
public:
    explicit LrcCode(const std::string &directory) : directory_(directory) {}

    int init(Profile &profile, std::ostream *err) override
    {
        return guarded([&] { return read_profile(profile, err); });
    }

    const Profile &get_profile() const override { return profile_; }

    int create_rule(const std::string &name, CrushWrapper &crush, std::ostream *err) const override
    {
        return guarded([&] {
            if (!profile_.at("crush-locality").empty())
                return create_local_rule(name, crush, err);
            return crush.add_simple_rule(name, profile_.at("crush-root"), profile_.at("crush-failure-domain"),
                                         profile_.at("crush-device-class"), "indep", kErasureRule, err);
        });
    }

    unsigned get_chunk_count() const override { return unsigned(lrc_fragment_count(code_)); }
    unsigned get_data_chunk_count() const override { return unsigned(lrc_data_count(code_)); }
    unsigned get_coding_chunk_count() const override { return get_chunk_count() - get_data_chunk_count(); }
    int get_sub_chunk_count() override { return 1; }

    unsigned get_chunk_size(unsigned object_size) const override
    {
        return unsigned(lrc_fragment_length(code_, object_size, kAlignment));
    }

    int minimum_to_decode(const Shards &want, const Shards &available, Reads *minimum) override
    {
        return guarded([&] {
            uint32_t wanted, there, reads;
            minimum->clear();
            if (!places_of(want, &wanted) || !places_of(available, &there))
                return -EINVAL;
            if (uint32_t status = lrc_reads_into(uint8_t(code_), wanted, there, &reads))
                return error_of(status);
            for (int shard : shards_of(reads))
                (*minimum)[shard] = {{0, 1}};
            return 0;
        });
    }

    int minimum_to_decode_with_cost(const Shards &want, const Costs &available, Shards *minimum) override
    {
        return guarded([&] {
            uint32_t wanted, there = 0, reads, costs[LRC_PLACES] = {0};
            minimum->clear();
            if (!places_of(want, &wanted))
                return -EINVAL;
            for (auto [shard, cost] : available) {
                if (!is_shard(shard))
                    return -EINVAL;
                there |= UINT32_C(1) << place_of(shard);
                costs[place_of(shard)] = uint32_t(std::max(cost, 0));
            }
            if (uint32_t status = lrc_cheapest_reads_into(uint8_t(code_), wanted, there, costs, &reads))
                return error_of(status);
            *minimum = shards_of(reads);
            return 0;
        });
    }

    /* The data is cut into chunks, the last ones filled up with zeros; the parities get memory of their own. */
    int encode(const Shards &want, const bufferlist &in, Chunks *encoded) override
    {
        return guarded([&] {
            unsigned chunk_size = get_chunk_size(in.length());
            for (unsigned i = 0; i < get_chunk_count(); i++) {
                bufferlist &chunk = (*encoded)[numbered(i)];
                chunk = bufferlist();
                if (i >= get_data_chunk_count()) {
                    chunk = fresh(chunk_size);
                    continue;
                }
                unsigned from = unsigned(std::min(uint64_t(i) * chunk_size, uint64_t(in.length())));
                unsigned there = std::min(chunk_size, in.length() - from);
                chunk.substr_of(in, from, there);
                chunk.append_zero(chunk_size - there);
            }
            int r = chunk_size == 0 ? 0 : encode_chunks(want, encoded);
            for (auto it = encoded->begin(); it != encoded->end();)
                it = want.count(it->first) ? std::next(it) : encoded->erase(it);
            return r;
        });
    }

    /* Writes the parities among the chunks, which are all there. */
    int encode_chunks(const Shards &, Chunks *encoded) override
    {
        return guarded([&] {
            size_t length = encoded->empty() ? 0 : encoded->begin()->second.length();
            uint8_t *stripe[LRC_PLACES] = {nullptr};
            for (auto &[shard, chunk] : *encoded) {
                if (!is_shard(shard) || chunk.length() != length || length == 0)
                    return -EINVAL;
                stripe[place_of(shard)] = reinterpret_cast<uint8_t *>(chunk.c_str());
            }
            return error_of(lrc_encode(code_, stripe, length));
        });
    }

    int decode(const Shards &want, const Chunks &chunks, Chunks *decoded, int) override
    {
        return guarded([&] {
            for (int shard : want) {
                auto it = chunks.find(shard);
                if (it != chunks.end())
                    (*decoded)[shard] = it->second;
            }
            return decode_chunks(want, chunks, decoded);
        });
    }

    /* Rebuilds the wanted chunks that are not among those given, and tests all checks that these have; as few as
     * `minimum_to_decode` names have none. Chunks that contradict each other come with `fast_read` alone: `around` says what is done
     * then. Where it fails none of them is given. */
    int decode_chunks(const Shards &want, const Chunks &chunks, Chunks *decoded) override
    {
        return guarded([&] {
            std::vector<lrc_place> lost;
            Chunks joined, rebuilt;
            const uint8_t *stripe[LRC_PLACES] = {nullptr};
            size_t length = 0;
            if (int r = lost_of(want, chunks, &lost))
                return r;
            if (lost.empty())
                return 0;
            if (int r = point_at(chunks, &joined, stripe, &length))
                return r;
            uint8_t *outs[kMostLost];
            for (size_t i = 0; i < lost.size(); i++) {
                bufferlist &chunk = rebuilt[shard_of(lost[i])] = fresh(unsigned(length));
                outs[i] = reinterpret_cast<uint8_t *>(chunk.c_str());
            }
            uint32_t status = rebuild(lost, stripe, outs, length);
            if (status == LRC_CONTRADICTION)
                status = around(lost, stripe, outs, length);
            if (status != LRC_OK) {
                say_of_decode("the shards " + names_of(stripe) + " don't give all that is wanted: " + lrc_status_text(status));
                return error_of(status);
            }
            for (auto &[shard, chunk] : rebuilt)
                (*decoded)[shard] = chunk;
            return 0;
        });
    }

    const std::vector<int> &get_chunk_mapping() const override { return mapping_; }

    int decode_concat(const Chunks &chunks, bufferlist *decoded) override
    {
        return guarded([&] {
            Chunks all;
            Shards data_shards;
            for (unsigned i = 0; i < get_data_chunk_count(); i++)
                data_shards.insert(numbered(i));
            if (int r = decode(data_shards, chunks, &all, 0))
                return r;
            for (unsigned i = 0; i < get_data_chunk_count(); i++)
                decoded->claim_append(all[numbered(i)]);
            return 0;
        });
    }

private:
    std::string directory_; /* of the plugins */
    lrc_code code_ = LRC_6_2_2;
    lrc_layout layout_ = LRC_PLAIN;
    Profile profile_;
    std::vector<int> mapping_; /* the shards of the data and then of px, py, p0, p1; none where these are 0, 1, 2 and so on */

    bool is_shard(int shard) const { return shard >= 0 && unsigned(shard) < get_chunk_count(); }
    lrc_place place_of(int shard) const { return lrc_shard_place(code_, layout_, size_t(shard)); }
    int shard_of(lrc_place place) const { return int(lrc_place_shard(code_, layout_, place)); }
    /* The shard of the i-th data chunk, and after these of the i-th parity. */
    int numbered(unsigned i) const { return mapping_.empty() ? int(i) : mapping_[i]; }

    bool places_of(const Shards &shards, uint32_t *places) const
    {
        *places = 0;
        for (int shard : shards) {
            if (!is_shard(shard))
                return false;
            *places |= UINT32_C(1) << place_of(shard);
        }
        return true;
    }

    Shards shards_of(uint32_t places) const
    {
        Shards shards;
        for (unsigned shard = 0; shard < get_chunk_count(); shard++)
            if (places >> place_of(int(shard)) & 1)
                shards.insert(int(shard));
        return shards;
    }

    /* The places of the wanted shards that are not given. */
    int lost_of(const Shards &want, const Chunks &chunks, std::vector<lrc_place> *lost) const
    {
        for (int shard : want) {
            if (!is_shard(shard))
                return -EINVAL;
            if (!chunks.count(shard))
                lost->push_back(place_of(shard));
        }
        return lost->size() > kMostLost ? -EIO : 0;
    }

    /* Points at the bytes of chunks, which have one length. One that came in several pieces is copied into one. */
    int point_at(const Chunks &chunks, Chunks *joined, const uint8_t **stripe, size_t *length) const
    {
        if (chunks.empty())
            return -EIO;
        *length = chunks.begin()->second.length();
        for (const auto &[shard, chunk] : chunks) {
            if (!is_shard(shard) || chunk.length() != *length || *length == 0)
                return -EINVAL;
            const bufferlist *whole = &chunk;
            if (chunk.get_num_buffers() != 1) {
                bufferlist &one_piece = (*joined)[shard] = chunk;
                one_piece.rebuild();
                whole = &one_piece;
            }
            stripe[place_of(shard)] = bytes(*whole);
        }
        return 0;
    }

    uint32_t rebuild(const std::vector<lrc_place> &lost, const uint8_t *const *stripe, uint8_t **outs, size_t length) const
    {
        uint32_t statuses[kMostLost];
        return lrc_rebuild_many(code_, stripe, lost.data(), outs, statuses, lost.size(), length);
    }

    /* Rebuilds from chunks that contradict each other, and says so. Ceph ends an OSD whose decode fails, and asks for more chunks than it
     * needs with `fast_read` alone. Where the others fit without one chunk, and without no other single one, that one is damaged and is
     * left out. Else the wanted ones are made as they are without `fast_read`, from the fewest, which have no check. */
    uint32_t around(const std::vector<lrc_place> &lost, const uint8_t *const *stripe, uint8_t **outs, size_t length) const
    {
        const uint8_t *kept[LRC_PLACES];
        std::vector<int> fitting;
        std::copy(stripe, stripe + LRC_PLACES, kept);
        for (int place = 0; place < LRC_PLACES; place++) {
            kept[place] = nullptr;
            if (stripe[place] != nullptr && lrc_verify(code_, kept, length) == LRC_OK)
                fitting.push_back(place);
            kept[place] = stripe[place];
        }
        if (fitting.size() == 1) {
            kept[fitting[0]] = nullptr;
            say_of_decode("of the shards " + names_of(stripe) + " shard " + std::to_string(shard_of(lrc_place(fitting[0]))) +
                " is damaged, and is left out");
            return rebuild(lost, kept, outs, length);
        }
        uint32_t wanted = 0, there = 0, reads;
        for (lrc_place place : lost)
            wanted |= UINT32_C(1) << place;
        for (int place = 0; place < LRC_PLACES; place++)
            there |= uint32_t(stripe[place] != nullptr) << place;
        if (uint32_t status = lrc_reads_into(uint8_t(code_), wanted, there, &reads))
            return status;
        for (int place = 0; place < LRC_PLACES; place++)
            kept[place] = reads >> place & 1 ? stripe[place] : nullptr;
        say_of_decode("the shards " + names_of(stripe) + " contradict each other, and which is damaged can't be said; taken are " +
            names_of(kept) + ", without a check");
        return rebuild(lost, kept, outs, length);
    }

    /* The numbers of the shards that are there. */
    std::string names_of(const uint8_t *const *stripe) const
    {
        std::string names;
        for (unsigned shard = 0; shard < get_chunk_count(); shard++)
            if (stripe[place_of(int(shard))] != nullptr)
                names += (names.empty() ? "" : " ") + std::to_string(shard);
        return names;
    }

    /* Reads the words, and writes those that were left out into the profile, as Ceph asks. */
    int read_profile(Profile &profile, std::ostream *err)
    {
        auto word = [&](const char *name, const char *otherwise) -> const std::string & {
            std::string &value = profile[name];
            if (value.empty())
                value = otherwise;
            return value;
        };
        auto refuse = [&](const std::string &why) {
            if (err)
                *err << "azure_lrc: " << why << std::endl;
            return -EINVAL;
        };
        for (const auto &[name, value] : profile)
            if (std::find(std::begin(kWords), std::end(kWords), name) == std::end(kWords))
                return refuse("there is no word " + name);
        const bool is_wide = word("code", profile["k"] == "12" ? "12-2-2" : "6-2-2") == "12-2-2";
        if (!is_wide && profile["code"] != "6-2-2")
            return refuse("code is 6-2-2 or 12-2-2");
        if (word("k", is_wide ? "12" : "6") != (is_wide ? "12" : "6") || word("m", "4") != "4")
            return refuse("k and m are 6 and 4, or 12 and 4 with code=12-2-2");
        const bool has_groups = word("layout", "plain") == "groups";
        if (!has_groups && profile["layout"] != "plain")
            return refuse("layout is plain or groups");
        /* Ceph reads the number, and takes 0, of which clients die. */
        const auto unit = profile.find("stripe_unit");
        if (unit != profile.end() && (unit->second[0] == '-' || unit->second.find_first_of("123456789") == std::string::npos))
            return refuse("stripe_unit is a multiple of 32 bytes, and not 0");
        if (!word("crush-locality", "").empty() && !has_groups)
            return refuse("crush-locality keeps a group together, so it asks for layout=groups");
        word("crush-root", "default");
        word("crush-failure-domain", "host");
        word("crush-device-class", "");
        set_code(is_wide ? LRC_12_2_2 : LRC_6_2_2, has_groups ? LRC_GROUPS : LRC_PLAIN);
        profile_ = profile;
        return 0;
    }

    void set_code(lrc_code code, lrc_layout layout)
    {
        code_ = code;
        layout_ = layout;
        mapping_.clear();
        if (layout == LRC_GROUPS)
            for (size_t i = 0; i < lrc_fragment_count(code); i++)
                mapping_.push_back(shard_of(lrc_shard_place(code, LRC_PLAIN, i)));
    }

    /* A rule with a group in each of two localities (racks), and p0 and p1 in a third. Making a rule of several steps is for Ceph's
     * own plugin `lrc`, which is given these steps with chunks as many as ours; it is used for nothing else. */
    int create_local_rule(const std::string &name, CrushWrapper &crush, std::ostream *err) const
    {
        const std::string &locality = profile_.at("crush-locality"), &domain = profile_.at("crush-failure-domain");
        if ((locality + domain).find_first_of("\"\\") != std::string::npos)
            return -EINVAL;
        const size_t data_count = get_data_chunk_count();
        Profile steps = {{"plugin", "lrc"},
                         {"mapping", std::string(data_count, 'D') + "____"},
                         {"layers", "[[\"" + std::string(data_count, 'D') + "cccc\",\"\"]]"},
                         {"crush-root", profile_.at("crush-root")},
                         {"crush-device-class", profile_.at("crush-device-class")},
                         {"crush-steps", "[[\"choose\",\"" + locality + "\",3],[\"chooseleaf\",\"" + domain + "\"," +
                                             std::to_string(data_count / 2 + 1) + "]]"}};
        ceph::Code other;
        int r = ceph::ErasureCodePluginRegistry::singleton.factory("lrc", directory_, steps, &other, err);
        return r == 0 ? other->create_rule(name, crush, err) : r;
    }
};

class Plugin final : public ceph::ErasureCodePlugin {
public:
    int factory(const std::string &directory, Profile &profile, ceph::Code *code, std::ostream *err) override
    {
        return guarded([&] {
            auto made = std::make_shared<LrcCode>(directory);
            int r = made->init(profile, err);
            if (r == 0)
                *code = made;
            return r;
        });
    }
};

} // namespace azure_lrc

#define EXPORTED extern "C" __attribute__((visibility("default")))

/* A program loads plugins of its own version alone, and shows the other version where it refuses. Calls and headers are those of all of a
 * release, so the programs of the one that this is built for are answered their own version, and others the reason. */
EXPORTED const char *__erasure_code_version()
{
    const char *program = ceph_version_to_str();
    const bool is_of_release = program != nullptr && std::strncmp(program, CEPH_RELEASE ".", sizeof CEPH_RELEASE) == 0;
    return is_of_release ? program : "for Ceph " CEPH_RELEASE " alone (azure_lrc)";
}

EXPORTED int __erasure_code_init(char *name, char *)
{
    return azure_lrc::guarded([&] {
        auto plugin = std::make_unique<azure_lrc::Plugin>();
        int r = ceph::ErasureCodePluginRegistry::singleton.add(name, plugin.get());
        if (r == 0)
            plugin.release(); /* the program's from now on */
        return r;
    });
}
