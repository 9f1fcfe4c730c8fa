/* Calls that Ceph may make of a code, of ours and of the shipped ones: what each does. Each call is made in a process of its own, since
 * some plugins end it. */
#include <cerrno>
#include <cstdio>
#include <cstring>
#include <sys/wait.h>
#include <unistd.h>

#include "host.h"

namespace {

constexpr unsigned kLength = 100000;

/* A code with what was encoded of one object. */
struct Stripe {
    Code code;
    Chunks encoded;
    int lost, other; /* two data shards */

    Chunks left() const { return without(encoded, {lost}); }
    /* The fewest chunks that the lost one is made from. */
    Chunks fewest() const
    {
        Reads reads;
        Chunks few;
        if (code->minimum_to_decode({lost}, shards_of(left()), &reads) != 0)
            stop("minimum_to_decode");
        for (auto &[shard, runs] : reads)
            few[shard] = encoded.at(shard);
        return few;
    }
};

/* From the worst to the best. */
enum Outcome { kAborts, kError, kOtherBytes, kRight };
const char *const kNames[] = {"ends the process", "an error", "other bytes", "right"};

Outcome of_decode(const Stripe &stripe, const Shards &want, const Chunks &chunks, Chunks decoded = {})
{
    if (stripe.code->decode(want, chunks, &decoded, int(chunks.begin()->second.length())) != 0)
        return kError;
    for (int shard : want)
        if (!decoded.count(shard) || !decoded.at(shard).contents_equal(stripe.encoded.at(shard)))
            return kOtherBytes;
    return kRight;
}

Chunks each(const Chunks &chunks, bufferlist (*change)(bufferlist))
{
    Chunks changed;
    for (auto &[shard, chunk] : chunks)
        changed[shard] = change(chunk);
    return changed;
}

/* A chunk's bytes in one piece of memory, three bytes after an aligned place. */
bufferlist unaligned(bufferlist chunk)
{
    ceph::buffer::ptr room(ceph::buffer::create_aligned(chunk.length() + 3, 64));
    memcpy(room.c_str() + 3, chunk.c_str(), chunk.length());
    bufferlist moved;
    moved.push_back(ceph::buffer::ptr(room, 3, chunk.length()));
    return moved;
}

Outcome wants_nothing(const Stripe &s) { return of_decode(s, {}, s.left()); }
Outcome wants_what_is_there(const Stripe &s) { return of_decode(s, {s.other}, s.left()); }
Outcome wants_both(const Stripe &s) { return of_decode(s, {s.lost, s.other}, s.left()); }
Outcome holds_stale_chunks(const Stripe &s) { return of_decode(s, {s.lost}, s.left(), {{s.other, bufferlist()}}); }
Outcome comes_in_pieces(const Stripe &s) { return of_decode(s, {s.lost}, each(s.left(), in_pieces)); }
Outcome comes_unaligned(const Stripe &s) { return of_decode(s, {s.lost}, each(s.left(), unaligned)); }

Outcome has_no_bytes(const Stripe &s)
{
    Chunks encoded;
    if (s.code->encode(everything(s.code), bufferlist(), &encoded) != 0)
        return kError;
    return !encoded.empty() && encoded.begin()->second.length() == 0 ? kRight : kOtherBytes;
}

Outcome joins_the_data(const Stripe &s)
{
    bufferlist all, wanted;
    for (unsigned i = 0; i < s.code->get_data_chunk_count(); i++)
        wanted.append(s.encoded.at(data_shard(s.code, i)));
    return s.code->decode_concat(s.left(), &all) != 0 ? kError : all.contents_equal(wanted) ? kRight : kOtherBytes;
}

Outcome asks_for_nothing(const Stripe &s)
{
    Reads reads;
    return s.code->minimum_to_decode({}, shards_of(s.left()), &reads) != 0 ? kError : reads.empty() ? kRight : kOtherBytes;
}

Outcome asks_for_what_is_there(const Stripe &s)
{
    Reads reads;
    const int r = s.code->minimum_to_decode({s.other}, shards_of(s.left()), &reads);
    return r != 0 ? kError : reads.size() == 1 && reads.count(s.other) ? kRight : kOtherBytes;
}

/* As with `fast_read`, where one shard more than it takes may have come, and a wrong one among them. */
Outcome one_more_and_one_wrong(const Stripe &s)
{
    Chunks some = s.fewest();
    const int wrong = some.begin()->first;
    for (auto &[shard, chunk] : s.left())
        if (some.emplace(shard, chunk).second)
            break;
    return of_decode(s, {s.lost}, with_damage(some, wrong));
}

Outcome all_and_one_wrong(const Stripe &s) { return of_decode(s, {s.lost}, with_damage(s.left(), s.other)); }

struct Case {
    const char *name;
    Outcome (*call)(const Stripe &);
    Outcome least; /* what is asked of ours where another plugin does as well */
};

const Case kCases[] = {
    {"nothing is wanted", wants_nothing, kRight},
    {"what is there is wanted", wants_what_is_there, kRight},
    {"a lost chunk and one that is there are wanted", wants_both, kRight},
    {"the chunks to fill hold an empty one", holds_stale_chunks, kRight},
    {"chunks come in pieces", comes_in_pieces, kRight},
    {"chunks come unaligned", comes_unaligned, kRight},
    {"an object without bytes", has_no_bytes, kRight},
    {"the data are joined", joins_the_data, kRight},
    {"what to read for nothing", asks_for_nothing, kRight},
    {"what to read for what is there", asks_for_what_is_there, kRight},
    {"one chunk more than it takes, and one is wrong", one_more_and_one_wrong, kOtherBytes},
    {"all chunks but one, and one is wrong", all_and_one_wrong, kOtherBytes},
};

/* What a call does, in a process of its own, which says nothing. */
Outcome outcome(const Case &it, const Stripe &stripe)
{
    fflush(stdout);
    const pid_t child = fork();
    if (child == 0) {
        if (!freopen("/dev/null", "w", stderr))
            _exit(kAborts);
        _exit(it.call(stripe));
    }
    int status = 0;
    if (child < 0 || waitpid(child, &status, 0) != child)
        stop("fork");
    return WIFEXITED(status) ? Outcome(WEXITSTATUS(status)) : kAborts;
}

Stripe stripe_of(const std::string &words)
{
    Stripe stripe;
    stripe.code = open(words);
    stripe.lost = data_shard(stripe.code, 0);
    stripe.other = data_shard(stripe.code, 1);
    if (stripe.code->encode(everything(stripe.code), random_bytes(kLength, 13), &stripe.encoded) != 0)
        stop(words + ": encode");
    return stripe;
}

} // namespace

void beside(const std::vector<std::string> &profiles)
{
    std::vector<Stripe> stripes;
    for (const std::string &words : profiles)
        stripes.push_back(stripe_of(words));
    for (const Case &it : kCases) {
        std::vector<Outcome> found;
        for (const Stripe &stripe : stripes)
            found.push_back(outcome(it, stripe));
        printf("  %s:", it.name);
        for (size_t i = 0; i < found.size(); i++)
            printf("%s %s %s", i ? "," : "", parse(profiles[i])["plugin"].c_str(), kNames[found[i]]);
        printf("\n");
        for (size_t i = 1; i < found.size(); i++)
            if (found[0] < std::min(found[i], it.least))
                stop(std::string("ours is worse where ") + it.name);
    }
    printf("%zu calls: what a shipped plugin survives ours does\n", std::size(kCases));
}
