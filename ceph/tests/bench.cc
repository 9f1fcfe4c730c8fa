/* Times of encoding and decoding, the profiles in turn, so that what else the machine does falls on all of them. */
#include <algorithm>
#include <chrono>
#include <cstdio>

#include "host.h"

using Clock = std::chrono::steady_clock;

struct Timed {
    std::string words;
    Code code;
    bufferlist in;
    Chunks encoded;
    double best[4]; /* encode; decode one data shard, two of a group, one of each group */
};

template <class Work> static double seconds_of(Work work)
{
    auto start = Clock::now();
    work();
    return std::chrono::duration<double>(Clock::now() - start).count();
}

/* As an OSD decodes: from the shards that minimum_to_decode named, with what it named of each. */
static double decode_seconds(const Timed &t, const Shards &lost)
{
    Reads reads;
    Chunks few, decoded;
    const unsigned size = t.encoded.at(0).length(), part = size / unsigned(t.code->get_sub_chunk_count());
    if (t.code->minimum_to_decode(lost, shards_of(without(t.encoded, lost)), &reads) != 0)
        stop(t.words + ": minimum_to_decode");
    for (auto &[shard, runs] : reads)
        for (auto [first, number] : runs) {
            bufferlist piece;
            piece.substr_of(t.encoded.at(shard), unsigned(first) * part, unsigned(number) * part);
            few[shard].claim_append(piece);
        }
    double time = seconds_of([&] {
        if (t.code->decode(lost, few, &decoded, int(size)) != 0)
            stop(t.words + ": decode");
    });
    for (int shard : lost)
        if (!decoded.at(shard).contents_equal(t.encoded.at(shard)))
            stop(t.words + ": other bytes");
    return time;
}

static void round(Timed &t)
{
    const Shards every = everything(t.code);
    const int first = data_shard(t.code, 0), second = data_shard(t.code, 1), half = data_shard(t.code, t.code->get_data_chunk_count() / 2);
    const Shards losses[] = {{first}, {first, second}, {first, half}};
    for (int again = 0; again < 4; again++) { /* the first finds its memory cold */
        t.encoded.clear();
        t.best[0] = std::min(t.best[0], seconds_of([&] { t.code->encode(every, t.in, &t.encoded); }));
    }
    for (int i = 0; i < 3; i++)
        for (int again = 0; again < 4; again++)
            t.best[i + 1] = std::min(t.best[i + 1], decode_seconds(t, losses[i]));
}

void bench(double seconds, unsigned chunk, const std::vector<std::string> &profiles)
{
    std::vector<Timed> all;
    for (const std::string &words : profiles) {
        Timed t{words, open(words), {}, {}, {1e9, 1e9, 1e9, 1e9}};
        t.in = random_bytes(chunk * t.code->get_data_chunk_count(), 1);
        all.push_back(std::move(t));
    }
    unsigned rounds = 0;
    for (auto end = Clock::now() + std::chrono::duration<double>(seconds); Clock::now() < end || rounds < 9; rounds++)
        for (Timed &t : all)
            round(t);
    printf("chunks of %u bytes, the least of %u rounds; GB/s of the object's data: encode; decode one, two of a group, one of each\n",
           chunk, rounds);
    for (Timed &t : all) {
        printf("  %-48s", t.words.c_str());
        for (double best : t.best)
            printf(" %7.2f", t.in.length() / best * 1e-9);
        printf("\n");
    }
}
