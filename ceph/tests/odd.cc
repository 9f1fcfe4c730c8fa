/* What is wrong, and what threads do at once. */
#include <atomic>
#include <cerrno>
#include <cstdio>
#include <random>
#include <thread>

#include "host.h"

static void odd_decoding(const Code &code, const Chunks &encoded)
{
    const Chunks left = without(encoded, {0});
    const int last = int(code->get_chunk_count()) - 1;
    Chunks decoded, damaged = left, shorter = left, empty = left, strange = left;
    Reads reads;
    expect(code->minimum_to_decode({0}, {1, 2}, &reads) == -EIO && reads.empty(), "too few shards are -EIO");
    expect(code->minimum_to_decode({99}, {1, 2}, &reads) == -EINVAL && code->minimum_to_decode({0}, {-1}, &reads) == -EINVAL,
           "no such shard is -EINVAL");
    expect(code->decode({0}, {}, &decoded, 0) == -EIO, "no chunks are -EIO");
    expect(code->decode({0}, {{1, left.at(1)}}, &decoded, 0) == -EIO, "too few chunks are -EIO");
    expect(code->decode({0, 1, 2, 3, 4}, without(left, {1, 2, 3, 4}), &decoded, 0) == -EIO, "five lost are -EIO");
    std::string bytes = left.at(3).to_str();
    bytes[17] = char(bytes[17] ^ 1);
    damaged[3] = bufferlist();
    damaged[3].append(bytes);
    decoded.clear();
    expect(code->decode({0}, damaged, &decoded, 0) == 0 && decoded.at(0).contents_equal(encoded.at(0)),
           "a damaged chunk among all others is left out");
    shorter[2].substr_of(left.at(2), 0, 32);
    expect(code->decode({0}, shorter, &decoded, 0) == -EINVAL, "chunks of several lengths are -EINVAL");
    for (auto &[shard, chunk] : empty)
        chunk = bufferlist();
    expect(code->decode({0}, empty, &decoded, 0) == -EINVAL, "chunks without bytes are -EINVAL");
    strange[last + 1] = left.at(1);
    expect(code->decode({0}, strange, &decoded, 0) == -EINVAL && code->decode({last + 1}, left, &decoded, 0) == -EINVAL,
           "chunks of no shard are -EINVAL");
    decoded.clear();
    expect(code->decode({1, 2}, left, &decoded, 0) == 0 && decoded.at(1).contents_equal(left.at(1)), "what is there is given back");
}

/* Each shard is damaged in turn, of all that are left without one and of the fewest with one more, as they come with fast_read. Each call
 * gives what is wanted: right where the damaged one can be told, and else as it is without fast_read, from the fewest. */
static void odd_contradictions(const Code &code, const Chunks &encoded)
{
    unsigned right = 0, as_the_fewest = 0;
    for (int lost : everything(code)) {
        const Chunks left = without(encoded, {lost});
        Reads reads;
        if (code->minimum_to_decode({lost}, shards_of(left), &reads) != 0)
            stop("minimum_to_decode");
        for (auto &[damaged, chunk] : left) {
            Chunks decoded;
            if (code->decode({lost}, with_damage(left, damaged), &decoded, 0) != 0 || !decoded.at(lost).contents_equal(encoded.at(lost)))
                stop("shard " + std::to_string(damaged) + " damaged among all others isn't left out");
            right++;
        }
        for (auto &[more, chunk] : left) {
            Chunks some = {{more, chunk}}, few, made, wanted;
            for (auto &[shard, runs] : reads)
                some[shard] = few[shard] = left.at(shard);
            if (reads.count(more))
                continue;
            const int damaged = reads.begin()->first;
            few = with_damage(few, damaged);
            if (code->decode({lost}, with_damage(some, damaged), &made, 0) != 0 || code->decode({lost}, few, &wanted, 0) != 0)
                stop("one more chunk than it takes, and one damaged, gives an error");
            if (!made.at(lost).contents_equal(wanted.at(lost)) && !made.at(lost).contents_equal(encoded.at(lost)))
                stop("one more chunk than it takes, and one damaged, gives other bytes than the fewest");
            as_the_fewest++;
        }
    }
    printf("  a damaged chunk among all others is left out (%u sets); among one more than it takes no call fails (%u sets)\n", right,
           as_the_fewest);
}

static void odd_costs(const Code &code)
{
    Costs costs;
    for (int shard : everything(code))
        if (shard != 0)
            costs[shard] = 1;
    Shards cheap, dear;
    expect(code->minimum_to_decode_with_cost({0}, costs, &cheap) == 0 && cheap.size() == code->get_data_chunk_count() / 2,
           "with equal costs the group alone is read");
    costs[*cheap.begin()] = 1000;
    expect(code->minimum_to_decode_with_cost({0}, costs, &dear) == 0 && !dear.count(*cheap.begin()), "a dear shard is read around");
    costs[*cheap.begin()] = -5;
    expect(code->minimum_to_decode_with_cost({0}, costs, &dear) == 0 && dear == cheap, "a cost below 0 counts as 0");
    expect(code->minimum_to_decode_with_cost({0}, {{1, 1}}, &dear) == -EIO && dear.empty(), "too few shards with costs are -EIO");
    expect(code->minimum_to_decode_with_cost({0}, {{77, 1}}, &dear) == -EINVAL, "a cost of no shard is -EINVAL");
}

void odd(const std::string &words)
{
    Code code = open(words);
    Chunks encoded, none, some;
    bufferlist in = random_bytes(100000, 7);
    if (code->encode(everything(code), in, &encoded) != 0)
        stop("encode");
    printf("%s\n", words.c_str());
    odd_decoding(code, encoded);
    odd_contradictions(code, encoded);
    odd_costs(code);
    expect(code->encode({0, 7}, bufferlist(), &none) == 0 && none.at(7).length() == 0, "no bytes are encoded as no bytes");
    expect(code->encode({0, 7}, in_pieces(in), &some) == 0 && shards_of(some) == Shards({0, 7}), "only the wanted shards are given");
    expect(some.at(7).contents_equal(encoded.at(7)), "with the same bytes from pieces");
    Chunks incomplete = without(encoded, {1});
    expect(code->encode_chunks({}, &incomplete) == -EINVAL, "encoding without a data chunk is -EINVAL");
}

/* Eight threads share a code, as those of an OSD do: each decodes sets of one to three lost shards. */
void threads(const std::string &words)
{
    constexpr unsigned kThreads = 8, kDecodes = 1000;
    Code code = open(words);
    Chunks encoded;
    if (code->encode(everything(code), random_bytes(20000, 11), &encoded) != 0)
        stop("encode");
    std::atomic<unsigned> wrong{0};
    auto decode = [&](unsigned seed) {
        std::mt19937 random(seed);
        for (unsigned i = 0; i < kDecodes; i++) {
            Shards lost;
            while (lost.size() < 1 + i % 3)
                lost.insert(int(random() % code->get_chunk_count()));
            Chunks made;
            bool same = code->decode(lost, without(encoded, lost), &made, 0) == 0;
            for (int shard : lost)
                same = same && made.at(shard).contents_equal(encoded.at(shard));
            wrong += !same;
        }
    };
    std::vector<std::thread> started;
    for (unsigned seed = 0; seed < kThreads; seed++)
        started.emplace_back(decode, seed);
    for (auto &thread : started)
        thread.join();
    printf("%s: %u decodes in %u threads at once, %u of them wrong\n", words.c_str(), kThreads * kDecodes, kThreads, wrong.load());
    if (wrong > 0)
        stop("threads disturb each other");
}
