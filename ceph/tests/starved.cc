/* Calls whose allocations are refused, each in turn: they answer -ENOMEM, and no exception leaves them. */
#include <cerrno>
#include <cstdio>
#include <cstdlib>
#include <new>

#include "host.h"

/* How many allocations are still given; below 0 all are. */
static long given = -1;

__attribute__((noinline)) void *operator new(size_t size)
{
    if (given == 0)
        throw std::bad_alloc();
    if (given > 0)
        given--;
    if (void *memory = malloc(size ? size : 1))
        return memory;
    throw std::bad_alloc();
}

__attribute__((noinline)) void operator delete(void *memory) noexcept { free(memory); }
__attribute__((noinline)) void operator delete(void *memory, size_t) noexcept { free(memory); }

/* Calls with 0, 1, 2 .. allocations given, until it needs no more. */
template <class Call> static void starve(const char *name, Call call)
{
    for (long allowed = 0;; allowed++) {
        int r = -1;
        given = allowed;
        try {
            r = call();
        } catch (...) {
            given = -1;
            stop(std::string(name) + ": an exception leaves it");
        }
        const bool was_refused = given == 0;
        given = -1;
        if (r == 0) {
            printf("  %s: %ld allocations, each refused in turn\n", name, allowed);
            return;
        }
        if (r != -ENOMEM || !was_refused)
            stop(std::string(name) + " without memory answers " + std::to_string(r));
    }
}

void starved(const std::string &words)
{
    Code code = open(words);
    const bufferlist in = random_bytes(5000, 3);
    const Shards every = everything(code), lost = {0, 5, 9};
    Chunks encoded;
    if (code->encode(every, in, &encoded) != 0)
        stop("encode");
    const Chunks left = without(encoded, lost);
    const Shards there = shards_of(left);
    Costs costs;
    for (int shard : there)
        costs[shard] = 1;
    printf("%s\n", words.c_str());
    starve("encode", [&] { Chunks out; return code->encode(every, in, &out); });
    starve("decode", [&] { Chunks out; return code->decode(lost, left, &out, 0); });
    starve("decode_concat", [&] { bufferlist out; return code->decode_concat(left, &out); });
    starve("minimum_to_decode", [&] { Reads out; return code->minimum_to_decode(lost, there, &out); });
    starve("minimum_to_decode_with_cost", [&] { Shards out; return code->minimum_to_decode_with_cost(lost, costs, &out); });
    Profile profile = parse(words);
    starve("init", [&] { return code->init(profile, nullptr); });
}
