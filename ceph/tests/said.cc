/* Where the plugin says what goes wrong: on standard error, and where nobody gets that, in the system's log. */
#include <cstdarg>
#include <cstdio>
#include <fcntl.h>
#include <unistd.h>

#include "host.h"

/* In the place of the C library's: keeps what is said. */
static std::string logged;

static void keep(const char *format, va_list arguments)
{
    char text[1000];
    vsnprintf(text, sizeof text, format, arguments);
    logged += std::string(text) + "\n";
}

extern "C" void syslog(int, const char *format, ...)
{
    va_list arguments;
    va_start(arguments, format);
    keep(format, arguments);
    va_end(arguments);
}

/* What syslog is called by programs that are built with its checks. */
extern "C" void __syslog_chk(int, int, const char *format, ...)
{
    va_list arguments;
    va_start(arguments, format);
    keep(format, arguments);
    va_end(arguments);
}

/* Decodes with this chunk damaged, with this in the place of standard error. */
static void decode_damaged(const Code &code, int damaged, int in_place)
{
    const int kept = dup(STDERR_FILENO);
    Chunks encoded, decoded;
    if (code->encode(everything(code), random_bytes(20000, 5), &encoded) != 0)
        stop("encode");
    dup2(in_place, STDERR_FILENO);
    const int r = code->decode({0}, with_damage(without(encoded, {0}), damaged), &decoded, 0);
    dup2(kept, STDERR_FILENO);
    close(kept);
    if (r != 0 || !decoded.at(0).contents_equal(encoded.at(0)))
        stop("a damaged chunk among all others isn't left out");
}

void said(const std::string &words)
{
    Code code = open(words);
    int ends[2];
    char text[1000] = "";
    if (pipe(ends) != 0)
        stop("pipe");
    for (int time = 0; time < 80; time++)
        decode_damaged(code, 2, ends[1]);
    close(ends[1]);
    const bool came = read(ends[0], text, sizeof text - 1) > 0;
    close(ends[0]);
    const std::string line = text;
    expect(came && line.find("azure_lrc: decode: ") == 0 && line.find("shard 2 is damaged") != line.npos && logged.empty(),
           "a damaged chunk is said on standard error alone");
    expect(line.find('\n') == line.size() - 1, "it is said once where it comes over and over");
    /* As the daemons of Ceph 16 and 18 leave standard error where they go into the background. */
    for (auto [mode, damaged] : {std::make_pair(O_RDONLY, 3), std::make_pair(O_RDWR, 4)}) {
        const int null = open("/dev/null", mode);
        logged.clear();
        decode_damaged(code, damaged, null);
        close(null);
        std::string other = line;
        other.replace(other.find("shard 2 is"), 7, "shard " + std::to_string(damaged));
        expect(logged == other, "where that is the null device, in the system's log with the same words");
    }
}
