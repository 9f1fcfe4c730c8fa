/* Which lines are said of what happens over and over: the first of a text, and once a minute is over how many more there were. */
#include <cstdio>
#include <cstdlib>

#include "../reports.h"

using Lines = std::vector<std::string>;

static int passed = 0;

static void expect(bool holds, const char *what)
{
    if (!holds) {
        fprintf(stderr, "reports: %s\n", what);
        exit(1);
    }
    passed++;
}

int main()
{
    azure_lrc::Reports reports;
    expect(reports.at(1000, "a") == Lines{"a"}, "the first line is said at once");
    for (int i = 0; i < 80; i++)
        expect(reports.at(1000 + i / 27, "a").empty(), "the same line is not said again");
    expect(reports.at(1030, "b") == Lines{"b"}, "another line is said at once");
    expect(reports.at(1059, "a").empty(), "the minute isn't over after 59 seconds");
    expect((reports.at(1060, "c") == Lines{"a (81 times more in that minute)", "c"}), "after the minute the count is said");
    expect(reports.at(1061, "a") == Lines{"a"}, "in the next minute a line is said again");
    expect((reports.at(9000, "a") == Lines{"a"}), "a minute without more says no count");
    for (int i = 0; i < 15; i++)
        expect(reports.at(9001, std::to_string(i)) == Lines{std::to_string(i)}, "sixteen texts are said");
    for (int i = 15; i < 1000; i++)
        expect(reports.at(9002, std::to_string(i)).empty(), "of more than sixteen none is said");
    expect((reports.at(9060, "a") == Lines{"985 lines more of other shards weren't said in that minute", "a"}), "they are counted");
    printf("reports: %d passed, 0 failed\n", passed);
}
