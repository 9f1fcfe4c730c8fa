/* Which lines are said of what may happen at each read. */
#ifndef AZURE_LRC_REPORTS_H
#define AZURE_LRC_REPORTS_H

#include <cstddef>
#include <cstdint>
#include <map>
#include <string>
#include <vector>

namespace azure_lrc {

/* Lines of a minute, which begins with the first of them: each text is said when it first comes, and then counted; the counts are said with
 * the first line after the minute. Of more texts than a few the others are counted together. */
class Reports {
public:
    static constexpr int64_t kMinute = 60;
    static constexpr size_t kMostTexts = 16;

    /* The lines to be said where this text comes at a second of a clock that never goes back. */
    std::vector<std::string> at(int64_t now, const std::string &text)
    {
        std::vector<std::string> lines;
        if (!unsaid_.empty() && now - start_ >= kMinute)
            lines = end();
        if (unsaid_.empty())
            start_ = now;
        if (auto known = unsaid_.find(text); known != unsaid_.end()) {
            known->second++;
        } else if (unsaid_.size() < kMostTexts) {
            lines.push_back(text);
            unsaid_.emplace(text, 0);
        } else {
            others_++;
        }
        return lines;
    }

private:
    /* The counts of the minute, which is over. */
    std::vector<std::string> end()
    {
        std::vector<std::string> lines;
        for (const auto &[text, count] : unsaid_)
            if (count != 0)
                lines.push_back(text + " (" + std::to_string(count) + " times more in that minute)");
        if (others_ != 0)
            lines.push_back(std::to_string(others_) + " lines more of other shards weren't said in that minute");
        unsaid_.clear();
        others_ = 0;
        return lines;
    }

    int64_t start_ = 0;
    std::map<std::string, uint64_t> unsaid_; /* of each text that was said in this minute, how often it came again */
    uint64_t others_ = 0;
};

} // namespace azure_lrc

#endif
