/* refusals: a C++ program over the library. It makes a volume, and meets each kind of answer, each refusal and each greatest size, by the header's names;
   a line for each says what the library answered, and whether it is the name's number. tests/refusals.expected has the lines. */
#include <cinttypes>
#include <cstdio>
#include <string>
#include <vector>

#include "awaqlla.h"

namespace {

struct Answer {
    std::uint64_t word[3] = {0, 0, 0};
};

struct Volume {
    std::vector<std::uint8_t> bytes;
    std::size_t length = 0;

    explicit Volume(std::size_t size = AWAQLLA_MAX_LENGTH) : bytes(size) {}

    Answer append(std::uint16_t day, const std::string &name, std::uint32_t chance, std::size_t times)
    {
        const std::vector<std::uint32_t> ticks(times + 1, 100);
        Answer a;
        awaqlla_append(bytes.data(), bytes.size(), length, day, reinterpret_cast<const std::uint8_t *>(name.c_str()), name.size(), &chance, 1,
            ticks.data(), times, a.word);
        if (a.word[0] == AWAQLLA_DONE)
            length = static_cast<std::size_t>(a.word[1]);
        return a;
    }

    Answer append_log(const std::string &log)
    {
        const std::uint32_t chance = 500000;
        Answer a;
        awaqlla_append_log(bytes.data(), bytes.size(), length, 5, reinterpret_cast<const std::uint8_t *>("A"), 1, &chance, 1,
            reinterpret_cast<const std::uint8_t *>(log.c_str()), log.size(), a.word);
        if (a.word[0] == AWAQLLA_DONE)
            length = static_cast<std::size_t>(a.word[1]);
        return a;
    }

    Answer scan(std::size_t len) const
    {
        Answer a;
        awaqlla_scan(bytes.data(), bytes.size(), len, a.word);
        return a;
    }
};

void say(const char *what, std::uint64_t answered, std::uint64_t named)
{
    std::printf("%s %" PRIu64 "%s\n", what, answered, answered == named ? "" : ", and the header says otherwise");
}

/* 100 of the largest records, and one of the 336 bytes that are left, fill a journal; a byte more is too long, in a larger buffer too. The first one's line is
   the longest: a name of 32 bytes, a day of five digits and eight chances of six. */
void say_sizes(const std::string &name, const std::vector<std::uint32_t> &times)
{
    const std::vector<std::uint32_t> chances = {100000, 100001, 100002, 100003, 100004, 100005, 100006, 100007};
    Volume full(AWAQLLA_MAX_LENGTH + 1);
    Answer a;
    for (std::size_t i = 0; i <= 100; i++) {
        const bool last = i == 100;
        awaqlla_append(full.bytes.data(), full.bytes.size(), full.length, 65535, reinterpret_cast<const std::uint8_t *>(name.data()), name.size(),
            chances.data(), last ? 1 : chances.size(), times.data(), last ? 70 : times.size(), a.word);
        if (a.word[0] == AWAQLLA_DONE)
            full.length = static_cast<std::size_t>(a.word[1]);
    }
    say("the fullest journal", full.scan(AWAQLLA_MAX_LENGTH).word[2], AWAQLLA_MAX_LENGTH);
    say("its state", full.scan(AWAQLLA_MAX_LENGTH).word[0], AWAQLLA_WHOLE);
    say("a byte more", full.scan(AWAQLLA_MAX_LENGTH + 1).word[1], AWAQLLA_REFUSAL_LENGTH);
    std::vector<std::uint8_t> line(AWAQLLA_MAX_LINE);
    say("the longest line", awaqlla_line(full.bytes.data(), full.length, 0, line.data(), line.size()), AWAQLLA_MAX_LINE);
    say("its end", line.back(), '\n');
}

} // namespace

int main()
{
    Volume volume;
    say("extended", volume.append(5, "A", 500000, 2).word[0], AWAQLLA_DONE);
    say("declined", volume.append(4, "A", 500000, 2).word[0], AWAQLLA_DECLINED);
    say("whole", volume.scan(33).word[0], AWAQLLA_WHOLE);
    say("torn", volume.scan(32).word[0], AWAQLLA_TORN);
    say("length", volume.scan(AWAQLLA_MAX_LENGTH + 1).word[1], AWAQLLA_REFUSAL_LENGTH);
    say("day", volume.append(4, "A", 500000, 2).word[1], AWAQLLA_REFUSAL_DAY);
    say("name", volume.append(5, "", 500000, 2).word[1], AWAQLLA_REFUSAL_NAME);
    say("chances", volume.append(5, "A", 1000000, 2).word[1], AWAQLLA_REFUSAL_CHANCES);
    say("even", volume.append(5, "A", 500001, 2).word[1], AWAQLLA_REFUSAL_EVEN);
    say("times", volume.append(5, "A", 500000, 129).word[1], AWAQLLA_REFUSAL_TIMES);
    say("room", Volume(32).append(5, "A", 500000, 2).word[1], AWAQLLA_REFUSAL_ROOM);
    say("absent", awaqlla_mark(volume.bytes.data(), volume.bytes.size(), volume.length, 1), AWAQLLA_REFUSAL_ABSENT);
    Volume logs;
    std::string lines;
    for (int i = 0; i < 129; i++)
        lines += "A 100\n";
    say("a line of the log", logs.append_log("A 100\nA 0100\n").word[0], AWAQLLA_LINE_REFUSED);
    say("its shape", logs.append_log("A 100\nA 0100\n").word[1], AWAQLLA_REFUSAL_LINE);
    say("its place", logs.append_log("A 100\nA 0100\n").word[2], 6);
    say("the 129th", logs.append_log(lines).word[1], AWAQLLA_REFUSAL_MANY);
    say("its place", logs.append_log(lines).word[2], 768);
    say("one line", logs.append_log("A 100\nB 100\n").word[1], AWAQLLA_REFUSAL_TIMES);
    say("two lines", logs.append_log("A 100\nB 100\nA 100\n").word[1], 33);
    Volume controllers;
    const std::vector<std::uint32_t> sheet = {1, 10, 100, 1000};
    const std::vector<std::uint32_t> links(32, 100);
    Answer p;
    std::vector<std::uint8_t> index(9);
    awaqlla_append_with(controllers.bytes.data(), controllers.bytes.size(), 0, 5, reinterpret_cast<const std::uint8_t *>("A"), 1, sheet.data(),
        sheet.size(), links.data(), 31, AWAQLLA_MAX_RECORD, index.data(), index.size(), AWAQLLA_OPTION_PROFILE, p.word);
    say("profile", p.word[1], AWAQLLA_REFUSAL_PROFILE);
    awaqlla_append_with(controllers.bytes.data(), controllers.bytes.size(), 0, 5, reinterpret_cast<const std::uint8_t *>("A"), 1, sheet.data(),
        sheet.size(), links.data(), 32, AWAQLLA_MAX_RECORD, index.data(), index.size(), AWAQLLA_OPTION_PROFILE, p.word);
    say("a record of the profile", p.word[1], 189);
    awaqlla_append_with(controllers.bytes.data(), controllers.bytes.size(), 189, 5, reinterpret_cast<const std::uint8_t *>("A"), 1, sheet.data(),
        sheet.size(), links.data(), 32, AWAQLLA_MAX_RECORD, index.data(), index.size(), AWAQLLA_OPTION_INDEX | AWAQLLA_OPTION_PROFILE, p.word);
    say("index", p.word[1], AWAQLLA_REFUSAL_INDEX);
    awaqlla_index(controllers.bytes.data(), controllers.bytes.size(), 189, index.data(), index.size(), p.word);
    say("an index of one name", p.word[1], 9);
    awaqlla_append_with(controllers.bytes.data(), controllers.bytes.size(), 189, 5, reinterpret_cast<const std::uint8_t *>("B"), 1, sheet.data(),
        sheet.size(), links.data(), 32, AWAQLLA_MAX_RECORD, index.data(), index.size(), AWAQLLA_OPTION_INDEX | AWAQLLA_OPTION_PROFILE, p.word);
    say("index room", p.word[1], AWAQLLA_REFUSAL_INDEX_ROOM);
    awaqlla_profile_scan(volume.bytes.data(), volume.bytes.size(), volume.length, p.word);
    say("a standing record", p.word[1], AWAQLLA_REFUSAL_PROFILE);
    Volume forms;
    forms.append(5, "A", 500000, 2);
    forms.append(5, "A", 500000, 2);
    forms.bytes[33] = 1;
    say("old form", forms.scan(66).word[1], AWAQLLA_REFUSAL_OLD_FORM);
    std::uint64_t merged[4];
    std::vector<std::uint8_t> both(AWAQLLA_MAX_LENGTH);
    awaqlla_merge(volume.bytes.data(), volume.bytes.size(), 32, volume.bytes.data(), volume.bytes.size(), 33, both.data(), both.size(), merged);
    say("input torn", merged[0], AWAQLLA_INPUT_TORN);
    say("torn input", merged[1], AWAQLLA_REFUSAL_TORN);
    awaqlla_merge(volume.bytes.data(), volume.bytes.size(), 33, volume.bytes.data(), volume.bytes.size(), 33, both.data(), both.size(), merged);
    say("merged", merged[0], AWAQLLA_DONE);
    say("merge declined", (awaqlla_merge(volume.bytes.data(), volume.bytes.size(), 33, volume.bytes.data(), volume.bytes.size(), 0, both.data(), 32,
        merged), merged[0]), AWAQLLA_DECLINED);
    volume.bytes[32] ^= 1;
    say("limit", volume.scan(33).word[1], AWAQLLA_REFUSAL_LIMIT);
    volume.bytes[0] = 7;
    say("form", volume.scan(33).word[1], AWAQLLA_REFUSAL_FORM);
    say("damaged", volume.scan(33).word[0], AWAQLLA_DAMAGED);
    awaqlla_merge(volume.bytes.data(), volume.bytes.size(), 33, volume.bytes.data(), volume.bytes.size(), 33, both.data(), both.size(), merged);
    say("input damaged", merged[0], AWAQLLA_DAMAGED);

    const std::string name(32, '~');
    const std::vector<std::uint32_t> chances = {1, 2, 3, 4, 5, 6, 7, 8};
    const std::vector<std::uint32_t> times(128, 100);
    std::vector<std::uint8_t> largest(AWAQLLA_MAX_RECORD);
    Answer a;
    awaqlla_append(largest.data(), largest.size(), 0, 1, reinterpret_cast<const std::uint8_t *>(name.data()), name.size(), chances.data(),
        chances.size(), times.data(), times.size(), a.word);
    say("the largest record", a.word[1], AWAQLLA_MAX_RECORD);
    say_sizes(name, times);
    std::uint64_t limit[5];
    awaqlla_limit_bits(2, times.data(), times.size(), 500000, limit);
    say("answered", limit[0], AWAQLLA_DONE);
    awaqlla_limit_bits(2, times.data(), times.size(), 0, limit);
    say("refused", limit[0], AWAQLLA_DECLINED);
    Answer band;
    awaqlla_band_bits(times.data(), times.size(), 500000, band.word);
    say("banded", band.word[0], AWAQLLA_DONE);
    awaqlla_band_bits(times.data(), times.size(), 0, band.word);
    say("no band", band.word[0], AWAQLLA_DECLINED);
    say("share", band.word[1], AWAQLLA_REFUSAL_SHARE);
    return 0;
}
