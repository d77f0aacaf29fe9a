// A worked caller in C++, over the functions that take the tables in a struct: it takes the words of caller.c and prints the first line of what that prints, and all of what `tell` and `expect` print.
// The tables are one vector: as many rows as a text has lines, but for the limits of the summary program (8,192 bytes, 256 points, 128 rows of every other table) where caller.c has them.
#include "kastepuhm.h"

#include <algorithm>
#include <cstdio>
#include <cstdlib>
#include <fstream>
#include <iterator>
#include <optional>
#include <string>
#include <vector>

namespace {

using Bytes = std::vector<std::uint8_t>;

constexpr std::size_t most_bytes = 8192, most_points = 256, most_rows = 128;

std::uint32_t edition = KASTEPUHM_MARCH_2007;

std::optional<Bytes> load(const std::string &path)
try {
    std::ifstream file(path, std::ios::binary);
    if (!file)
        return std::nullopt;
    return Bytes(std::istreambuf_iterator<char>(file), std::istreambuf_iterator<char>());
} catch (const std::ios_base::failure &) { // a folder
    return std::nullopt;
}

// A pointer is never null, also where there are no bytes; that of an empty vector may be.
const std::uint8_t *at(const Bytes &bytes)
{
    static const std::uint8_t none = 0;
    return bytes.empty() ? &none : bytes.data();
}

// The ten tables in one block, and the structs that the functions take.
struct Tables {
    std::vector<std::uint32_t> words;
    kastepuhm_tables network;
    kastepuhm_mission_tables mission;

    Tables(std::size_t rows, std::size_t mission_rows)
        : words(KASTEPUHM_TABLES_WORDS(rows) + KASTEPUHM_MISSION_TABLES_WORDS(mission_rows), 0xAAAAAAAAu),
          network(kastepuhm_tables_in(words.data(), rows)),
          mission(kastepuhm_mission_tables_in(words.data() + KASTEPUHM_TABLES_WORDS(rows), mission_rows))
    {
    }
    Tables(const Tables &) = delete;
    Tables &operator=(const Tables &) = delete;

    // Of `rows` only so many are lent, in the order of the functions' arguments.
    void lend(const std::vector<std::size_t> &rows)
    {
        std::size_t *const lengths[] = {&network.segments_length, &network.lanes_length, &network.zones_length, &network.spots_length,
                                        &network.points_length, &network.checkpoints_length, &network.stops_length, &network.exits_length};
        const std::size_t strides[] = {KASTEPUHM_SEGMENT_STRIDE, KASTEPUHM_LANE_STRIDE, KASTEPUHM_ZONE_STRIDE, KASTEPUHM_SPOT_STRIDE,
                                       KASTEPUHM_POINT_STRIDE, KASTEPUHM_CHECKPOINT_STRIDE, KASTEPUHM_STOP_STRIDE, KASTEPUHM_EXIT_STRIDE};
        for (std::size_t i = 0; i < rows.size() && i < 8; i++)
            *lengths[i] = std::min(*lengths[i], rows[i] * strides[i]);
    }
};

// The summary program's tables: 256 rows laid out, and of all but the points 128 lent.
struct Small : Tables {
    Small() : Tables(most_points, most_rows) { lend({most_rows, most_rows, most_rows, most_rows, most_points, most_rows, most_rows, most_rows}); }
};

// The first line for an answer; and after a refusal every word that was lent is 0.
void print(const kastepuhm_answer &a, const Tables &t)
{
    if (a.accepted != 0)
        std::printf("ok %u %u %u %u %u %u %u %u %u %u\n", a.segments, a.zones, a.lanes, a.points, a.spots, a.checkpoints, a.stops, a.exits, a.goals, a.limits);
    else
        std::printf("refused %u %u %u %u\n", a.file, a.line, a.number, a.column);
    const std::uint32_t *const lanes = t.network.lanes;
    if ((a.accepted != 0) == std::all_of(lanes, lanes + t.network.lanes_length, [](std::uint32_t word) { return word == 0; }))
        std::puts("and the tables are not as they should be");
}

// What may stand where these texts were refused: a line of its own, or none where nothing is told; with so many bytes lent, the answer too.
void expect(const std::vector<Bytes> &texts, const kastepuhm_answer &why, std::optional<std::size_t> bytes)
{
    const Bytes &rndf = texts.front(), none, &mdf = texts.size() == 2 ? texts.back() : none;
    Bytes out(bytes.value_or(KASTEPUHM_EXPECTED_BYTES) + 1, 0xAA);
    const kastepuhm_expected_answer e = kastepuhm_expected(edition, at(rndf), rndf.size(), at(mdf), mdf.size(), why.file, why.line, static_cast<std::uint8_t>(why.number), out.data(), out.size() - 1);
    if (e.accepted == 0)
        std::printf("refused %u %u %u %u\n", e.file, e.line, e.number, e.column);
    else if (bytes)
        std::printf("%u\n", e.length);
    if (e.length > 0)
        std::printf("%s\n", std::string(out.begin(), out.begin() + e.length).c_str());
    if (out.back() != 0xAA || std::any_of(out.begin() + e.length, out.end() - 1, [](std::uint8_t byte) { return byte != 0; }))
        std::puts("and the output is not as it should be");
}

void tell(const std::vector<std::string> &names, bool only_expect, std::optional<std::size_t> bytes)
{
    std::vector<Bytes> texts;
    for (const std::string &name : names) {
        std::optional<Bytes> text = load(name);
        if (!text) {
            std::puts("no file");
            return;
        }
        texts.push_back(*text);
    }
    const Bytes &rndf = texts.front(), &mdf = texts.back();
    Tables t(kastepuhm_rows_for(at(rndf), rndf.size()), kastepuhm_rows_for(at(mdf), mdf.size()));
    const kastepuhm_answer a = texts.size() == 2 ? kastepuhm_read_pair_into(edition, at(rndf), rndf.size(), at(mdf), mdf.size(), &t.network, &t.mission)
                                                 : kastepuhm_read_rndf_into(edition, at(rndf), rndf.size(), &t.network);
    if (a.accepted != 0) {
        std::puts("accepted");
        return;
    }
    if (only_expect)
        return expect(texts, a, bytes);
    const std::size_t i = a.file == 2 ? 1 : 0;
    Bytes out(bytes.value_or(names[i].size() + KASTEPUHM_SENTENCE_BYTES) + 1);
    const std::size_t told = kastepuhm_sentence(reinterpret_cast<const std::uint8_t *>(names[i].data()), names[i].size(), at(texts[i]), texts[i].size(),
                                                a.line, static_cast<std::uint8_t>(a.number), a.column, out.data(), out.size() - 1);
    if (bytes)
        std::printf("%zu\n", told);
    std::fwrite(out.data(), 1, told, stdout);
    if (!bytes)
        expect(texts, a, std::nullopt);
}

void pack(const Bytes &text)
{
    Small t;
    Bytes out(text.size() + 1);
    const kastepuhm_write_answer w = kastepuhm_write_packed_into(edition, at(text), text.size(), &t.network, out.data(), text.size());
    if (w.answer.accepted == 0)
        return print(w.answer, t);
    for (std::uint32_t i = 0; i < w.length; i++)
        std::printf(i + 1 < w.length ? "%02x " : "%02x\n", static_cast<unsigned>(out[i]));
}

void mend(const Bytes &text, const std::vector<std::size_t> &lent)
{
    const std::size_t lines = kastepuhm_rows_for(at(text), text.size());
    std::vector<std::uint32_t> list((lent.empty() ? lines : lent[0]) * KASTEPUHM_MEND_STRIDE + 1);
    Bytes out((lent.size() < 2 ? text.size() + 4 * lines : lent[1]) + 1);
    const kastepuhm_mend_answer a = kastepuhm_mend(edition, at(text), text.size(), list.data(), list.size() - 1, out.data(), out.size() - 1);
    if (a.accepted != 0)
        std::printf("mended %u %u\n", a.rows, a.length);
    else
        std::printf("refused %u %u %u %u\n", a.file, a.line, a.number, a.column);
}

std::vector<std::size_t> numbers(const std::vector<std::string> &words, std::size_t from)
{
    std::vector<std::size_t> found;
    for (std::size_t i = from; i < words.size(); i++)
        found.push_back(std::strtoul(words[i].c_str(), nullptr, 10));
    return found;
}

} // namespace

int main(int count, char **arguments)
{
    std::vector<std::string> words(arguments + 1, arguments + count);
    if (!words.empty() && words[0] == "--2006") {
        edition = KASTEPUHM_DECEMBER_2006;
        words.erase(words.begin());
    }
    const auto is = [&words](std::size_t i, const char *word) { return i < words.size() && words[i] == word; };
    if (words.empty()) {
        std::fputs("usage: as caller.c\n", stderr);
        return 2;
    }
    for (std::size_t files : {1, 2})
        if (is(files, "tell") || is(files, "expect")) {
            const std::vector<std::size_t> bytes = numbers(words, files + 1);
            tell({words.begin(), words.begin() + static_cast<std::ptrdiff_t>(files)}, is(files, "expect"), bytes.empty() ? std::nullopt : std::optional<std::size_t>(bytes[0]));
            return 0;
        }
    const bool alone = words.size() == 1 || is(1, "kind") || is(1, "pack") || is(1, "unpack") || is(1, "mend");
    std::vector<Bytes> texts;
    for (std::size_t i = 0; i < (alone ? 1u : 2u); i++) {
        const std::optional<Bytes> text = load(words[i]);
        if (!text || text->size() > most_bytes) {
            std::puts(text ? "file too big" : "no file");
            return 0;
        }
        texts.push_back(*text);
    }
    const Bytes &rndf = texts.front(), &mdf = texts.back();
    if (is(1, "kind"))
        std::puts(kastepuhm_is_mission(at(rndf), rndf.size()) ? "a mission" : "no mission");
    else if (is(1, "pack"))
        pack(rndf);
    else if (is(1, "mend"))
        mend(rndf, numbers(words, 2));
    else {
        Small t;
        kastepuhm_answer a;
        if (is(1, "unpack")) {
            t.lend(numbers(words, 2));
            a = kastepuhm_read_packed_into(at(rndf), rndf.size(), &t.network);
        } else if (alone) {
            a = kastepuhm_read_rndf_into(edition, at(rndf), rndf.size(), &t.network);
        } else if (words.size() == 2) {
            a = kastepuhm_read_pair_into(edition, at(rndf), rndf.size(), at(mdf), mdf.size(), &t.network, &t.mission);
        } else if (is(2, "drive")) {
            const std::vector<std::size_t> asked = numbers(words, 3);
            std::vector<std::uint32_t> work(std::min(asked.at(1), most_points) + 1, 0xAAAAAAAAu);
            a = kastepuhm_check_mission_into(edition, at(rndf), rndf.size(), at(mdf), mdf.size(), &t.network, &t.mission, static_cast<std::uint32_t>(asked[0]), work.data(), work.size() - 1);
        } else {
            const std::vector<std::size_t> asked = numbers(words, 2);
            const std::vector<std::uint32_t> route(asked.begin(), asked.end());
            a = kastepuhm_check_route_into(edition, at(rndf), rndf.size(), at(mdf), mdf.size(), &t.network, &t.mission, route[0], route.data() + 1, route.size() - 1);
        }
        print(a, t);
    }
    return 0;
}
