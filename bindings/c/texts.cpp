/*
 * Compares the predicates and the appends of vortex_bits_texts.hpp and vortex_bits_texts_mut.hpp
 * with loops over single texts, on columns next to inaccessible pages, and tests their errors.
 */
#include "tests.hpp"
#include "vortex_bits.hpp"

#include <cstring>
#include <functional>
#include <random>
#include <sys/mman.h>

using vortex_bits::bits;
using vortex_bits::bits_mut;
using vortex_bits::texts;
using vortex_bits::texts_mut;
using vortex_bits::view;
using buffer = std::vector<std::uint8_t>;
using predicate = std::function<bool(std::string_view)>;

static std::mt19937 any(1);
/* Right indices are below this number, so that they fit each type of index. */
static const std::size_t LOW = 100;

static std::size_t below(std::size_t n)
{
    return any() % n;
}

/* Items that end right before a page that can't be read, or begin right after one. */
template <class Item> class edge {
public:
    explicit edge(const std::vector<Item> &items) : count_(items.size())
    {
        const std::size_t page = 4096, size = count_ * sizeof(Item);
        const std::size_t room = (size + page - 1) / page * page;
        size_ = room + 2 * page;
        all_ = static_cast<char *>(
            mmap(nullptr, size_, PROT_NONE, MAP_PRIVATE | MAP_ANONYMOUS, -1, 0));
        if (all_ == MAP_FAILED || mprotect(all_ + page, room, PROT_READ | PROT_WRITE) != 0) {
            std::abort();
        }
        at_ = reinterpret_cast<Item *>(all_ + page + (below(2) == 0 ? 0 : room - size));
        std::copy(items.begin(), items.end(), at_);
    }
    edge(const edge &) = delete;
    ~edge() { munmap(all_, size_); }

    const Item *data() const { return at_; }
    std::size_t size() const { return count_; }

private:
    char *all_;
    Item *at_;
    std::size_t count_, size_;
};

/* Returns a text over an alphabet of four bytes: texts often share either end, or are equal. */
static std::string text()
{
    const std::size_t kinds[] = {1, 4, 9, 12, 20, 70};
    std::string made(below(kinds[below(6)]), 'a');
    for (char &it : made) {
        it = "ab\0\xFF"[below(below(3) == 0 ? 4 : 2)];
    }
    return made;
}

/* Compares what `call` writes to a window at any bit with `passes` of each text. */
template <class Offset, class Call>
static void writes(const texts<Offset> &all, Call call, const predicate &passes, const char *what)
{
    const std::size_t at = below(70);
    buffer got(at / 8 + all.size() / 8 + 12);
    for (std::uint8_t &it : got) {
        it = static_cast<std::uint8_t>(any());
    }
    buffer wanted = got;
    call(bits_mut(got, at, all.size()));
    for (std::size_t row = 0; row < all.size(); row++) {
        bits_mut(wanted, at, all.size()).set(row, passes(all[row]));
    }
    check(got == wanted, what);
}

template <class Offset> static void compares(const texts<Offset> &all, const std::string &other)
{
    const std::string_view it = other;
    const predicate wanted[] = {[=](auto row) { return row == it; },
        [=](auto row) { return row != it; }, [=](auto row) { return row < it; },
        [=](auto row) { return row <= it; }, [=](auto row) { return row > it; },
        [=](auto row) { return row >= it; }};
    const vb_comparison ops[] = {VB_EQUAL, VB_NOT_EQUAL, VB_LESS, VB_LESS_OR_EQUAL, VB_GREATER,
        VB_GREATER_OR_EQUAL};
    for (std::size_t k = 0; k < 6; k++) {
        writes(all, [&](bits_mut out) { all.compare(ops[k], it, out); }, wanted[k], "compare");
    }
}

template <class Offset> static void searches(const texts<Offset> &all, const std::string &other)
{
    const std::string_view it = other;
    writes(all, [&](bits_mut out) { all.starts_with(it, out); },
        [=](auto row) { return row.substr(0, it.size()) == it; }, "starts_with");
    writes(all, [&](bits_mut out) { all.ends_with(it, out); },
        [=](auto row) {
            return row.size() >= it.size() && row.substr(row.size() - it.size()) == it;
        },
        "ends_with");
    writes(all, [&](bits_mut out) { all.contains(it, out); },
        [=](auto row) { return row.find(it) != row.npos; }, "contains");
}

template <class Offset>
static void is_in(const texts<Offset> &all, const std::vector<std::string> &wanted)
{
    writes(all, [&](bits_mut out) { all.is_in(wanted, out); },
        [&](auto row) { return std::find(wanted.begin(), wanted.end(), row) != wanted.end(); },
        "is_in");
    writes(all, [&](bits_mut out) { all.is_in({"a", "b", "ab"}, out); },
        [&](auto row) { return row == "a" || row == "b" || row == "ab"; }, "is_in a list");
}

/* Compares texts, and their offsets and bytes, with those of a list. */
template <class Offset>
static void has(const texts_mut<Offset> &all, const std::vector<std::string> &wanted)
{
    bool is = all.size() == wanted.size() && all.offsets().size() == wanted.size() + 1
        && all.empty() == wanted.empty() && all.as_texts().size() == wanted.size();
    std::string joined;
    for (std::size_t row = 0; is && row < wanted.size(); row++) {
        is = all[row] == wanted[row] && all.as_texts()[row] == wanted[row]
            && static_cast<std::size_t>(all.offsets()[row]) == joined.size();
        joined += wanted[row];
    }
    check(is && all.bytes() == joined, "what is appended");
}

template <class Offset, class Index>
static void takes(texts_mut<Offset> &kept, std::vector<std::string> &wanted,
    const texts<Offset> &all)
{
    std::vector<Index> at(all.empty() ? 0 : below(40));
    buffer valid(8);
    std::optional<bits> counts;
    if (below(2) == 0) {
        counts = bits(valid, 5, at.size());
    }
    for (std::size_t k = 0; k < at.size(); k++) {
        const bool is = below(3) != 0;
        bits_mut(valid, 5, at.size()).set(k, is);
        at[k] = static_cast<Index>(counts && !is ? any() : below(std::min(all.size(), LOW)));
        wanted.push_back(counts && !is ? std::string() : std::string(all[std::size_t(at[k])]));
    }
    check(!kept.append_taken(all, at, counts), "a take");
    has(kept, wanted);
    std::vector<Index> wrong(all.empty() ? 0 : below(3));
    wrong.push_back(static_cast<Index>(-1));
    check(all.size() > 255 || kept.append_taken(all, wrong) == wrong.size() - 1, "a wrong index");
    has(kept, wanted);
}

template <class Offset>
static void appends(texts_mut<Offset> &kept, std::vector<std::string> &wanted,
    const texts<Offset> &all)
{
    buffer bytes(all.size() / 8 + 3);
    for (std::uint8_t &it : bytes) {
        it = static_cast<std::uint8_t>(any() & any());
    }
    const bits mask(bytes, below(9), all.size());
    mask.for_each_set([&](std::size_t row) { wanted.emplace_back(all[row]); });
    check(kept.append_kept(all, mask) == mask.count_ones(), "how many texts are kept");
    takes<Offset, std::uint8_t>(kept, wanted, all);
    takes<Offset, std::int32_t>(kept, wanted, all);
    takes<Offset, std::uint64_t>(kept, wanted, all);
    wanted.push_back(text());
    kept.append(wanted.back());
    has(kept, wanted);
}

template <class Offset> static void round()
{
    texts_mut<Offset> kept;
    std::vector<std::string> wanted;
    for (int batch = 0; batch < 3; batch++) {
        std::string joined = text();
        std::vector<Offset> offsets = {static_cast<Offset>(joined.size())};
        for (std::size_t rows = below(below(8) == 0 ? 1600 : 70); rows > 0; rows--) {
            joined += text();
            offsets.push_back(static_cast<Offset>(joined.size()));
        }
        joined += below(2) == 0 ? text() : std::string();
        const edge<Offset> starts(offsets);
        const edge<char> bytes(std::vector<char>(joined.begin(), joined.end()));
        const texts<Offset> whole(starts, bytes);
        const std::size_t from = below(whole.size() + 1);
        const texts<Offset> all = whole.slice(from, below(whole.size() - from + 1));
        check(all.empty() || all[all.size() - 1] == whole[from + all.size() - 1], "a slice");
        const std::string other = all.empty() || below(3) == 0 ? text()
            : std::string(all[below(all.size())]).substr(0, below(2) == 0 ? 3 : 100);
        compares(all, other);
        searches(all, other);
        std::vector<std::string> wanted_texts = {other};
        wanted_texts.resize(below(2) == 0 ? 3 : 40);
        std::generate(wanted_texts.begin() + 1, wanted_texts.end(), text);
        is_in(all, wanted_texts);
        appends(kept, wanted, all);
    }
}

/* Numbers that are no offsets of texts, and outputs and masks of another length. */
template <class Offset> static void refusals()
{
    using offsets = std::vector<Offset>;
    const std::string bytes = "OsloRome";
    for (const offsets &wrong : {offsets{-1, 4}, offsets{0, 4, 3}, offsets{4, 0}, offsets{0, 9},
             offsets{9}, offsets{std::numeric_limits<Offset>::min(), 0}}) {
        refused([&] { (void)texts(wrong, bytes); }, "wrong offsets");
    }
    const offsets right = {0, 4, 8};
    const texts all(right, bytes);
    buffer some(1);
    const bits_mut less(some, 0, 1), more(some, 0, 3), same(some, 0, 2);
    for (const bits_mut &it : {less, more}) {
        refused([&] { all.compare(VB_EQUAL, "Oslo", it); }, "two lengths");
        refused([&] { all.compare(VB_LESS, "Oslo", it); }, "two lengths");
        refused([&] { all.starts_with("O", it); }, "two lengths");
        refused([&] { all.ends_with("o", it); }, "two lengths");
        refused([&] { all.contains("o", it); }, "two lengths");
        refused([&] { all.is_in({"Oslo"}, it); }, "two lengths");
        refused([&] { (void)texts_mut<Offset>().append_kept(all, it); }, "two lengths");
        refused([&] { (void)texts_mut<Offset>().append_taken(all, right, it.slice(0, 1)); },
            "two lengths");
    }
    refused([&] { all.compare(static_cast<vb_comparison>(6), "Oslo", same); }, "an operator");
    refused([&] { (void)all[2]; }, "a row");
    refused([&] { (void)all.slice(1, 2); }, "a slice");
    refused([&] { (void)all.slice(3, 0); }, "a slice");
    const texts_mut<Offset> none;
    refused([&] { (void)none[0]; }, "a row");
    check(some == buffer(1), "a refused call left all as it was");
}

/* Texts from pointers, as an array of Arrow has them. */
template <class Offset> static void of_pointers()
{
    const std::vector<Offset> offsets = {0, 4, 8, 8}, wrong = {0, 4, -1}, none = {0, 0};
    const std::string bytes = "OsloRome";
    const auto all = vortex_bits::texts_of<Offset>(offsets.data(), bytes.data(), 1, 2);
    check(all.size() == 2 && all[0] == "Rome" && all[1].empty(), "texts from row 1 on");
    check(vortex_bits::texts_of<Offset>(nullptr, nullptr, 0, 0).empty(), "no texts");
    check(vortex_bits::texts_of<Offset>(none.data(), nullptr, 0, 1)[0].empty(), "no bytes");
    const auto refuses = [&](const Offset *starts, const char *texts, std::size_t len) {
        refused([&] { (void)vortex_bits::texts_of<Offset>(starts, texts, 0, len); }, "pointers");
    };
    refuses(nullptr, bytes.data(), 1);
    refuses(offsets.data(), nullptr, 1);
    refuses(wrong.data(), bytes.data(), 2);
}

/* Texts without offsets, without bytes, and at null pointers. */
template <class Offset> static void nothing()
{
    const texts<Offset> none, empty{view<const Offset>(), view<const char>()};
    const std::vector<Offset> one = {0}, nulls = {0, 0, 0};
    const texts<Offset> all(nulls, view<const std::uint8_t>());
    check(none.empty() && empty.empty() && texts(one, std::string_view()).empty(), "no texts");
    check(none.slice(0, 0).empty() && texts_mut<Offset>().empty(), "no texts");
    const bits_mut empty_mask(static_cast<std::uint8_t *>(nullptr), 0, 0, 0);
    for (const texts<Offset> &it : {none, empty}) {
        it.compare(VB_EQUAL, "", empty_mask);
        it.contains("a", empty_mask);
        it.is_in(std::vector<std::string_view>(), empty_mask);
    }
    writes(all, [&](bits_mut out) { all.compare(VB_EQUAL, {}, out); },
        [](auto row) { return row.empty(); }, "texts without bytes");
    writes(all, [&](bits_mut out) { all.contains("a", out); }, [](auto) { return false; },
        "texts without bytes");
    texts_mut<Offset> kept;
    check(kept.append_kept(none, bits()) == 0 && !kept.append_taken(all, nulls), "empty texts");
    has(kept, {"", "", ""});
    const texts_mut<Offset> moved = std::move(kept);
    has(moved, {"", "", ""});
    check(kept.empty() && kept.as_texts().empty(), "texts that were moved from");
    kept.append("a");
    has(kept, {"a"});
}

/* Texts with offsets of 32 bits have at most 2^31 - 1 bytes. */
static void too_many_bytes()
{
    const std::size_t most = std::size_t(INT32_MAX), size = most / 2 + 1;
    const int kind = MAP_PRIVATE | MAP_ANONYMOUS | MAP_NORESERVE;
    void *zeros = mmap(nullptr, size, PROT_READ, kind, -1, 0);
    const std::vector<std::int32_t> offsets = {0, std::int32_t(size)};
    const texts all(offsets, view(static_cast<const char *>(zeros), size));
    texts_mut<std::int32_t> kept;
    kept.append("ab");
    const buffer mask = {1};
    const std::vector<std::uint8_t> twice = {0, 0};
    refused([&] { (void)kept.append_taken(all, twice); }, "too many bytes");
    kept.append_kept(all, bits(mask, 0, 1));
    refused([&] { (void)kept.append_kept(all, bits(mask, 0, 1)); }, "too many bytes");
    refused([&] { kept.append(all[0]); }, "too many bytes");
    check(kept.size() == 2 && kept.bytes().size() == size + 2, "a refused append changed nothing");
    const texts_mut<std::int32_t> moved = std::move(kept);
    refused([&] { (void)kept.append_taken(all, twice); }, "too many bytes");
    check(moved.size() == 2 && kept.offsets().empty(), "a refused append after a move");
    munmap(zeros, size);
}

int main()
{
    for (int k = 0; k < 1500; k++) {
        round<std::int32_t>();
        round<std::int64_t>();
    }
    refusals<std::int32_t>();
    refusals<std::int64_t>();
    of_pointers<std::int32_t>();
    of_pointers<std::int64_t>();
    nothing<std::int32_t>();
    nothing<std::int64_t>();
    too_many_bytes();
    return failures == 0 ? 0 : 1;
}
