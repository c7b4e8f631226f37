/* fancy.hpp: a backtracking regex engine for programs in C++17, over the calls of fancy.h. Kept by hand beside it.
 *
 *     fancy::regex price(R"((?<currency>[$€])(?<number>[0-9]+))");
 *     for (const fancy::match &found : price.find_all(text))
 *         std::cout << found.start() << ": " << *found["number"] << '\n';
 *
 * Patterns, texts and templates are UTF-8. Positions are in bytes, from 0. A text is looked at where it is and never copied, so
 * it has to outlive the matches, iterators and pieces that are made of it, and stay as it is while they are used. While
 * iterators of a regex or a scanner are used, it stays where and as it is.
 *
 * Each call that fails throws fancy::error, and std::bad_alloc if the C++ library has no memory. fancy.h says which codes
 * each call has, and what a thread's stack needs.
 *
 * Threads: a regex or a scanner is used by one call at a time, copying included. Threads that search at the same time have a
 * copy each: copies share what was compiled. A match may be used by any number of threads.
 */
#ifndef FANCY_HPP
#define FANCY_HPP

#include "fancy.h"
#include "fancy_bytes.h"

#include <algorithm>
#include <iterator>
#include <memory>
#include <optional>
#include <stdexcept>
#include <string>
#include <string_view>
#include <utility>
#include <vector>

namespace fancy {

/* The options of fancy.h, which begin as its defaults:  fancy::options how; how.case_insensitive = true; */
struct options : fancy_options {
    options() : fancy_options(fancy_default_options()) {}
};

namespace detail {

/* What a call writes into the room that it is given; it returns the length of the whole. */
template <class Write> std::string written(Write write)
{
    std::string text(write(nullptr, std::size_t{0}), '\0');
    write(text.data(), text.size() + 1);
    return text;
}

/* The name of each group, by its number; empty for a group without a name. */
using names = std::shared_ptr<const std::vector<std::string>>;

/* For how many numbers one call has room, at most, or for one match. */
constexpr std::size_t most_room = std::size_t{1} << 17;

} // namespace detail

/* The version of the library that is linked, as "0.4.0". */
inline std::string version()
{
    return detail::written([](char *into, std::size_t room) { return fancy_version(into, room); });
}

/* Why a call has no result. what() is a sentence for a reader, with the place: "at byte 2: ..". */
class error : public std::runtime_error {
  public:
    error(const fancy_outcome &outcome, const std::string &message) : std::runtime_error(message), outcome_(outcome) {}

    explicit error(const fancy_outcome &outcome)
        : error(outcome, detail::written([&](char *into, std::size_t room) { return fancy_error_message(&outcome, into, room); }))
    {
    }

    fancy_code code() const noexcept { return static_cast<fancy_code>(outcome_.code); }

    /* The name of the code, as "UnclosedOpenParen". */
    std::string name() const
    {
        return detail::written([this](char *into, std::size_t room) { return fancy_error_name(outcome_.code, into, room); });
    }

    /* The byte of the pattern, tree or text at fault, from 0 to its length; none if no one place is. */
    std::optional<std::size_t> byte() const noexcept { return set(outcome_.byte); }

    /* The number of the group that is not there, or of the scanner's pattern that exceeds a limit. */
    std::optional<std::size_t> group() const noexcept { return set(outcome_.group); }

  private:
    static std::optional<std::size_t> set(std::size_t number) noexcept
    {
        return number == FANCY_UNSET ? std::nullopt : std::optional<std::size_t>(number);
    }

    fancy_outcome outcome_;
};

/* A match in a text, with its groups. Group 0 is the whole match. */
class match {
  public:
    match() = default;
    match(std::string_view text, const std::size_t *spans, detail::names names)
        : text_(text), spans_(spans, spans + 2 * names->size()), names_(std::move(names))
    {
    }

    /* How many groups the pattern has, with group 0. */
    std::size_t size() const noexcept { return spans_.size() / 2; }

    /* The bytes where a group begins and ends; FANCY_UNSET if the group is not set, or not there. */
    std::size_t start(std::size_t group = 0) const noexcept { return group < size() ? spans_[2 * group] : FANCY_UNSET; }
    std::size_t end(std::size_t group = 0) const noexcept { return group < size() ? spans_[2 * group + 1] : FANCY_UNSET; }

    /* What the whole match is of the text, and what is before and after it. */
    std::string_view str() const { return text_.substr(start(), end() - start()); }
    std::string_view prefix() const { return text_.substr(0, start()); }
    std::string_view suffix() const { return text_.substr(end()); }

    /* What a group captured; nothing if it is not set, or not there. */
    std::optional<std::string_view> operator[](std::size_t group) const
    {
        if (start(group) == FANCY_UNSET)
            return std::nullopt;
        return text_.substr(start(group), end(group) - start(group));
    }

    /* The same by its name: of several groups with one name, that of the first that is set. */
    std::optional<std::string_view> operator[](std::string_view name) const
    {
        for (std::size_t group = 1; group < size(); group++)
            if (start(group) != FANCY_UNSET && !name.empty() && (*names_)[group] == name)
                return (*this)[group];
        return std::nullopt;
    }

  private:
    std::string_view text_;
    std::vector<std::size_t> spans_;
    detail::names names_;
};

/* A match of a scanner: which of its patterns it is of. */
class hit : public match {
  public:
    hit() = default;
    hit(std::string_view text, const std::size_t *row, detail::names names)
        : match(text, row + FANCY_ROW_SPANS, std::move(names)), pattern_(row[FANCY_ROW_PATTERN]),
          stopped_(row[FANCY_ROW_STOPPED]), limit_(static_cast<fancy_code>(row[FANCY_ROW_LIMIT]))
    {
    }

    /* How many patterns were added before the one that matched. */
    std::size_t pattern() const noexcept { return pattern_; }

    /* The first pattern whose search exceeded a limit, so that a match of it may begin before this one, or FANCY_UNSET; and
     * the code of that limit, or FANCY_OK. */
    std::size_t stopped() const noexcept { return stopped_; }
    fancy_code limit() const noexcept { return limit_; }

  private:
    std::size_t pattern_ = 0, stopped_ = FANCY_UNSET;
    fancy_code limit_ = FANCY_OK;
};

namespace detail {

/* An input iterator over a range that has a next item or none. */
template <class Range, class Item> class walker {
  public:
    using iterator_category = std::input_iterator_tag;
    using value_type = Item;
    using difference_type = std::ptrdiff_t;
    using pointer = const Item *;
    using reference = const Item &;

    walker() = default;
    explicit walker(Range &range) : range_(&range) { ++*this; }
    reference operator*() const noexcept { return item_; }
    pointer operator->() const noexcept { return &item_; }
    walker &operator++()
    {
        if (!range_->next(item_))
            range_ = nullptr;
        return *this;
    }
    walker operator++(int)
    {
        walker before = *this;
        ++*this;
        return before;
    }
    friend bool operator==(const walker &a, const walker &b) noexcept { return a.range_ == b.range_; }
    friend bool operator!=(const walker &a, const walker &b) noexcept { return a.range_ != b.range_; }

  private:
    Range *range_ = nullptr;
    Item item_;
};

/* Rows of numbers, found by calls each of which has room for twice as many as the one before. */
class rows {
  public:
    explicit rows(std::size_t width) : width_(width) {}

    /* The next row, or null after the last one. `find` writes rows into its room, and returns an outcome with their count. */
    template <class Find> const std::size_t *next(Find find)
    {
        if (at_ == count_ && has_more_) {
            numbers_.resize(room_ * width_);
            last_ = find(numbers_.data(), numbers_.size());
            at_ = 0;
            count_ = std::min(last_.count, room_);
            has_more_ = last_.code == FANCY_OK;
            room_ = std::min(2 * room_, std::max(std::size_t{1}, most_room / width_));
        }
        if (at_ < count_)
            return numbers_.data() + width_ * at_++;
        if (last_.code != FANCY_NO_MATCH)
            throw error(last_);
        return nullptr;
    }

  private:
    std::size_t width_, room_ = 1, at_ = 0, count_ = 0;
    bool has_more_ = true;
    fancy_outcome last_{};
    std::vector<std::size_t> numbers_;
};

} // namespace detail

class regex;

/* The matches in a text from left to right, to be walked once: fancy_find_all says which. An iterator throws the error of a
 * search when it comes to its match. */
class matches {
  public:
    using iterator = detail::walker<matches, match>;

    matches(regex &pattern, std::string_view text);
    iterator begin() { return iterator(*this); }
    iterator end() { return iterator(); }

    /* Makes `found` the next match; false after the last one. */
    bool next(match &found);

  private:
    regex *pattern_;
    std::string_view text_;
    options how_;
    fancy_cursor cursor_ = FANCY_FIRST;
    detail::rows rows_;
};

/* A pattern that was compiled. After a move it holds nothing, and each search is FANCY_NO_PROGRAM. */
class regex {
  public:
    /* Compiles a pattern; the options are those of its searches too, but for pos. Throws the errors of fancy_compile_pattern. */
    explicit regex(std::string_view pattern, const options &how = {}) : regex(how)
    {
        const fancy_outcome outcome = fancy_compile_pattern(pattern.data(), pattern.size(), &how_, &program_);
        if (outcome.code != FANCY_OK)
            throw error(outcome, detail::written([&](char *into, std::size_t room) {
                            return fancy_explain_pattern(pattern.data(), pattern.size(), &how_, into, room);
                        }));
        name_groups();
    }

    /* Compiles a tree in the notation of docs/MEANING.md. Throws the errors of fancy_compile. */
    static regex of_tree(std::string_view tree, const options &how = {})
    {
        regex made(how);
        made.checked(fancy_compile(tree.data(), tree.size(), &made.how_, &made.program_));
        made.name_groups();
        return made;
    }

    regex(const regex &other) : regex(other.how_)
    {
        if (other.names_ != nullptr)
            checked(fancy_clone(&other.program_, &program_));
        names_ = other.names_;
    }
    regex(regex &&other) noexcept : regex(other.how_) { swap(other); }
    regex &operator=(regex other) noexcept
    {
        swap(other);
        return *this;
    }
    ~regex() { fancy_free(&program_); }

    void swap(regex &other) noexcept
    {
        std::swap(program_, other.program_);
        std::swap(how_, other.how_);
        names_.swap(other.names_);
    }

    /* How many groups the pattern has, with group 0, and the name of each; it is empty if there is none. */
    std::size_t group_count() const noexcept { return names_ != nullptr ? names_->size() : 0; }
    std::string_view group_name(std::size_t group) const
    {
        return group < group_count() ? std::string_view((*names_)[group]) : std::string_view();
    }

    /* Whether there is a match that begins at byte pos or later. Look-behind and ^ see what is before pos. */
    bool is_match(std::string_view text, std::size_t pos = 0)
    {
        how_.pos = pos;
        return checked(fancy_is_match(&program_, text.data(), text.size(), &how_)).code == FANCY_OK;
    }

    /* The first match that begins at byte pos or later. */
    std::optional<match> find(std::string_view text, std::size_t pos = 0)
    {
        how_.pos = pos;
        std::vector<std::size_t> spans(2 * group_count());
        if (checked(fancy_find(&program_, text.data(), text.size(), &how_, spans.data(), spans.size())).code != FANCY_OK)
            return std::nullopt;
        return match(text, spans.data(), names_);
    }

    /* All matches, from left to right. The regex has to outlive them, so it is no temporary. */
    matches find_all(std::string_view text) & { return matches(*this, text); }

    /* The text with its first `limit` matches replaced, all of them if limit is 0. In the template $1, ${1}, $name and ${name}
     * write what a group captured, and $$ a dollar; fancy_replace says the rest. */
    std::string replace(std::string_view text, std::string_view with, std::size_t limit = 0)
    {
        return rewritten(text, with, false, limit);
    }

    /* The same with a replacement that is written as it is. */
    std::string replace_literal(std::string_view text, std::string_view with, std::size_t limit = 0)
    {
        return rewritten(text, with, true, limit);
    }

    /* The same with what a function returns for each match. */
    template <class Function> std::string replace_with(std::string_view text, Function with, std::size_t limit = 0)
    {
        std::string made;
        made += text.substr(walk(text, limit, [&](std::string_view before, const match &found) {
            made += before;
            made += with(found);
        }));
        return made;
    }

    /* What is between the matches: one piece more than there are matches. With a limit there are at most so many pieces, of
     * which the last is the rest of the text. */
    std::vector<std::string_view> split(std::string_view text, std::size_t limit = 0)
    {
        std::vector<std::string_view> pieces;
        const auto add = [&](std::string_view before, const match &) { pieces.push_back(before); };
        const std::size_t end = limit == 1 ? 0 : walk(text, limit == 0 ? 0 : limit - 1, add);
        pieces.push_back(text.substr(end));
        return pieces;
    }

  private:
    friend class matches;
    friend class scanner;

    explicit regex(const options &how) : how_(how) {}

    static const fancy_outcome &checked(const fancy_outcome &outcome)
    {
        if (outcome.code != FANCY_OK && outcome.code != FANCY_NO_MATCH)
            throw error(outcome);
        return outcome;
    }

    void name_groups()
    {
        std::vector<std::string> found(fancy_group_count(&program_));
        for (std::size_t group = 0; group < found.size(); group++)
            found[group] = detail::written(
                [&](char *into, std::size_t room) { return fancy_group_name(&program_, group, into, room); });
        names_ = std::make_shared<const std::vector<std::string>>(std::move(found));
    }

    /* Calls a function for each of the first `limit` matches, with what is before it. Returns where the last one ends. */
    template <class Each> std::size_t walk(std::string_view text, std::size_t limit, Each each)
    {
        matches all(*this, text);
        match found;
        std::size_t end = 0;
        for (std::size_t count = 0; (limit == 0 || count < limit) && all.next(found); count++) {
            each(text.substr(end, found.start() - end), found);
            end = found.end();
        }
        return end;
    }

    std::string rewritten(std::string_view text, std::string_view with, bool is_literal, std::size_t limit)
    {
        std::string made(text.size() + text.size() / 4 + 64, '\0');
        for (;;) {
            const fancy_outcome outcome = fancy_replace(&program_, text.data(), text.size(), &how_, with.data(), with.size(),
                                                        is_literal, limit, made.data(), made.size());
            if (outcome.code != FANCY_NO_ROOM) {
                made.resize(checked(outcome).count);
                return made;
            }
            made.resize(outcome.count + 1);
        }
    }

    mutable fancy_program program_ = FANCY_NOTHING;
    options how_;
    detail::names names_;
};

inline matches::matches(regex &pattern, std::string_view text)
    : pattern_(&pattern), text_(text), how_(pattern.how_), rows_(2 * std::max(std::size_t{1}, pattern.group_count()))
{
}

inline bool matches::next(match &found)
{
    const std::size_t *row = rows_.next([this](std::size_t *numbers, std::size_t length) {
        const fancy_outcome outcome = fancy_captures_all(&pattern_->program_, text_.data(), text_.size(), &how_, &cursor_,
                                                         numbers, length);
        /* the call has checked the text, so that those after it need not */
        how_.text_is_utf8 = how_.text_is_utf8 || outcome.count != 0;
        return outcome;
    });
    if (row != nullptr)
        found = match(text_, row, pattern_->names_);
    return row != nullptr;
}

class scanner;

/* The matches of the patterns of a scanner from left to right, to be walked once: fancy_scan says which. */
class hits {
  public:
    using iterator = detail::walker<hits, hit>;

    hits(scanner &patterns, std::string_view text, std::size_t pos);
    iterator begin() { return iterator(*this); }
    iterator end() { return iterator(); }

    /* Makes `found` the next match; false after the last one. */
    bool next(hit &found);

  private:
    scanner *patterns_;
    std::string_view text_;
    std::size_t pos_;
    options how_;
    detail::rows rows_;
};

/* Patterns that are searched for together. */
class scanner {
  public:
    scanner() = default;
    scanner(scanner &&other) noexcept { swap(other); }
    scanner &operator=(scanner other) noexcept
    {
        swap(other);
        return *this;
    }
    ~scanner() { fancy_scanner_free(&scanner_); }

    void swap(scanner &other) noexcept
    {
        std::swap(scanner_, other.scanner_);
        std::swap(groups_, other.groups_);
        names_.swap(other.names_);
    }

    /* How many patterns there are. */
    std::size_t size() const noexcept { return names_.size(); }

    /* Adds a pattern, after the others, which is searched for with these options. Throws the errors of a regex; the scanner
     * has the patterns that it had then. */
    void add(std::string_view pattern, const options &how = {})
    {
        const regex read(pattern, how);
        names_.reserve(names_.size() + 1);
        regex::checked(fancy_scanner_add(&scanner_, pattern.data(), pattern.size(), &how));
        names_.push_back(read.names_);
        groups_ = std::max(groups_, read.group_count());
    }

    /* The matches of all patterns from byte pos on. The scanner has to outlive them, so it is no temporary. */
    hits scan(std::string_view text, std::size_t pos = 0) & { return hits(*this, text, pos); }

  private:
    friend class hits;

    fancy_scanner scanner_ = FANCY_NOTHING;
    std::size_t groups_ = 1;
    std::vector<detail::names> names_;
};

inline hits::hits(scanner &patterns, std::string_view text, std::size_t pos)
    : patterns_(&patterns), text_(text), pos_(pos), rows_(FANCY_ROW_WIDTH(patterns.groups_))
{
}

inline bool hits::next(hit &found)
{
    const std::size_t *row = rows_.next([this](std::size_t *numbers, std::size_t length) {
        const fancy_outcome outcome = fancy_scan(&patterns_->scanner_, text_.data(), text_.size(), &how_, &pos_,
                                                 patterns_->groups_, numbers, length);
        how_.text_is_utf8 = how_.text_is_utf8 || outcome.count != 0;
        return outcome;
    });
    if (row != nullptr)
        found = hit(text_, row, patterns_->names_[row[FANCY_ROW_PATTERN]]);
    return row != nullptr;
}

/* Bytes that need not be UTF-8, read as a text to search: fancy_bytes.h says how. They have to stay where and as they are.
 *
 *     fancy::byte_text read("caf\xE9 42");
 *     auto found = fancy::regex("[0-9]+").find(read.text());
 *     read.bytes(*found); // "42", from byte 5
 */
class byte_text {
  public:
    /* Throws std::bad_alloc. */
    explicit byte_text(std::string_view bytes, fancy_bytes_as as = FANCY_LOSSY)
    {
        if (!fancy_bytes_read(&read_, bytes.data(), bytes.size(), as))
            throw std::bad_alloc();
    }

    byte_text(const byte_text &) = delete;
    byte_text &operator=(const byte_text &) = delete;
    ~byte_text() { fancy_bytes_free(&read_); }

    std::string_view text() const noexcept { return {read_.text, read_.text_length}; }

    /* Where a place of the text, at which a character begins or the text ends, is in the bytes. */
    std::size_t offset(std::size_t at) const noexcept { return fancy_bytes_offset(&read_, at); }

    /* The bytes that a match of the text stands for. */
    std::string_view bytes(const match &found) const
    {
        const std::size_t start = offset(found.start());
        return {read_.bytes + start, offset(found.end()) - start};
    }

  private:
    fancy_bytes read_;
};

} // namespace fancy

#endif
