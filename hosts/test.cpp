/* Tests fancy.hpp. What is expected follows from the meaning of the patterns, and is what Python's `re` gives if it has them. */
#include "fancy.hpp"
#include <cstdio>
#include <cstdlib>
#include <functional>
#include <thread>
#include <type_traits>

#if __cplusplus >= 202002L
#include <ranges>
static_assert(std::ranges::input_range<fancy::matches> && std::ranges::input_range<fancy::hits>);
#endif

using std::string;
using std::string_view;
using strings = std::vector<string>;

static int count = 0;

static void check(bool is_so, const char *what, int line)
{
    count++;
    if (!is_so) {
        std::fprintf(stderr, "line %d: %s\n", line, what);
        std::exit(1);
    }
}

#define CHECK(condition) check(condition, #condition, __LINE__)

static fancy::error thrown_by(const std::function<void()> &call)
{
    try {
        call();
    } catch (const fancy::error &error) {
        return error;
    }
    std::fprintf(stderr, "no error was thrown\n");
    std::exit(1);
}

template <class Range> static strings all_of(Range &&range)
{
    strings found;
    for (const auto &it : range)
        found.emplace_back(it.str());
    return found;
}

static void one_match()
{
    fancy::regex price(R"((?<=\$)(?<number>[0-9]+)(?<cents>\.[0-9]+)?)");
    CHECK(price.group_count() == 3 && price.group_name(1) == "number" && price.group_name(0).empty());
    const string text = "cost $42, $7";
    const auto found = price.find(text);
    CHECK(found && found->start() == 6 && found->end() == 8 && found->str() == "42");
    CHECK(found->prefix() == "cost $" && found->suffix() == ", $7" && found->size() == 3);
    CHECK((*found)[1] == "42" && (*found)["number"] == "42" && (*found)[0] == "42");
    CHECK(!(*found)[2] && !(*found)["cents"] && found->start(2) == FANCY_UNSET);
    CHECK(!(*found)[3] && !(*found)["euros"] && !(*found)[""] && found->end(3) == FANCY_UNSET);
    CHECK(price.find(text, 8)->str() == "7" && !price.find(text, 12));
    CHECK(price.is_match(text) && !price.is_match("cost 42") && !price.is_match(text, 12));
    /* look-behind sees what is before pos */
    CHECK(price.find(text, 6)->start() == 6);
    fancy::regex either("(?<x>a)|(?<x>b)");
    CHECK((*either.find("b"))["x"] == "b" && !(*either.find("b"))[1]);
    fancy::regex empty("");
    CHECK(empty.find(string_view())->str().empty());
    fancy::options how;
    how.case_insensitive = true;
    CHECK(fancy::regex("straSSe", how).is_match("STRASSE"));
    CHECK(fancy::regex::of_tree(R"((cat "a" (grp (alt "b" "bc")) "d"))").find("abcd")->end(1) == 3);
    CHECK(fancy::version() == FANCY_VERSION);
}

static void all_matches()
{
    fancy::regex stars("a*");
    std::vector<std::size_t> ends;
    for (const fancy::match &found : stars.find_all("baa\xc3\xa9" "a"))
        ends.insert(ends.end(), {found.start(), found.end()});
    CHECK((ends == std::vector<std::size_t>{0, 0, 1, 3, 5, 6}));
    fancy::regex date(R"((?<year>\d{4})-(?<month>\d\d)?)");
    string said;
    for (const auto &it : date.find_all("2026-11, 2027-"))
        said += string(*it["year"]) + "/" + string(it["month"].value_or("?")) + " ";
    CHECK(said == "2026/11 2027/? ");
    string many;
    for (int i = 0; i < 10000; i++)
        many += std::to_string(i) + " ";
    fancy::regex number("[0-9]+");
    auto range = number.find_all(many);
    const std::vector<fancy::match> found(range.begin(), range.end());
    CHECK(found.size() == 10000 && found[9999].str() == "9999" && found[0].str() == "0");
    auto few = number.find_all("1 22");
    auto at = few.begin();
    CHECK((*at++).str() == "1" && at->str() == "22" && ++at == few.end());
    auto none = number.find_all("a");
    CHECK(none.begin() == none.end());
    static_assert(std::is_same_v<std::iterator_traits<fancy::matches::iterator>::value_type, fancy::match>);
}

static void replacing()
{
    fancy::regex mail(R"((\w+)@(?<at>\w+))");
    CHECK(mail.replace("ann@home bob@work", "${at}: $1") == "home: ann work: bob");
    CHECK(mail.replace("ann@home bob@work", "$2: $1 $$", 1) == "home: ann $ bob@work");
    CHECK(mail.replace_literal("ann@home bob@work", "$1") == "$1 $1");
    CHECK(mail.replace("nobody", "x") == "nobody" && mail.replace("", "x").empty());
    fancy::regex letter("[a-z]");
    CHECK(letter.replace("abc", string(1000, '-')) == string(3000, '-'));
    fancy::regex number("[0-9]+");
    const auto twice = [](const fancy::match &it) { return std::to_string(2 * std::stoi(string(it.str()))); };
    CHECK(number.replace_with("1 20 300!", twice) == "2 40 600!");
    CHECK(number.replace_with("1 20 300!", twice, 2) == "2 40 300!");
    CHECK(number.replace_with("none", twice) == "none");
}

static void splitting()
{
    using pieces = std::vector<string_view>;
    fancy::regex comma(R"(,\s*)");
    CHECK((comma.split("a, b,,c") == pieces{"a", "b", "", "c"}));
    CHECK((comma.split("a, b,,c", 2) == pieces{"a", "b,,c"}));
    CHECK((comma.split("a, b", 1) == pieces{"a, b"}) && (comma.split("a,", 9) == pieces{"a", ""}));
    CHECK((comma.split("") == pieces{""}) && (comma.split("a") == pieces{"a"}));
}

static void scanning()
{
    fancy::scanner scanner;
    CHECK(all_of(scanner.scan("a")).empty() && scanner.size() == 0);
    scanner.add(R"x("(?<inside>[^"]*)")x");
    scanner.add("[a-z]+");
    string said;
    for (const fancy::hit &it : scanner.scan(R"(ab "cd" e)"))
        said += std::to_string(it.pattern()) + string(it.str()) + string(it["inside"].value_or("")) + " ";
    CHECK(said == R"(1ab 0"cd"cd 1e )");
    CHECK((all_of(scanner.scan(R"(ab "cd" e)", 2)) == strings{"\"cd\"", "e"}));
    CHECK(thrown_by([&] { scanner.add("(a"); }).code() == FANCY_UNCLOSED_OPEN_PAREN && scanner.size() == 2);
    fancy::scanner moved = std::move(scanner);
    CHECK((all_of(moved.scan("x y")) == strings{"x", "y"}));
    /* a pattern that exceeds a limit hides no match of the others */
    fancy::options how;
    how.backtrack_limit = 1;
    moved.add(R"((?:z|zz)*(z)\1!)", how);
    auto hits = moved.scan("zzzzzzzzzz x !");
    const auto first = hits.begin();
    CHECK(first->pattern() == 1 && first->stopped() == 2 && first->limit() == FANCY_BACKTRACK_LIMIT_EXCEEDED);
}

static void errors()
{
    const auto open = thrown_by([] { fancy::regex("(a"); });
    CHECK(open.code() == FANCY_UNCLOSED_OPEN_PAREN && open.byte() == 2u && !open.group() && open.name() == "UnclosedOpenParen");
    CHECK(string_view(open.what()).substr(0, 11) == "at byte 2: ");
    const auto unnamed = thrown_by([] { fancy::regex(R"((a)\k<x>)"); });
    CHECK(unnamed.byte() == 3u && string_view(unnamed.what()) == "at byte 3: there is no group named 'x'");
    CHECK(thrown_by([] { fancy::regex::of_tree("(cat"); }).code() == FANCY_TREE_FAULT);
    fancy::regex letter("a");
    const auto broken = thrown_by([&] { letter.find("a\xff"); });
    CHECK(broken.code() == FANCY_NOT_UTF8 && broken.byte() == 1u);
    CHECK(thrown_by([&] { all_of(letter.find_all("a\xff")); }).code() == FANCY_NOT_UTF8);
    CHECK(thrown_by([&] { letter.replace("\xff", "b"); }).code() == FANCY_NOT_UTF8);
    CHECK(thrown_by([&] { letter.find("a", 2); }).code() == FANCY_UNFIT);
    /* a search that exceeds a limit ends a list after the matches before it */
    fancy::options how;
    how.backtrack_limit = 10;
    fancy::regex hard(R"((?:a|aa)*(x)\1)", how);
    const string text = "xx " + string(30, 'a') + " xx";
    strings before;
    const auto over = thrown_by([&] {
        for (const auto &it : hard.find_all(text))
            before.emplace_back(it.str());
    });
    CHECK(over.code() == FANCY_BACKTRACK_LIMIT_EXCEEDED && before == strings{"xx"});
}

static void lifetimes()
{
    fancy::regex word(R"(\b(\w)\w*\1\b)");
    fancy::regex copy = word, moved = std::move(word);
    CHECK(moved.find("abc ada")->str() == "ada" && copy.find("abc ada")->str() == "ada");
    CHECK(word.group_count() == 0 && thrown_by([&] { word.find("a"); }).code() == FANCY_NO_PROGRAM);
    CHECK(thrown_by([&] { all_of(word.find_all("a")); }).code() == FANCY_NO_PROGRAM);
    word = copy;
    copy = fancy::regex("x");
    CHECK(word.find("abc ada")->str() == "ada" && !copy.is_match("ada"));
    fancy::match kept;
    {
        fancy::regex brief("(?<letter>b)");
        kept = *brief.find("abc");
    }
    CHECK(kept["letter"] == "b");
    std::vector<std::thread> threads;
    std::vector<std::size_t> found(4);
    for (std::size_t i = 0; i < found.size(); i++)
        threads.emplace_back([&found, i, own = moved]() mutable {
            for (int round = 0; round < 200; round++)
                found[i] += all_of(own.find_all("ada bob abc eve")).size();
        });
    for (auto &it : threads)
        it.join();
    CHECK((found == std::vector<std::size_t>(4, 600)));
}

static void bytes()
{
    const fancy::byte_text lossy("caf\xE9 42\xFF"), latin1("\xE9 \xFF", FANCY_LATIN1), plain("a\xC3\xA9");
    const auto number = fancy::regex("[0-9]+").find(lossy.text());
    CHECK(number && lossy.offset(number->start()) == 5 && lossy.bytes(*number) == "42");
    CHECK(lossy.text() == "caf\xEF\xBF\xBD 42\xEF\xBF\xBD" && lossy.offset(lossy.text().size()) == 8);
    CHECK(latin1.bytes(*fancy::regex(R"([^\x00-\x7f]$)").find(latin1.text())) == "\xFF");
    CHECK(plain.text() == "a\xC3\xA9" && plain.offset(1) == 1);
}

int main()
{
    one_match();
    all_matches();
    replacing();
    splitting();
    scanning();
    errors();
    lifetimes();
    bytes();
    std::printf("%d checks\n", count);
}
