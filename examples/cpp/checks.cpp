// Each function of lupinanon.hpp: what it returns, why it returns nothing, and outputs that have to grow.
#include "lupinanon.hpp"
#include <algorithm>
#include <cstddef>
#include <cstdint>
#include <cstdio>
#include <span>
#include <string>
#include <string_view>
#include <vector>

using lupinanon::Answer;
using lupinanon::Bytes;
using lupinanon::BytesView;
using lupinanon::Error;
using lupinanon::Verdict;
using namespace std::literals;

// What does not hold is printed, and its check fails.
#define WANT(what) \
    if (!(what)) return std::printf("line %d: not %s\n", __LINE__, #what), false

static BytesView view(std::string_view text) { return std::as_bytes(std::span(text)); }

static bool is(const Bytes &bytes, std::string_view text) { return std::ranges::equal(bytes, view(text)); }

// A type, and a byte after its script.
static constexpr auto plan = "\3\1\0\0\6\0\0\xff"sv;
static constexpr auto preamble = "\0asm\r\0\1\0"sv;
static constexpr auto type_of_u32 = "\0asm\r\0\1\0\7\2\1\x79"sv;
// Types 0 and 1 are `bool` and a list of type 0; or of type 1, which is not there yet.
static constexpr auto list = "\0asm\r\0\1\0\7\4\2\x7f\x70\0"sv;
static constexpr auto of_itself = "\0asm\r\0\1\0\7\4\2\x7f\x70\1"sv;
// A core module with a section of functions, which has none.
static constexpr auto other_module = "\0asm\r\0\1\0\1\x0b\0asm\1\0\0\0\3\1\0"sv;

static lupinanon::Limits too_deep() {
    auto limits = lupinanon::default_limits();
    limits.max_nesting_depth = 1001;
    return limits;
}

static bool makes_a_component() {
    const auto limits = lupinanon::default_limits();
    WANT(limits.size == sizeof limits && limits.max_types == 100);
    const auto made = lupinanon::generate(limits, view(plan));
    WANT(made && is(made->component, type_of_u32) && made->left == 1);
    const auto of_nothing = lupinanon::generate(limits, {});
    WANT(of_nothing && is(of_nothing->component, preamble) && of_nothing->left == 0);
    const auto refused = lupinanon::generate(too_deep(), view(plan));
    WANT(!refused && refused.error() == Error::inconsistent_limits && !refused.offset());
    WANT(lupinanon::name(refused.error()) == "inconsistent limits");
    WANT(lupinanon::version() == LUPINANON_VERSION);
    return true;
}

// A custom section of 10,000 bytes: no first output has room for it, nor for its script.
static bool outputs_grow() {
    const auto limits = lupinanon::default_limits();
    Bytes input(3 + 2 * 10'000 + 2);
    input[0] = std::byte{1};
    for (std::size_t place = 3; place + 2 < input.size(); place += 2) {
        input[place] = std::byte{1};
        input[place + 1] = std::byte{0x2a};
    }
    const auto made = lupinanon::generate(limits, input);
    WANT(made && made->component.size() == 8 + 1 + 2 + 1 + 10'000 && made->left == 0);
    const auto script = lupinanon::script(limits, made->component);
    WANT(script && *script == input);
    const auto joined = lupinanon::join(made->component, made->component);
    WANT(joined && joined->size() == 8 + 2 * (made->component.size() - 8));
    return true;
}

static bool says_limits() {
    auto limits = lupinanon::fuzz_limits();
    WANT(limits.size == sizeof limits && limits.max_exports == 10 && limits.max_types == 100);
    const auto swarm = lupinanon::swarm_limits(limits, view("\2\0\0\0\0\0\0\21\0\0\0\0\0\0\0\0\0\0\0\0\1"sv));
    WANT(swarm && swarm->limits.max_types == 2 && swarm->limits.max_memories == 1 && swarm->rest.size() == 1);
    WANT(swarm->limits.max_name_length == 8 && swarm->limits.loop_bits == 2);
    limits.simd_enabled = 2;
    const auto refused = lupinanon::swarm_limits(limits, {});
    WANT(!refused && refused.error() == Error::bad_flag);
    return true;
}

// The component has one combination: a type that is declared at the root.
static bool counts_combinations() {
    const auto limits = lupinanon::default_limits();
    std::uint8_t counters[64] = {}, full[1] = {254};
    WANT(lupinanon::features(limits, {}, counters) && std::ranges::count(counters, 0) == 64);
    WANT(lupinanon::features(limits, view(plan), counters) && std::ranges::count(counters, 0) == 63);
    WANT(lupinanon::features(limits, view(plan), counters) && std::ranges::count(counters, 2) == 1);
    for (int times = 0; times < 2; times++) WANT(lupinanon::features(limits, view(plan), full) && full[0] == 255);
    WANT(lupinanon::features(limits, view(plan), {}));
    const auto refused = lupinanon::features(too_deep(), view(plan), counters);
    WANT(!refused && refused.error() == Error::inconsistent_limits && !refused.offset());
    WANT(std::ranges::count(counters, 2) == 1 && std::ranges::count(counters, 0) == 63);
    return true;
}

static bool judges() {
    const auto formed = lupinanon::check(view(type_of_u32));
    WANT(formed && formed->verdict == Verdict::well_formed && !formed->offset);
    const auto broken = lupinanon::check(view(of_itself));
    WANT(broken && broken->verdict == Verdict::ill_formed && broken->offset == 12);
    const auto unread = lupinanon::check({});
    WANT(unread && unread->verdict == Verdict::unread && unread->offset == 0);
    const auto valid = lupinanon::validate(view(list));
    WANT(valid && valid->answer == Answer::valid && !valid->rule && !valid->offset);
    const auto invalid = lupinanon::validate(view(of_itself));
    WANT(invalid && invalid->answer == Answer::invalid && invalid->rule && invalid->offset == 12);
    WANT(lupinanon::rule_text(*invalid->rule) == "no type has that index");
    const auto outside = lupinanon::validate(view("\0asm\r\0\1\0\7\x82\0\1\x7f"sv));
    WANT(outside && outside->answer == Answer::outside && outside->rule >= 400 && outside->offset == 9);
    return true;
}

// The text of a hundred types of a byte each, for which the first output has no room.
static bool writes_texts() {
    const auto text = lupinanon::print(view(list));
    WANT(text && *text == "(component\n  (type (;0;) bool)\n  (type (;1;) (list 0))\n)\n"sv);
    const std::string types = "\0asm\r\0\1\0\7\x65\x64"s + std::string(100, '\x7f');
    const auto long_text = lupinanon::print(view(types));
    WANT(long_text && long_text->ends_with("\n  (type (;99;) bool)\n)\n"sv));
    WANT(lupinanon::print(view(other_module)).error() == Error::no_text);
    WANT(lupinanon::print({}).error() == Error::unread);
    return true;
}

static bool writes_scripts() {
    auto limits = lupinanon::default_limits();
    const auto script = lupinanon::script(limits, view(type_of_u32));
    WANT(script && is(*script, plan.substr(0, 7)));
    const auto unread = lupinanon::script(limits, {});
    WANT(!unread && unread.error() == Error::unread && unread.offset() == 0);
    const auto ill_formed = lupinanon::script(limits, view(of_itself));
    WANT(!ill_formed && ill_formed.error() == Error::ill_formed && !ill_formed.offset());
    limits.max_types = 1;
    const auto none = lupinanon::script(limits, view(list));
    WANT(!none && none.error() == Error::no_script && none.offset() == 9);
    return true;
}

static bool makes_smaller_ones() {
    const auto limits = lupinanon::default_limits(), deep = too_deep();
    const auto bytes = view(type_of_u32);
    std::size_t k = 0;
    while (lupinanon::smaller(&limits, bytes, k)) k++;
    WANT(k == 3 && is(*lupinanon::smaller(&limits, bytes, 0), preamble));
    WANT(is(*lupinanon::smaller(nullptr, bytes, 2), "\0asm\r\0\1\0\7\2\1\x7f"sv));
    WANT(lupinanon::smaller(nullptr, bytes, k).error() == Error::no_smaller);
    WANT(lupinanon::smaller(&deep, bytes, 0).error() == Error::inconsistent_limits);
    const auto step = lupinanon::next_smaller(nullptr, bytes, 2);
    WANT(step && step->number == 3 && is(step->bytes, "\0asm\r\0\1\0\7\2\1\x7f"sv));
    WANT(lupinanon::next_smaller(nullptr, bytes, 4).error() == Error::no_smaller);
    WANT(is(*lupinanon::without(bytes, 1), "\0asm\r\0\1\0\7\1\0"sv));
    WANT(lupinanon::without(bytes, 2).error() == Error::no_smaller);
    WANT(is(*lupinanon::join(bytes, bytes), "\0asm\r\0\1\0\7\2\1\x79\7\2\1\x79"sv));
    WANT(lupinanon::join(bytes, {}).error() == Error::unread);
    return true;
}

static bool takes_lent_memory() {
    const auto limits = lupinanon::default_limits();
    std::vector<std::byte> memory(LUPINANON_SCRATCH(plan.size()));
    const lupinanon::Scratch scratch = memory, little = scratch.first(64);
    const auto made = lupinanon::generate_in(limits, view(plan), scratch);
    WANT(made && is(made->component, type_of_u32) && made->left == 1);
    WANT(lupinanon::generate_in(limits, view(plan), little).error() == Error::out_of_memory);
    const auto broken = lupinanon::check_in(view(of_itself), scratch);
    WANT(broken && broken->verdict == Verdict::ill_formed && broken->offset == 12);
    WANT(lupinanon::check_in(view(of_itself), {}).error() == Error::out_of_memory);
    const auto invalid = lupinanon::validate_in(view(of_itself), scratch);
    WANT(invalid && invalid->answer == Answer::invalid && invalid->rule && invalid->offset == 12);
    WANT(lupinanon::validate_in(view(of_itself), little).error() == Error::out_of_memory);
    const auto script = lupinanon::script_in(limits, view(type_of_u32), scratch);
    WANT(script && is(*script, plan.substr(0, 7)));
    const auto unread = lupinanon::script_in(limits, {}, scratch);
    WANT(!unread && unread.error() == Error::unread && unread.offset() == 0);
    WANT(lupinanon::script_in(limits, view(type_of_u32), little).error() == Error::out_of_memory);
    return true;
}

static bool makes_near_misses() {
    const auto bytes = view(list);
    const auto count = lupinanon::change_count(bytes);
    WANT(count && *count == 96);
    const auto changed = lupinanon::changed(bytes, 81);
    WANT(changed && is(changed->component, of_itself));
    WANT(changed->validated.answer == Answer::invalid && changed->validated.offset == 12);
    WANT(lupinanon::changed(bytes, 64)->validated.answer == Answer::valid);
    WANT(lupinanon::changed(bytes, 80).error() == Error::no_change);
    WANT(lupinanon::change_count({}).error() == Error::unread);
    const auto next = lupinanon::next_changed(bytes, 65);
    WANT(next && next->number == 81 && next->bytes == changed->component);
    WANT(lupinanon::next_changed(bytes, 86).error() == Error::no_change);
    const auto cut = lupinanon::next_miswritten(view(type_of_u32), 8);
    WANT(cut && cut->number == 9 && is(cut->bytes, type_of_u32.substr(0, 9)));
    WANT(lupinanon::next_miswritten(view(type_of_u32), 24).error() == Error::no_change);
    return true;
}

int main() {
    const bool all = makes_a_component() && outputs_grow() && says_limits() && counts_combinations() && judges() &&
                     writes_texts() && writes_scripts() && takes_lent_memory() && makes_smaller_ones() &&
                     makes_near_misses();
    if (all) std::printf("each function of lupinanon.hpp does what lupinanon.h says\n");
    return all ? 0 : 1;
}
