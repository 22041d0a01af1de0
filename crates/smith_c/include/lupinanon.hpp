/* WebAssembly components from a fuzzer's bytes, in C++20: the functions of lupinanon.h over std::span and std::vector.
 *
 *     auto limits = lupinanon::default_limits();
 *     limits.max_components = 4;
 *     if (auto made = lupinanon::generate(limits, input))
 *         your_validator(made->component);
 *
 * lupinanon.h says what each function does, what each limit means, and how much stack a call takes. No function here
 * throws, except for what std::vector and std::string throw if there is no memory; compiled without exceptions, the
 * program then ends.
 */
#ifndef LUPINANON_HPP
#define LUPINANON_HPP

#if (defined(_MSVC_LANG) ? _MSVC_LANG : __cplusplus) < 202002L
#error "lupinanon.hpp needs C++20"
#endif

#include "lupinanon.h"
#include <cstddef>
#include <cstdint>
#include <optional>
#include <span>
#include <string>
#include <string_view>
#include <utility>
#include <variant>
#include <vector>

namespace lupinanon {

using Bytes = std::vector<std::byte>;
using BytesView = std::span<const std::byte>;
using Limits = LupinanonLimits;

/* Why a call has no result. */
enum class Error : std::int32_t {
    inconsistent_limits = LUPINANON_INCONSISTENT_LIMITS,
    minimum_not_met = LUPINANON_MINIMUM_NOT_MET,
    module_refused = LUPINANON_MODULE_REFUSED,
    too_long = LUPINANON_TOO_LONG,
    out_of_memory = LUPINANON_OUT_OF_MEMORY,
    parts_disagree = LUPINANON_PARTS_DISAGREE,
    bad_flag = LUPINANON_BAD_FLAG,
    bad_argument = LUPINANON_BAD_ARGUMENT,
    ill_formed = LUPINANON_ILL_FORMED,
    unread = LUPINANON_UNREAD,
    no_script = LUPINANON_NO_SCRIPT,
    no_smaller = LUPINANON_NO_SMALLER,
    no_change = LUPINANON_NO_CHANGE,
    no_text = LUPINANON_NO_TEXT
};

/* An error in words, as "out of memory". */
inline std::string_view name(Error error) noexcept { return lupinanon_status_name(static_cast<std::int32_t>(error)); }

/* A value, or why there is none. It has the names of std::expected. */
template <class Value>
class [[nodiscard]] Result {
public:
    Result(Value value) : held_(std::in_place_index<0>, std::move(value)) {}
    Result(Error error, std::optional<std::size_t> offset = {})
        : held_(std::in_place_index<1>, error), offset_(offset) {}

    bool has_value() const noexcept { return held_.index() == 0; }
    explicit operator bool() const noexcept { return has_value(); }

    /* The value, only if there is one. */
    Value &operator*() & noexcept { return *std::get_if<0>(&held_); }
    const Value &operator*() const & noexcept { return *std::get_if<0>(&held_); }
    Value &&operator*() && noexcept { return std::move(*std::get_if<0>(&held_)); }
    Value *operator->() noexcept { return std::get_if<0>(&held_); }
    const Value *operator->() const noexcept { return std::get_if<0>(&held_); }

    /* Why there is no value, only if there is none. */
    Error error() const noexcept { return *std::get_if<1>(&held_); }

    /* Where in the bytes that was found, if the call says it. */
    std::optional<std::size_t> offset() const noexcept { return offset_; }

private:
    std::variant<Value, Error> held_;
    std::optional<std::size_t> offset_;
};

struct Generated {
    Bytes component;
    /* How many bytes at the end of the input were not used. */
    std::size_t left;
};

/* Whether bytes are a component that is well formed. */
enum class Verdict { well_formed, ill_formed, unread };

struct Checked {
    Verdict verdict;
    /* Where it was found, unless the component is well formed. */
    std::optional<std::size_t> offset;
};

/* What bytes are to whoever tests a validator. */
enum class Answer { valid, invalid, bound, outside };

struct Validated {
    Answer answer;
    /* Why, and where, unless the component is valid. rule_text has the rule in words. */
    std::optional<std::size_t> rule;
    std::optional<std::size_t> offset;
};

struct Swarm {
    Limits limits;
    /* What follows the bytes that the limits are from: the input of a component. */
    BytesView rest;
};

struct Changed {
    Bytes component;
    Validated validated;
};

/* What a search found, and the number of the step, the change or the candidate that leads to it. */
struct Step {
    std::size_t number;
    Bytes bytes;
};

/* Memory to lend to a call. LUPINANON_SCRATCH says how much is enough. */
using Scratch = std::span<std::byte>;

namespace detail {

inline const std::uint8_t *data(BytesView bytes) noexcept {
    return reinterpret_cast<const std::uint8_t *>(bytes.data());
}

inline std::optional<std::size_t> known(std::size_t number) noexcept {
    return number == SIZE_MAX ? std::nullopt : std::optional(number);
}

/* What a call writes into an output of that room, or else of the room that it then asks for. */
template <class Output = Bytes, class Call>
Result<Output> written(std::size_t room, Call call) {
    Output output;
    output.resize(room);
    std::size_t len = 0;
    auto try_call = [&] { return call(reinterpret_cast<std::uint8_t *>(output.data()), output.size(), &len); };
    std::int32_t status = try_call();
    if (status == LUPINANON_NO_ROOM) {
        output.resize(len);
        status = try_call();
    }
    if (status != LUPINANON_ANSWERED) return static_cast<Error>(status);
    output.resize(len);
    return output;
}

/* What a search writes, which begins at a number and says another. */
template <class Call>
Result<Step> found(BytesView bytes, std::size_t number, Call call) {
    auto output = written(bytes.size(), [&](auto *at, std::size_t room, std::size_t *len) {
        return call(data(bytes), bytes.size(), &number, at, room, len);
    });
    if (!output) return output.error();
    return Step{number, *std::move(output)};
}

inline Result<Checked> checked(std::int32_t status, std::size_t offset) {
    switch (status) {
    case LUPINANON_WELL_FORMED: return Checked{Verdict::well_formed, {}};
    case LUPINANON_ILL_FORMED: return Checked{Verdict::ill_formed, known(offset)};
    case LUPINANON_UNREAD: return Checked{Verdict::unread, known(offset)};
    default: return static_cast<Error>(status);
    }
}

inline Result<Validated> validated(std::int32_t status, std::size_t rule, std::size_t offset) {
    switch (status) {
    case LUPINANON_VALID: return Validated{Answer::valid, {}, {}};
    case LUPINANON_INVALID: return Validated{Answer::invalid, known(rule), known(offset)};
    case LUPINANON_BOUND: return Validated{Answer::bound, known(rule), known(offset)};
    case LUPINANON_OUTSIDE: return Validated{Answer::outside, known(rule), known(offset)};
    default: return static_cast<Error>(status);
    }
}

} // namespace detail

/* The version of the library: LUPINANON_VERSION if it belongs to this header. */
inline std::string_view version() noexcept { return lupinanon_version(); }

/* A rule of a Validated in words, as "no type has that index". */
inline std::string_view rule_text(std::size_t rule) noexcept { return lupinanon_rule_text(rule); }

inline Limits default_limits() noexcept {
    Limits limits;
    lupinanon_default_limits(&limits, sizeof limits);
    return limits;
}

/* Returns the limits of the profile `fuzz`, with which a fuzzer's input says more in fewer bytes. */
inline Limits fuzz_limits() noexcept {
    Limits limits;
    lupinanon_fuzz_limits(&limits, sizeof limits);
    return limits;
}

/* Returns the limits with the ones that the first bytes of the input say, and what follows these bytes. */
inline Result<Swarm> swarm_limits(Limits limits, BytesView input) {
    std::size_t taken = 0;
    const auto status = lupinanon_swarm_limits(&limits, detail::data(input), input.size(), &taken);
    if (status != LUPINANON_ANSWERED) return static_cast<Error>(status);
    return Swarm{limits, input.subspan(taken)};
}

/* Returns the component that the input produces within the limits. */
inline Result<Generated> generate(const Limits &limits, BytesView input) {
    std::size_t left = 0;
    auto output = detail::written(4096, [&](auto *at, std::size_t room, std::size_t *len) {
        return lupinanon_generate_into(&limits, detail::data(input), input.size(), at, room, len, &left);
    });
    if (!output) return output.error();
    return Generated{*std::move(output), left};
}

/* The same with memory that is lent: only the bytes that are returned are taken from elsewhere. */
inline Result<Generated> generate_in(const Limits &limits, BytesView input, Scratch scratch) {
    std::size_t left = 0;
    auto output = detail::written(4096, [&](auto *at, std::size_t room, std::size_t *len) {
        return lupinanon_generate_in(&limits, detail::data(input), input.size(), at, room, len, &left, scratch.data(),
                                     scratch.size());
    });
    if (!output) return output.error();
    return Generated{*std::move(output), left};
}

/* Adds 1 to a counter for each combination in the component that the input produces within the limits, up to 255. The
 * result is a value if that is done, which says no more; otherwise the counters are as they were. */
inline Result<std::monostate> features(const Limits &limits, BytesView input, std::span<std::uint8_t> counters) {
    const auto status =
        lupinanon_features(&limits, detail::data(input), input.size(), counters.data(), counters.size());
    if (status != LUPINANON_ANSWERED) return static_cast<Error>(status);
    return std::monostate{};
}

/* Returns whether bytes are a component that is well formed. */
inline Result<Checked> check(BytesView bytes) {
    std::size_t offset = LUPINANON_NO_OFFSET;
    const auto status = lupinanon_check(detail::data(bytes), bytes.size(), &offset);
    return detail::checked(status, offset);
}

/* The same with memory that is lent. */
inline Result<Checked> check_in(BytesView bytes, Scratch scratch) {
    std::size_t offset = LUPINANON_NO_OFFSET;
    const auto status =
        lupinanon_check_in(detail::data(bytes), bytes.size(), &offset, scratch.data(), scratch.size());
    return detail::checked(status, offset);
}

/* Returns whether a validator has to accept bytes, may not accept them, or neither. */
inline Result<Validated> validate(BytesView bytes) {
    std::size_t rule = LUPINANON_NO_RULE, offset = LUPINANON_NO_OFFSET;
    const auto status = lupinanon_validate(detail::data(bytes), bytes.size(), &rule, &offset);
    return detail::validated(status, rule, offset);
}

/* The same with memory that is lent. */
inline Result<Validated> validate_in(BytesView bytes, Scratch scratch) {
    std::size_t rule = LUPINANON_NO_RULE, offset = LUPINANON_NO_OFFSET;
    const auto status =
        lupinanon_validate_in(detail::data(bytes), bytes.size(), &rule, &offset, scratch.data(), scratch.size());
    return detail::validated(status, rule, offset);
}

/* Returns the component, well formed or not, in the text format. Error::no_text: a core module in it has more than
 * function types and memories. */
inline Result<std::string> print(BytesView bytes) {
    return detail::written<std::string>(8 * bytes.size(), [&](auto *at, std::size_t room, std::size_t *len) {
        return lupinanon_print(detail::data(bytes), bytes.size(), at, room, len);
    });
}

/* Returns an input from which generate produces these bytes within the limits, and of which nothing is left. */
inline Result<Bytes> script(const Limits &limits, BytesView bytes) {
    std::size_t offset = LUPINANON_NO_OFFSET;
    auto output = detail::written(4096, [&](auto *at, std::size_t room, std::size_t *len) {
        return lupinanon_script_into(&limits, detail::data(bytes), bytes.size(), at, room, len, &offset);
    });
    if (!output) return {output.error(), detail::known(offset)};
    return output;
}

/* The same with memory that is lent: only the bytes that are returned are taken from elsewhere. */
inline Result<Bytes> script_in(const Limits &limits, BytesView bytes, Scratch scratch) {
    std::size_t offset = LUPINANON_NO_OFFSET;
    auto output = detail::written(4096, [&](auto *at, std::size_t room, std::size_t *len) {
        return lupinanon_script_in(&limits, detail::data(bytes), bytes.size(), at, room, len, &offset, scratch.data(),
                                   scratch.size());
    });
    if (!output) return {output.error(), detail::known(offset)};
    return output;
}

/* Returns the k-th, from 0, of the components that are smaller by a step and can be generated within the limits; or, if
 * those are nullptr, that are well formed. Error::no_smaller: there are no more than k. */
inline Result<Bytes> smaller(const Limits *limits, BytesView bytes, std::size_t k) {
    return detail::written(bytes.size(), [&](auto *at, std::size_t room, std::size_t *len) {
        return lupinanon_smaller(limits, detail::data(bytes), bytes.size(), k, at, room, len);
    });
}

/* Returns what the first step leads to, from that number on, that leads to such a component. */
inline Result<Step> next_smaller(const Limits *limits, BytesView bytes, std::size_t step) {
    return detail::found(bytes, step, [&](auto... arguments) { return lupinanon_next_smaller(limits, arguments...); });
}

/* Returns the component without its k-th item, from 0. Error::no_smaller: there are no more than k. */
inline Result<Bytes> without(BytesView bytes, std::size_t k) {
    return detail::written(bytes.size(), [&](auto *at, std::size_t room, std::size_t *len) {
        return lupinanon_without(detail::data(bytes), bytes.size(), k, at, room, len);
    });
}

/* Returns a component of the sections of the first and then of the second. */
inline Result<Bytes> join(BytesView first, BytesView second) {
    return detail::written(first.size() + second.size(), [&](auto *at, std::size_t room, std::size_t *len) {
        return lupinanon_join(detail::data(first), first.size(), detail::data(second), second.size(), at, room, len);
    });
}

/* Counts the changes of the component: the numbers for changed are below. */
inline Result<std::size_t> change_count(BytesView bytes) {
    std::size_t count = 0;
    const auto status = lupinanon_change_count(detail::data(bytes), bytes.size(), &count);
    if (status != LUPINANON_ANSWERED) return static_cast<Error>(status);
    return count;
}

/* Returns the component after the change of that number, and what it is to validators. Error::no_change: the change
 * leads to nothing. */
inline Result<Changed> changed(BytesView bytes, std::size_t number) {
    std::int32_t answer = LUPINANON_OUTSIDE;
    std::size_t rule = LUPINANON_NO_RULE, offset = LUPINANON_NO_OFFSET;
    auto output = detail::written(bytes.size(), [&](auto *at, std::size_t room, std::size_t *len) {
        return lupinanon_changed(detail::data(bytes), bytes.size(), number, at, room, len, &answer, &rule, &offset);
    });
    if (!output) return output.error();
    const auto validated = detail::validated(answer, rule, offset);
    if (!validated) return validated.error();
    return Changed{*std::move(output), *validated};
}

/* Returns what the first change leads to, from that number on, that leads to another component. Error::no_change: none
 * does. */
inline Result<Step> next_changed(BytesView bytes, std::size_t number) {
    return detail::found(bytes, number, [](auto... arguments) { return lupinanon_next_changed(arguments...); });
}

/* Returns the first candidate, from that number on, that no reader of the standard takes for a component.
 * Error::no_change: there is none. */
inline Result<Step> next_miswritten(BytesView bytes, std::size_t number) {
    return detail::found(bytes, number, [](auto... arguments) { return lupinanon_next_miswritten(arguments...); });
}

} // namespace lupinanon

#endif
