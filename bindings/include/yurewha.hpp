// Yurewha for C++17 and later: yurewha.h with objects that free themselves, values that compare, and exceptions.
//
// Nothing is computed here. Each function makes the call of yurewha.h that has its name, with arguments in the same order, so what the
// comments there say holds here. These rules are added:
//
// - A status other than YUREWHA_DONE is thrown as an `error`, and YUREWHA_MEMORY as std::bad_alloc. After that nothing has changed, with
//   the exceptions that yurewha.h names. A result is a std::optional where YUREWHA_ARGUMENTS says only that there is none.
// - An object owns one handle. After a move the other object is empty: it may be assigned to and destroyed, and a call by it throws
//   YUREWHA_EMPTY_HANDLE.
// - What yurewha_set_allocator gets are noexcept functions, so that one that may throw doesn't compile.
// - Threads may call const functions of one object at once. While a thread calls another function of it, no other thread may use it.
#ifndef YUREWHA_HPP
#define YUREWHA_HPP

#include <yurewha.h>

#include <cstddef>
#include <cstdint>
#include <functional>
#include <iosfwd>
#include <iterator>
#include <new>
#include <optional>
#include <stdexcept>
#include <string>
#include <string_view>
#include <type_traits>
#include <utility>
#include <vector>

// Values are equal if their members are. These operators stand beside the types of yurewha.h, so that algorithms and containers of std
// find them. Hashes have the order of yurewha_compare.
inline bool operator==(const yurewha_hash &a, const yurewha_hash &b) noexcept { return yurewha_compare(&a, &b) == 0; }
inline bool operator!=(const yurewha_hash &a, const yurewha_hash &b) noexcept { return yurewha_compare(&a, &b) != 0; }
inline bool operator<(const yurewha_hash &a, const yurewha_hash &b) noexcept { return yurewha_compare(&a, &b) < 0; }
inline bool operator>(const yurewha_hash &a, const yurewha_hash &b) noexcept { return yurewha_compare(&a, &b) > 0; }
inline bool operator<=(const yurewha_hash &a, const yurewha_hash &b) noexcept { return yurewha_compare(&a, &b) <= 0; }
inline bool operator>=(const yurewha_hash &a, const yurewha_hash &b) noexcept { return yurewha_compare(&a, &b) >= 0; }
inline bool operator==(const yurewha_chunk &a, const yurewha_chunk &b) noexcept { return a.hash == b.hash && a.size == b.size; }
inline bool operator!=(const yurewha_chunk &a, const yurewha_chunk &b) noexcept { return !(a == b); }
inline bool operator==(const yurewha_level &a, const yurewha_level &b) noexcept { return a.left == b.left && a.right == b.right; }
inline bool operator!=(const yurewha_level &a, const yurewha_level &b) noexcept { return !(a == b); }
inline bool operator==(const yurewha_bytes &a, const yurewha_bytes &b) noexcept
{
    return std::string_view(reinterpret_cast<const char *>(a.bytes), sizeof a.bytes) ==
           std::string_view(reinterpret_cast<const char *>(b.bytes), sizeof b.bytes);
}
inline bool operator!=(const yurewha_bytes &a, const yurewha_bytes &b) noexcept { return !(a == b); }

namespace yurewha {

using hash = yurewha_hash;
using bytes = yurewha_bytes;
using chunk = yurewha_chunk;
using level = yurewha_level;

// The numbers from `first` up to, but without, `end`.
template <class Number> struct interval {
    Number first;
    Number end;
    friend bool operator==(const interval &a, const interval &b) noexcept { return a.first == b.first && a.end == b.end; }
    friend bool operator!=(const interval &a, const interval &b) noexcept { return !(a == b); }
};

// A list that a function reads, and doesn't own: of any container whose elements follow one another, such as std::vector or std::span.
template <class T> class view {
    template <class Container> using element =
        std::remove_cv_t<std::remove_pointer_t<decltype(std::data(std::declval<const Container &>()))>>;

public:
    constexpr view() noexcept = default;
    constexpr view(const T *data, std::size_t size) noexcept : data_(data), size_(size) {}
    template <class Container, class = std::enable_if_t<std::is_same_v<element<Container>, T>>>
    constexpr view(const Container &list) noexcept : data_(std::data(list)), size_(std::size(list))
    {
    }
    [[nodiscard]] constexpr const T *data() const noexcept { return data_; }
    [[nodiscard]] constexpr std::size_t size() const noexcept { return size_; }
    [[nodiscard]] constexpr const T *begin() const noexcept { return data_; }
    [[nodiscard]] constexpr const T *end() const noexcept { return data_ + size_; }

private:
    const T *data_ = nullptr;
    std::size_t size_ = 0;
};

// Data that a function reads, and doesn't own: of any container of bytes or of char. A text in quotes has to say whether its last 0 byte
// is part of it, so it is written as "a chunk"sv.
class data_view {
    template <class Container> using element = std::remove_pointer_t<decltype(std::data(std::declval<const Container &>()))>;

public:
    constexpr data_view() noexcept = default;
    constexpr data_view(const void *data, std::size_t size) noexcept : data_(data), size_(size) {}
    template <class Container, class = std::enable_if_t<sizeof(element<Container>) == 1 && std::is_trivial_v<element<Container>> &&
                                                        !(std::is_array_v<Container> && std::is_same_v<element<Container>, const char>)>>
    constexpr data_view(const Container &list) noexcept : data_(std::data(list)), size_(std::size(list))
    {
    }
    [[nodiscard]] constexpr const void *data() const noexcept { return data_; }
    [[nodiscard]] constexpr std::size_t size() const noexcept { return size_; }

private:
    const void *data_ = nullptr;
    std::size_t size_ = 0;
};

// What is thrown for a status, whose text is the message.
class error : public std::runtime_error {
public:
    explicit error(yurewha_status code) : std::runtime_error(text_of(code)), status_(code) {}
    [[nodiscard]] yurewha_status status() const noexcept { return status_; }

    // What a status means, in English.
    [[nodiscard]] static std::string text_of(yurewha_status code)
    {
        char text[YUREWHA_STATUS_TEXT_LENGTH];
        std::size_t length = 0;
        return yurewha_status_text(code, text, sizeof text, &length) == YUREWHA_DONE ? std::string(text, length) : std::string();
    }

private:
    yurewha_status status_;
};

// YUREWHA_ELSEWHERE or YUREWHA_TOO_FAR, with the bytes of the file that the range of the proof holds.
class misplaced_range : public error {
public:
    misplaced_range(yurewha_status code, interval<std::uint64_t> place) : error(code), place_(place) {}
    [[nodiscard]] interval<std::uint64_t> place() const noexcept { return place_; }

private:
    interval<std::uint64_t> place_;
};

namespace detail {

inline void check(yurewha_status found)
{
    if (found == YUREWHA_MEMORY)
        throw std::bad_alloc();
    if (found != YUREWHA_DONE)
        throw error(found);
}

// Whether there is a result. There is none if the status is YUREWHA_ARGUMENTS.
inline bool has_result(yurewha_status found)
{
    if (found == YUREWHA_ARGUMENTS)
        return false;
    check(found);
    return true;
}

// A text or bytes that a call writes: it is asked again with the length that it needs, if the room was too small.
template <class List, class Call> List written(std::size_t room, const Call &call)
{
    for (List list(room, typename List::value_type());;) {
        std::size_t length = 0;
        const yurewha_status found = call(list.data(), list.size(), &length);
        if (found != YUREWHA_ROOM)
            check(found);
        list.resize(length);
        if (found != YUREWHA_ROOM)
            return list;
    }
}

// The same for flat lists.
template <class Lists, class Call> Lists written_lists(std::size_t level_room, std::size_t node_room, const Call &call)
{
    Lists lists;
    lists.levels.resize(level_room);
    lists.nodes.resize(node_room);
    for (;;) {
        std::size_t level_count = 0, node_count = 0;
        const yurewha_status found =
            call(lists.levels.data(), lists.levels.size(), lists.nodes.data(), lists.nodes.size(), &level_count, &node_count);
        if (found != YUREWHA_ROOM)
            check(found);
        lists.levels.resize(level_count);
        lists.nodes.resize(node_count);
        if (found != YUREWHA_ROOM)
            return lists;
    }
}

// Owns a handle, and frees it.
template <class Handle, void (*release)(Handle *)> class owner {
public:
    owner(const owner &) = delete;
    owner &operator=(const owner &) = delete;
    // The handle for a call in C. The object goes on owning it.
    [[nodiscard]] Handle *get() noexcept { return &handle_; }

protected:
    owner() noexcept = default;
    owner(owner &&other) noexcept : handle_(std::exchange(other.handle_, Handle{})) {}
    owner &operator=(owner &&other) noexcept
    {
        Handle taken = std::exchange(other.handle_, Handle{});
        release(&handle_);
        handle_ = taken;
        return *this;
    }
    ~owner() { release(&handle_); }
    // A copy of the handle for one call that reads it, since such a call writes to the handle that it gets.
    [[nodiscard]] Handle copied() const noexcept { return handle_; }
    // What a call that reads the handle writes to its last argument, and to its last two.
    template <class Result, class Call, class... Arguments> [[nodiscard]] Result ask(const Call &call, Arguments... arguments) const
    {
        Handle copy = handle_;
        Result result{};
        check(call(&copy, arguments..., &result));
        return result;
    }
    template <class Number, class Call, class... Arguments>
    [[nodiscard]] interval<Number> ask_interval(const Call &call, Arguments... arguments) const
    {
        Handle copy = handle_;
        interval<Number> result{};
        check(call(&copy, arguments..., &result.first, &result.end));
        return result;
    }
    // The same of a call that may have no result.
    template <class Result, class Call, class... Arguments>
    [[nodiscard]] std::optional<Result> ask_if(const Call &call, Arguments... arguments) const
    {
        Handle copy = handle_;
        Result result{};
        return has_result(call(&copy, arguments..., &result)) ? std::optional(result) : std::nullopt;
    }
    template <class Number, class Call, class... Arguments>
    [[nodiscard]] std::optional<interval<Number>> ask_interval_if(const Call &call, Arguments... arguments) const
    {
        Handle copy = handle_;
        interval<Number> result{};
        return has_result(call(&copy, arguments..., &result.first, &result.end)) ? std::optional(result) : std::nullopt;
    }

private:
    Handle handle_{};
};

} // namespace detail

// The version of the library, which may be later than YUREWHA_VERSION, that of the header.
[[nodiscard]] inline std::string version() { return detail::written<std::string>(16, yurewha_version); }
[[nodiscard]] inline std::string_view processor_level() { return yurewha_processor_level(); }

[[nodiscard]] inline hash data_hash(data_view data) noexcept
{
    hash result;
    yurewha_data_hash(data.data(), data.size(), &result);
    return result;
}

[[nodiscard]] inline hash internal_node_hash(data_view text) noexcept
{
    hash result;
    yurewha_internal_node_hash(text.data(), text.size(), &result);
    return result;
}

// The hashes of chunks in one buffer: chunk i is between offsets i and i + 1.
[[nodiscard]] inline std::vector<hash> data_hashes(data_view data, view<std::size_t> offsets)
{
    std::vector<hash> result(offsets.size() == 0 ? 0 : offsets.size() - 1);
    detail::check(yurewha_data_hashes(data.data(), data.size(), offsets.data(), offsets.size(), result.data(), result.size()));
    return result;
}

[[nodiscard]] inline hash hmac(const hash &of, const hash &key) noexcept
{
    hash result;
    yurewha_hmac(&of, &key, &result);
    return result;
}

// A pseudorandom hash, for tests.
[[nodiscard]] inline hash random_from_seed(std::uint64_t seed) noexcept
{
    hash result;
    yurewha_random_from_seed(seed, &result);
    return result;
}

[[nodiscard]] inline bytes hash_to_bytes(const hash &of) noexcept
{
    bytes result;
    yurewha_hash_to_bytes(&of, &result);
    return result;
}

[[nodiscard]] inline hash hash_from_bytes(const bytes &from) noexcept
{
    hash result;
    yurewha_hash_from_bytes(&from, &result);
    return result;
}

[[nodiscard]] inline std::uint64_t remainder(const hash &of, std::uint64_t divisor)
{
    std::uint64_t result = 0;
    detail::check(yurewha_remainder(&of, divisor, &result));
    return result;
}

[[nodiscard]] inline std::string hex(const hash &of)
{
    return detail::written<std::string>(
        YUREWHA_HEX_LENGTH, [&](char *text, std::size_t room, std::size_t *length) { return yurewha_hex(&of, text, room, length); });
}

[[nodiscard]] inline hash from_hex(std::string_view text)
{
    hash result;
    detail::check(yurewha_from_hex(text.data(), text.size(), &result));
    return result;
}

[[nodiscard]] inline std::string base64(const hash &of)
{
    return detail::written<std::string>(
        YUREWHA_BASE64_LENGTH, [&](char *text, std::size_t room, std::size_t *length) { return yurewha_base64(&of, text, room, length); });
}

[[nodiscard]] inline hash from_base64(std::string_view text)
{
    hash result;
    detail::check(yurewha_from_base64(text.data(), text.size(), &result));
    return result;
}

} // namespace yurewha

// Writes a hash to a stream as hex text.
template <class Traits>
std::basic_ostream<char, Traits> &operator<<(std::basic_ostream<char, Traits> &stream, const yurewha_hash &of)
{
    const std::string text = yurewha::hex(of);
    return stream << std::basic_string_view<char, Traits>(text.data(), text.size());
}

// For std::unordered_map and others: the first word. Whoever chooses hashes can make these values equal, so a map of a stranger's
// hashes needs a hash function with a secret of its own, or std::map.
template <> struct std::hash<yurewha_hash> {
    [[nodiscard]] std::size_t operator()(const yurewha_hash &of) const noexcept { return of.words[0]; }
};

namespace yurewha {

// A streaming hasher, which may be copied.
class hasher {
public:
    [[nodiscard]] static hasher begin_data() noexcept
    {
        hasher result;
        yurewha_hasher_begin_data(&result.hasher_);
        return result;
    }
    [[nodiscard]] static hasher begin_internal() noexcept
    {
        hasher result;
        yurewha_hasher_begin_internal(&result.hasher_);
        return result;
    }
    [[nodiscard]] static hasher begin_keyed(const bytes &key) noexcept
    {
        hasher result;
        yurewha_hasher_begin_keyed(&result.hasher_, &key);
        return result;
    }
    hasher &update(data_view piece)
    {
        detail::check(yurewha_hasher_update(&hasher_, piece.data(), piece.size()));
        return *this;
    }
    [[nodiscard]] std::uint64_t count() const noexcept { return yurewha_hasher_count(&hasher_); }
    [[nodiscard]] hash finalize() const noexcept
    {
        hash result;
        yurewha_hasher_finalize(&hasher_, &result);
        return result;
    }

private:
    hasher() noexcept = default;
    yurewha_hasher hasher_;
};

// Finds where Xet cuts a file, from its beginning or that of any chunk. It may be copied.
class chunker {
public:
    chunker() noexcept { yurewha_chunker_begin(&chunker_); }
    // Takes more of the file. If the chunk ends in the piece, returns after how many bytes of it, and takes no more than these.
    [[nodiscard]] std::optional<std::size_t> next_boundary(data_view piece) noexcept
    {
        const std::uint64_t end = yurewha_chunker_next_boundary(&chunker_, piece.data(), piece.size());
        return end != 0 ? std::optional(static_cast<std::size_t>(end)) : std::nullopt;
    }
    // How many bytes of the chunk were taken so far.
    [[nodiscard]] std::uint64_t taken() const noexcept { return yurewha_chunker_taken(&chunker_); }

private:
    yurewha_chunker chunker_;
};

// A hasher of a file, which cuts it, too.
class file_hasher : public detail::owner<yurewha_file_hasher, yurewha_file_hasher_free> {
public:
    file_hasher() { detail::check(yurewha_file_hasher_new(get())); }

    file_hasher &update(data_view piece)
    {
        detail::check(yurewha_file_hasher_update(get(), piece.data(), piece.size()));
        return *this;
    }
    [[nodiscard]] std::uint64_t size() const { return ask<std::uint64_t>(yurewha_file_hasher_size); }
    [[nodiscard]] hash root() const { return ask<hash>(yurewha_file_hasher_root); }
    // The hashes of the file so far. More pieces can follow.
    [[nodiscard]] hash finish() const { return ask<hash>(yurewha_file_hasher_finish); }
    [[nodiscard]] hash finish_with_salt(const bytes &salt) const { return ask<hash>(yurewha_file_hasher_finish_with_salt, &salt); }
};

[[nodiscard]] inline hash xorb_hash(view<chunk> chunks)
{
    hash result;
    detail::check(yurewha_xorb_hash(chunks.data(), chunks.size(), &result));
    return result;
}

[[nodiscard]] inline hash file_hash(view<chunk> chunks)
{
    hash result;
    detail::check(yurewha_file_hash(chunks.data(), chunks.size(), &result));
    return result;
}

[[nodiscard]] inline hash file_hash_with_salt(view<chunk> chunks, const bytes &salt)
{
    hash result;
    detail::check(yurewha_file_hash_with_salt(chunks.data(), chunks.size(), &salt, &result));
    return result;
}

[[nodiscard]] inline std::optional<std::size_t> find_stable_start(view<chunk> nodes)
{
    std::size_t point = 0;
    return detail::has_result(yurewha_find_stable_start(nodes.data(), nodes.size(), &point)) ? std::optional(point) : std::nullopt;
}

[[nodiscard]] inline std::optional<std::size_t> find_stable_end(view<chunk> nodes)
{
    std::size_t point = 0;
    return detail::has_result(yurewha_find_stable_end(nodes.data(), nodes.size(), &point)) ? std::optional(point) : std::nullopt;
}

// The lists of a subtree, which with its marks are all of it.
struct flat_lists {
    std::vector<level> levels;
    std::vector<chunk> nodes;
};

// What is kept of a range of chunks, to merge it with its neighbours.
class subtree : public detail::owner<yurewha_subtree, yurewha_subtree_free> {
public:
    subtree(bool at_start, view<chunk> chunks, bool at_end)
    {
        detail::check(yurewha_subtree_from_chunks(at_start, chunks.data(), chunks.size(), at_end, get()));
    }
    subtree(const subtree &other) : owner()
    {
        yurewha_subtree copied = other.copied();
        detail::check(yurewha_subtree_clone(&copied, get()));
    }
    subtree(subtree &&) noexcept = default;
    subtree &operator=(const subtree &other) { return *this = subtree(other); }
    subtree &operator=(subtree &&) noexcept = default;
    ~subtree() = default;

    // Merges the subtrees of adjacent ranges, in order, into one.
    [[nodiscard]] static subtree merge(view<subtree> ranges)
    {
        std::vector<yurewha_subtree> copied;
        copied.reserve(ranges.size());
        for (const subtree &range : ranges)
            copied.push_back(range.copied());
        subtree result;
        detail::check(yurewha_subtree_merge(copied.data(), copied.size(), result.get()));
        return result;
    }
    [[nodiscard]] static subtree from_json(std::string_view text)
    {
        subtree result;
        detail::check(yurewha_subtree_from_json(text.data(), text.size(), result.get()));
        return result;
    }
    [[nodiscard]] static subtree from_flat(bool at_start, view<level> levels, view<chunk> nodes, bool at_end)
    {
        subtree result;
        detail::check(yurewha_subtree_from_flat(at_start, levels.data(), levels.size(), nodes.data(), nodes.size(), at_end, result.get()));
        return result;
    }

    // Appends the range that follows. It may be this object, whose chunks then come twice.
    void merge_into(const subtree &other)
    {
        if (this == &other)
            return merge_into(subtree(other));
        yurewha_subtree copied = other.copied();
        detail::check(yurewha_subtree_merge_into(get(), &copied));
    }
    // The same, and returns how many parents were hashed.
    std::uint64_t merge_into_counted(const subtree &other)
    {
        if (this == &other)
            return merge_into_counted(subtree(other));
        yurewha_subtree copied = other.copied();
        std::uint64_t parents = 0;
        detail::check(yurewha_subtree_merge_into_counted(get(), &copied, &parents));
        return parents;
    }
    [[nodiscard]] bool at_start() const { return marks().first; }
    [[nodiscard]] bool at_end() const { return marks().second; }
    [[nodiscard]] std::uint64_t total_size() const { return ask<std::uint64_t>(yurewha_subtree_total_size); }
    [[nodiscard]] std::size_t num_nodes() const { return ask<std::size_t>(yurewha_subtree_num_nodes); }
    [[nodiscard]] std::size_t num_levels() const { return ask<std::size_t>(yurewha_subtree_num_levels); }
    // The root, if both ends are marked.
    [[nodiscard]] std::optional<hash> final_hash() const { return ask_if<hash>(yurewha_subtree_final_hash); }
    [[nodiscard]] std::string to_json() const
    {
        yurewha_subtree copy = copied();
        return detail::written<std::string>(
            4096, [&](char *text, std::size_t room, std::size_t *length) { return yurewha_subtree_to_json(&copy, text, room, length); });
    }
    [[nodiscard]] flat_lists to_flat() const
    {
        yurewha_subtree copy = copied();
        return detail::written_lists<flat_lists>(num_levels(), num_nodes(),
                                                 [&](auto... rooms) { return yurewha_subtree_to_flat(&copy, rooms...); });
    }
    friend bool operator==(const subtree &a, const subtree &b)
    {
        yurewha_subtree first = a.copied(), second = b.copied();
        bool equal = false;
        detail::check(yurewha_subtree_equal(&first, &second, &equal));
        return equal;
    }
    friend bool operator!=(const subtree &a, const subtree &b) { return !(a == b); }

private:
    friend class session;
    subtree() noexcept = default;
    [[nodiscard]] std::pair<bool, bool> marks() const
    {
        yurewha_subtree copy = copied();
        bool at_start = false, at_end = false;
        detail::check(yurewha_subtree_marks(&copy, &at_start, &at_end));
        return {at_start, at_end};
    }
};

// Takes the chunks of a file in any order, by their positions.
class session : public detail::owner<yurewha_session, yurewha_session_free> {
public:
    // A run of adjacent taken positions, and the subtree of its chunks.
    struct taken_run {
        interval<std::uint64_t> positions;
        subtree chunks;
    };

    session() { detail::check(yurewha_session_new(get())); }
    session(const session &other) : session(nothing())
    {
        yurewha_session copied = other.copied();
        detail::check(yurewha_session_copy(&copied, get()));
    }
    session(session &&) noexcept = default;
    session &operator=(const session &other) { return *this = session(other); }
    session &operator=(session &&) noexcept = default;
    ~session() = default;

    // A session whose memory is in proportion to its runs.
    [[nodiscard]] static session without_hashes()
    {
        session result{nothing()};
        detail::check(yurewha_session_new_without_hashes(result.get()));
        return result;
    }
    [[nodiscard]] static session from_json(std::string_view text, bool keep_hashes = true)
    {
        session result{nothing()};
        detail::check(yurewha_session_from_json(text.data(), text.size(), keep_hashes, result.get()));
        return result;
    }

    // Puts chunks at the positions from `first` on. Returns how many of their hashes are new.
    std::uint64_t put(std::uint64_t first, view<chunk> chunks)
    {
        std::uint64_t new_hashes = 0;
        detail::check(yurewha_session_put(get(), first, chunks.data(), chunks.size(), &new_hashes));
        return new_hashes;
    }
    // Puts a copy of a range of `count` chunks at the positions from `first` on.
    void put_range(std::uint64_t first, std::uint64_t count, const subtree &range)
    {
        yurewha_subtree copy = range.copied();
        detail::check(yurewha_session_put_range(get(), first, count, &copy));
    }
    // Puts copies of all runs of another session. Returns how many of the hashes that it knows are new. It may be this object: if that has
    // chunks, YUREWHA_SESSION_OVERLAP is thrown.
    std::uint64_t join(const session &other)
    {
        if (this == &other)
            return join(session(other));
        yurewha_session copy = other.copied();
        std::uint64_t new_hashes = 0;
        detail::check(yurewha_session_join(get(), &copy, &new_hashes));
        return new_hashes;
    }
    void push_run(std::uint64_t first, std::uint64_t end, const subtree &range)
    {
        yurewha_subtree copy = range.copied();
        detail::check(yurewha_session_push_run(get(), first, end, &copy));
    }
    void keep_hashes(view<hash> hashes) { detail::check(yurewha_session_keep_hashes(get(), hashes.data(), hashes.size())); }

    [[nodiscard]] hash root(std::uint64_t total) const { return ask<hash>(yurewha_session_root, total); }
    [[nodiscard]] hash finish(std::uint64_t total) const { return ask<hash>(yurewha_session_finish, total); }
    [[nodiscard]] hash finish_with_salt(std::uint64_t total, const bytes &salt) const
    {
        return ask<hash>(yurewha_session_finish_with_salt, total, &salt);
    }
    [[nodiscard]] bool taken(std::uint64_t position) const { return ask<bool>(yurewha_session_taken, position); }
    [[nodiscard]] std::uint64_t num_chunks() const { return ask<std::uint64_t>(yurewha_session_num_chunks); }
    [[nodiscard]] std::uint64_t total_size() const { return ask<std::uint64_t>(yurewha_session_total_size); }
    // The first gap from a position on and below `total`, if there is one.
    [[nodiscard]] std::optional<interval<std::uint64_t>> next_gap(std::uint64_t position, std::uint64_t total) const
    {
        return ask_interval_if<std::uint64_t>(yurewha_session_next_gap, position, total);
    }
    [[nodiscard]] bool knows(const hash &of) const { return ask<bool>(yurewha_session_knows, &of); }
    // For each hash 1 if it is known, and 0 if not.
    [[nodiscard]] std::vector<std::uint8_t> knows_each(view<hash> hashes) const
    {
        yurewha_session copy = copied();
        std::vector<std::uint8_t> known(hashes.size());
        detail::check(yurewha_session_knows_each(&copy, hashes.data(), hashes.size(), known.data(), known.size()));
        return known;
    }
    [[nodiscard]] bool keeps_hashes() const { return ask<bool>(yurewha_session_keeps_hashes); }
    [[nodiscard]] std::size_t num_known_hashes() const { return ask<std::size_t>(yurewha_session_num_known_hashes); }
    [[nodiscard]] std::vector<hash> known_hashes() const
    {
        yurewha_session copy = copied();
        std::vector<hash> hashes(num_known_hashes());
        detail::check(yurewha_session_known_hashes(&copy, hashes.data(), hashes.size()));
        return hashes;
    }
    [[nodiscard]] std::size_t num_runs() const { return ask<std::size_t>(yurewha_session_num_runs); }
    // The first position of a run and its subtree, if there is a run with this number.
    [[nodiscard]] std::optional<std::pair<std::uint64_t, subtree>> run(std::size_t index) const
    {
        yurewha_session copy = copied();
        std::pair<std::uint64_t, subtree> found{0, subtree()};
        if (!detail::has_result(yurewha_session_run(&copy, index, &found.first, found.second.get())))
            return std::nullopt;
        return found;
    }
    // The run that holds a position or else the next one, if there is one.
    [[nodiscard]] std::optional<taken_run> run_from(std::uint64_t position) const
    {
        yurewha_session copy = copied();
        taken_run found{{}, subtree()};
        if (!detail::has_result(
                yurewha_session_run_from(&copy, position, &found.positions.first, &found.positions.end, found.chunks.get())))
            return std::nullopt;
        return found;
    }
    [[nodiscard]] std::string to_json(bool with_hashes = true) const
    {
        yurewha_session copy = copied();
        return detail::written<std::string>(4096, [&](char *text, std::size_t room, std::size_t *length) {
            return yurewha_session_to_json(&copy, with_hashes, text, room, length);
        });
    }

private:
    struct nothing {};
    explicit session(nothing) noexcept {}
};

// The flat lists of a range proof. They may come from anybody.
struct range_proof {
    std::vector<level> levels;
    std::vector<chunk> nodes;

    [[nodiscard]] static range_proof from_json(std::string_view text)
    {
        // The hash of a node has 64 digits.
        return detail::written_lists<range_proof>(
            64, text.size() / 64, [&](auto... rooms) { return yurewha_range_proof_from_json(text.data(), text.size(), rooms...); });
    }
    [[nodiscard]] static range_proof from_bytes(data_view from)
    {
        return detail::written_lists<range_proof>(
            64, from.size() / 40, [&](auto... rooms) { return yurewha_range_proof_from_bytes(from.data(), from.size(), rooms...); });
    }
    [[nodiscard]] std::string to_json() const
    {
        return detail::written<std::string>(4096, [&](char *text, std::size_t room, std::size_t *length) {
            return yurewha_range_proof_to_json(levels.data(), levels.size(), nodes.data(), nodes.size(), text, room, length);
        });
    }
    [[nodiscard]] std::vector<std::uint8_t> to_bytes() const
    {
        return detail::written<std::vector<std::uint8_t>>(4096, [&](std::uint8_t *to, std::size_t room, std::size_t *length) {
            return yurewha_range_proof_to_bytes(levels.data(), levels.size(), nodes.data(), nodes.size(), to, room, length);
        });
    }
    // Throws the rule that the lists break, if they are no range proof.
    void check() const { detail::check(yurewha_range_proof_check(levels.data(), levels.size(), nodes.data(), nodes.size())); }

    friend bool operator==(const range_proof &a, const range_proof &b) { return a.levels == b.levels && a.nodes == b.nodes; }
    friend bool operator!=(const range_proof &a, const range_proof &b) { return !(a == b); }
};

// All levels over a list of chunks, which make range proofs.
class hash_tree : public detail::owner<yurewha_hash_tree, yurewha_hash_tree_free> {
public:
    explicit hash_tree(view<chunk> chunks) { detail::check(yurewha_hash_tree_from_chunks(chunks.data(), chunks.size(), get())); }

    [[nodiscard]] hash root() const { return ask<hash>(yurewha_hash_tree_root); }
    [[nodiscard]] hash file_hash(const bytes &salt = {}) const { return ask<hash>(yurewha_hash_tree_file_hash, &salt); }
    [[nodiscard]] std::size_t num_chunks() const { return ask<std::size_t>(yurewha_hash_tree_num_chunks); }
    [[nodiscard]] std::uint64_t total_size() const { return ask<std::uint64_t>(yurewha_hash_tree_total_size); }
    // The least range of chunks that holds some bytes of the file, if there are such bytes.
    [[nodiscard]] std::optional<interval<std::size_t>> chunks_at(std::uint64_t from, std::uint64_t to) const
    {
        return ask_interval_if<std::size_t>(yurewha_hash_tree_chunks_at, from, to);
    }
    [[nodiscard]] interval<std::uint64_t> bytes_of(std::size_t first, std::size_t end) const
    {
        return ask_interval<std::uint64_t>(yurewha_hash_tree_bytes_of, first, end);
    }
    // The range proof of the chunks from `first` up to, but without, `end`.
    [[nodiscard]] range_proof proof(std::size_t first, std::size_t end) const
    {
        yurewha_hash_tree copy = copied();
        return detail::written_lists<range_proof>(64, 1024,
                                                  [&](auto... rooms) { return yurewha_hash_tree_proof(&copy, first, end, rooms...); });
    }
    // How many chunks this file and another one have in common at the front, and at the end, where `most` is the most that are counted.
    [[nodiscard]] std::size_t common_prefix(const hash_tree &other) const
    {
        yurewha_hash_tree second = other.copied();
        return ask<std::size_t>(yurewha_hash_tree_common_prefix, &second);
    }
    [[nodiscard]] std::size_t common_suffix(const hash_tree &other, std::size_t most) const
    {
        yurewha_hash_tree second = other.copied();
        return ask<std::size_t>(yurewha_hash_tree_common_suffix, &second, most);
    }
};

// A range proof that shows a file hash, or a root.
class opened_range : public detail::owner<yurewha_opened_range, yurewha_opened_range_free> {
public:
    opened_range(const range_proof &proof, const hash &file_hash, const bytes &salt = {})
    {
        detail::check(yurewha_range_proof_open(proof.levels.data(), proof.levels.size(), proof.nodes.data(), proof.nodes.size(), &file_hash,
                                               &salt, get()));
    }
    [[nodiscard]] static opened_range open_root(const range_proof &proof, const hash &root)
    {
        opened_range result;
        detail::check(yurewha_range_proof_open_root(proof.levels.data(), proof.levels.size(), proof.nodes.data(), proof.nodes.size(), &root,
                                                    result.get()));
        return result;
    }

    // The size of the file and all places are the proof's own word until data was checked.
    [[nodiscard]] std::uint64_t file_size() const { return ask<std::uint64_t>(yurewha_opened_range_file_size); }
    [[nodiscard]] std::size_t num_chunks() const { return ask<std::size_t>(yurewha_opened_range_num_chunks); }
    [[nodiscard]] interval<std::uint64_t> bytes_of(std::size_t number) const
    {
        return ask_interval<std::uint64_t>(yurewha_opened_range_bytes_of, number);
    }
    // Checks the data of a chunk of the range. Returns where in the file it begins.
    [[nodiscard]] std::uint64_t check(std::size_t number, data_view data) const
    {
        return ask<std::uint64_t>(yurewha_opened_range_check, number, data.data(), data.size());
    }
    // Checks the data of all chunks of the range. Returns where in it the bytes of the file from `from` on begin.
    [[nodiscard]] std::size_t read(std::uint64_t from, std::uint64_t to, data_view data) const
    {
        return ask<std::size_t>(yurewha_opened_range_read, from, to, data.data(), data.size());
    }

private:
    opened_range() noexcept = default;
};

// A range proof for bytes of a file that are fetched, and then what was right of the data.
class part : public detail::owner<yurewha_part, yurewha_part_free> {
public:
    // Where in the data the bytes are that were asked for, and how many they are.
    struct found {
        std::size_t start;
        std::size_t count;
    };
    // How many chunks were right, and where in the file they end.
    struct right {
        std::size_t chunks;
        std::uint64_t place;
    };

    // Throws a misplaced_range if the proof is of other bytes, or of too many beside them.
    part(const range_proof &proof, const hash &file_hash, const bytes &salt, std::uint64_t from, std::uint64_t to, std::uint64_t beyond)
    {
        const yurewha_status told = yurewha_part_open(proof.levels.data(), proof.levels.size(), proof.nodes.data(), proof.nodes.size(),
                                                      &file_hash, &salt, from, to, beyond, &place_.first, &place_.end, get());
        if (told == YUREWHA_ELSEWHERE || told == YUREWHA_TOO_FAR)
            throw misplaced_range(told, place_);
        detail::check(told);
    }

    // The bytes of the file whose data is checked.
    [[nodiscard]] interval<std::uint64_t> place() const noexcept { return place_; }
    // Checks the data. The part keeps copies of the chunks that are right if `keep` is true, also when this throws.
    found check(data_view data, bool keep = true)
    {
        found result{};
        detail::check(yurewha_part_check(get(), data.data(), data.size(), keep, &result.start, &result.count));
        return result;
    }
    [[nodiscard]] std::uint64_t file_size() const { return ask<std::uint64_t>(yurewha_part_file_size); }
    [[nodiscard]] right checked() const
    {
        yurewha_part copy = copied();
        right result{};
        detail::check(yurewha_part_checked(&copy, &result.chunks, &result.place));
        return result;
    }

private:
    interval<std::uint64_t> place_{};
};

// Keeps chunks of a file that were checked.
class reader : public detail::owner<yurewha_reader, yurewha_reader_free> {
public:
    // How many bytes were copied, and up to where in the file bytes are wanted next.
    struct copied_bytes {
        std::size_t filled;
        std::uint64_t end;
    };

    reader(const hash &file_hash, const bytes &salt, std::uint64_t most)
    {
        detail::check(yurewha_reader_new(&file_hash, &salt, most, get()));
    }

    copied_bytes read(std::uint64_t from, std::uint8_t *to, std::size_t count, std::uint64_t piece)
    {
        copied_bytes result{};
        detail::check(yurewha_reader_read(get(), from, to, count, piece, &result.filled, &result.end));
        return result;
    }
    // What is missing of some bytes, if anything is.
    [[nodiscard]] std::optional<interval<std::uint64_t>> needs(std::uint64_t from, std::uint64_t to, std::uint64_t piece) const
    {
        return ask_interval_if<std::uint64_t>(yurewha_reader_needs, from, to, piece);
    }
    // The piece of the file that has a place, of those of `length` bytes that follow one another from its start.
    [[nodiscard]] std::optional<interval<std::uint64_t>> piece(std::uint64_t place, std::uint64_t length) const
    {
        return ask_interval_if<std::uint64_t>(yurewha_reader_piece, place, length);
    }
    // The size of the file, once it is known.
    [[nodiscard]] std::optional<std::uint64_t> size() const { return ask_if<std::uint64_t>(yurewha_reader_size); }
    [[nodiscard]] std::uint64_t counted() const { return ask<std::uint64_t>(yurewha_reader_counted); }
    void keep_at_most(std::uint64_t most) { detail::check(yurewha_reader_keep_at_most(get(), most)); }
    // Moves the chunks of a part that were checked to the reader. Then the part is empty, unless this throws.
    void take(part &&from) { detail::check(yurewha_reader_take(get(), from.get())); }
};

// A number for each of some hashes: the one that came first.
class hash_index : public detail::owner<yurewha_hash_index, yurewha_hash_index_free> {
public:
    hash_index() { detail::check(yurewha_hash_index_new(get())); }

    // Gives each hash the number beside it, unless it has one. Returns how many had none.
    std::size_t insert(view<hash> hashes, view<std::uint64_t> numbers)
    {
        std::size_t new_hashes = 0;
        detail::check(yurewha_hash_index_insert(get(), hashes.data(), hashes.size(), numbers.data(), numbers.size(), &new_hashes));
        return new_hashes;
    }
    // The number of each hash that has one.
    [[nodiscard]] std::vector<std::optional<std::uint64_t>> find(view<hash> hashes) const
    {
        yurewha_hash_index copy = copied();
        std::vector<std::uint8_t> found(hashes.size());
        std::vector<std::uint64_t> numbers(hashes.size());
        detail::check(yurewha_hash_index_find(&copy, hashes.data(), hashes.size(), found.data(), found.size(), numbers.data(),
                                              numbers.size()));
        std::vector<std::optional<std::uint64_t>> result(hashes.size());
        for (std::size_t i = 0; i < result.size(); i++)
            if (found[i] != 0)
                result[i] = numbers[i];
        return result;
    }
    // Each hash that has a number, with it.
    [[nodiscard]] std::vector<std::pair<hash, std::uint64_t>> entries() const
    {
        yurewha_hash_index copy = copied();
        std::vector<hash> hashes(len());
        std::vector<std::uint64_t> numbers(hashes.size());
        detail::check(yurewha_hash_index_entries(&copy, hashes.data(), hashes.size(), numbers.data(), numbers.size()));
        std::vector<std::pair<hash, std::uint64_t>> result(hashes.size());
        for (std::size_t i = 0; i < result.size(); i++)
            result[i] = {hashes[i], numbers[i]};
        return result;
    }
    [[nodiscard]] std::size_t len() const { return ask<std::size_t>(yurewha_hash_index_len); }
};

} // namespace yurewha

#endif
