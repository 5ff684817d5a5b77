// Each function of the classes of yurewha.hpp, for objects in each state: with 0, 1, 2 and more items, moved from and to, copied and
// assigned, and as an argument of themselves. What it returns or throws, and what the object is afterwards, is as of a new object with
// another one as the argument; and one that was moved from is empty.
//
//     states            tests all rows
//     states --rows     their names, which bindings/c/classes/members compares with the header
#include <yurewha.hpp>

#include <cstdio>
#include <cstdlib>
#include <cstring>

namespace yu = yurewha;

static unsigned long checked, failed;
static void must_be(const std::string &found, const std::string &wanted, const std::string &where)
{
    checked++;
    if (found != wanted && failed++ < 10)
        std::fprintf(stderr, "states.cc: %s: %.300s, and not %.300s\n", where.c_str(), found.c_str(), wanted.c_str());
}

// What a function returned, and what an object is.
template <class Number, class = std::enable_if_t<std::is_arithmetic_v<Number>>> static std::string text(Number it) { return std::to_string(it); }
static std::string text(const std::string &it) { return it; }
static std::string text(const yu::hash &it) { return yu::hex(it); }
static std::string text(const yu::chunk &it) { return yu::hex(it.hash) + ':' + text(it.size); }
static std::string text(const yu::level &it) { return text(it.left) + '/' + text(it.right); }
static std::string text(const yu::subtree &it) { return it.to_json(); }
template <class Number> static std::string text(const yu::interval<Number> &it) { return text(it.first) + ".." + text(it.end); }
template <class First, class Second> static std::string text(const std::pair<First, Second> &it);
template <class Item> static std::string text(const std::optional<Item> &it);
template <class Item> static std::string text(const std::vector<Item> &list);
static std::string text(const yu::range_proof &it) { return text(it.levels) + text(it.nodes); }
static std::string text(const yu::session::taken_run &it) { return text(it.positions) + ' ' + text(it.chunks); }
static std::string text(const yu::part::found &it) { return text(it.start) + '+' + text(it.count); }
static std::string text(const yu::part::right &it) { return text(it.chunks) + '@' + text(it.place); }
template <class First, class Second> static std::string text(const std::pair<First, Second> &it) { return text(it.first) + '=' + text(it.second); }
template <class Item> static std::string text(const std::optional<Item> &it) { return it ? text(*it) : "none"; }
template <class Item> static std::string text(const std::vector<Item> &list)
{
    std::string all;
    for (const Item &it : list)
        all += text(it) + ' ';
    return all;
}

// The files of which all objects are: of so many chunks, which have their data.
static std::string data_of(std::size_t chunk) { return std::to_string(chunk) + " is the number of a chunk"; }
static std::vector<yu::chunk> chunks_of(std::size_t count)
{
    std::vector<yu::chunk> chunks;
    for (std::size_t i = 0; i < count; i++)
        chunks.push_back({yu::data_hash(data_of(i)), data_of(i).size()});
    return chunks;
}
static std::string data(std::size_t count)
{
    std::string all;
    for (std::size_t i = 0; i < count; i++)
        all += data_of(i);
    return all;
}
static std::vector<yu::hash> hashes_of(std::size_t count)
{
    std::vector<yu::hash> hashes;
    for (const yu::chunk &it : chunks_of(count))
        hashes.push_back(it.hash);
    return hashes;
}
static std::vector<std::uint64_t> numbers_of(std::size_t count)
{
    std::vector<std::uint64_t> numbers(count);
    for (std::size_t i = 0; i < count; i++)
        numbers[i] = 10 * i;
    return numbers;
}

// An object of a class with so many items, and what it is in full.
template <class Object> Object made(std::size_t count);
template <> yu::subtree made(std::size_t count) { return yu::subtree(false, chunks_of(count), false); }
template <> yu::hash_tree made(std::size_t count) { return yu::hash_tree(chunks_of(count)); }
template <> yu::range_proof made(std::size_t count) { return count == 0 ? yu::range_proof() : made<yu::hash_tree>(count).proof(0, count); }
template <> yu::hasher made(std::size_t count) { return yu::hasher::begin_data().update(data(count)); }
// A file of so many chunks of 8193 bytes, since three bytes end the first one after 3 * 2731, and one more byte of another.
static std::string file_of(std::size_t count)
{
    std::string bytes(count * 3 * 2731 + 1, '\0');
    for (std::size_t i = 0; i + 1 < bytes.size(); i++)
        bytes[i] = "\0\x94\x8f"[i % 3];
    return bytes;
}
template <> yu::chunker made(std::size_t count)
{
    yu::chunker chunker;
    (void)chunker.next_boundary(data(count));
    return chunker;
}
template <> yu::file_hasher made(std::size_t count)
{
    yu::file_hasher hasher;
    hasher.update(file_of(count));
    return hasher;
}
template <> yu::session made(std::size_t count)
{
    yu::session session;
    if (count != 0)
        session.put(count, chunks_of(count));
    return session;
}
template <> yu::hash_index made(std::size_t count)
{
    yu::hash_index index;
    if (count != 0)
        index.insert(hashes_of(count), numbers_of(count));
    return index;
}
// There is no range proof of nothing. So the least of these is of one chunk.
static std::size_t some(std::size_t count) { return count == 0 ? 1 : count; }
template <> yu::opened_range made(std::size_t count)
{
    return yu::opened_range(made<yu::range_proof>(some(count)), yu::file_hash(chunks_of(some(count))));
}
template <> yu::part made(std::size_t count)
{
    const std::uint64_t end = data(some(count)).size();
    yu::part part(made<yu::range_proof>(some(count)), yu::file_hash(chunks_of(some(count))), {}, 0, end, 0);
    if (count > 1)
        (void)part.check(data(count));
    return part;
}
template <> yu::reader made(std::size_t count)
{
    yu::reader reader(yu::file_hash(chunks_of(some(count))), {}, 1 << 20);
    if (count > 1)
        reader.take(made<yu::part>(count));
    return reader;
}

static std::string whole(yu::subtree &it) { return it.to_json(); }
static std::string whole(yu::session &it) { return it.to_json(); }
static std::string whole(yu::hash_tree &it) { return it.num_chunks() == 0 ? "none" : text(it.proof(0, it.num_chunks())); }
static std::string whole(yu::range_proof &it) { return text(it); }
static std::string whole(yu::hasher &it) { return text(it.count()) + text(it.finalize()); }
static std::string whole(yu::chunker &it)
{
    yu::chunker copy = it;
    return text(it.taken()) + ' ' + text(copy.next_boundary(std::string(1 << 17, 'a')));
}
static std::string whole(yu::file_hasher &it) { return text(it.size()) + text(it.root()); }
static std::string whole(yu::hash_index &it) { return text(it.entries()); }
static std::string whole(yu::opened_range &it) { return text(it.file_size()) + ' ' + text(it.num_chunks()) + text(it.bytes_of(it.num_chunks() - 1)); }
static std::string whole(yu::part &it) { return text(it.file_size()) + ' ' + text(it.place()) + text(it.checked()); }
static std::string whole(yu::reader &it) { return text(it.counted()) + ' ' + text(it.size()) + text(it.needs(0, 1000, 1)); }

// A function of a class, of an object and another one, as a text. `empty` is what it is of an object that was moved from.
static const std::string refused = "throws " + std::to_string(YUREWHA_EMPTY_HANDLE);
template <class Object> struct row {
    const char *name;
    std::string (*call)(Object &, Object &);
    std::string empty = refused;
};
template <class Object> static const std::vector<row<Object>> &rows();
#define CALL(Object, ...) []([[maybe_unused]] Object & it, [[maybe_unused]] Object & other) -> std::string { __VA_ARGS__ }
#define IS(Object, ...) CALL(Object, return text(__VA_ARGS__);)
#define ROW(Class, name, ...) {#Class "::" #name, __VA_ARGS__}

#define SUBTREE(name, ...) ROW(subtree, name, IS(yu::subtree, __VA_ARGS__))
template <> const std::vector<row<yu::subtree>> &rows()
{
    static const std::vector<row<yu::subtree>> all = {
        ROW(subtree, merge_into, CALL(yu::subtree, it.merge_into(other); return "";)),
        SUBTREE(merge_into_counted, it.merge_into_counted(other)),
        SUBTREE(merge, yu::subtree::merge(std::vector<yu::subtree>{it, other})),
        SUBTREE(merge, yu::subtree::merge(yu::view<yu::subtree>(&it, 1))),
        SUBTREE(operator==, it == other),
        SUBTREE(operator!=, it != other),
        SUBTREE(from_json, yu::subtree::from_json(it.to_json())),
        SUBTREE(from_flat, yu::subtree::from_flat(it.at_start(), it.to_flat().levels, it.to_flat().nodes, it.at_end())),
        SUBTREE(to_flat, text(it.to_flat().levels) + text(it.to_flat().nodes)),
        SUBTREE(to_json, it.to_json()),
        SUBTREE(at_start, it.at_start()),
        SUBTREE(at_end, it.at_end()),
        SUBTREE(total_size, it.total_size()),
        SUBTREE(num_nodes, it.num_nodes()),
        SUBTREE(num_levels, it.num_levels()),
        SUBTREE(final_hash, it.final_hash()),
    };
    return all;
}

#define SESSION(name, ...) ROW(session, name, IS(yu::session, __VA_ARGS__))
template <> const std::vector<row<yu::session>> &rows()
{
    static const std::vector<row<yu::session>> all = {
        ROW(session, without_hashes, IS(yu::session, yu::session::without_hashes().to_json()), yu::session::without_hashes().to_json()),
        SESSION(from_json, yu::session::from_json(it.to_json()).to_json()),
        SESSION(put, it.put(0, chunks_of(it.num_chunks()))),
        SESSION(put, it.put(1000, {})),
        ROW(session, put_range, CALL(yu::session, it.put_range(2, 3, made<yu::subtree>(3)); return "";)),
        ROW(session, put_range, CALL(yu::session, it.put_range(2000, 0, made<yu::subtree>(2)); return "";)),
        ROW(session, put_range,
            CALL(yu::session, const auto run = other.run(0); if (run) it.put_range(3000, other.num_chunks(), run->second); return "";)),
        SESSION(join, it.join(other)),
        ROW(session, push_run, CALL(yu::session, it.push_run(2000, 2002, made<yu::subtree>(2)); return "";)),
        ROW(session, push_run,
            CALL(yu::session, const auto run = other.run(0); if (run) it.push_run(3000, 3000 + other.num_chunks(), run->second); return "";)),
        ROW(session, keep_hashes, CALL(yu::session, it.keep_hashes(other.known_hashes()); return "";)),
        SESSION(root, it.root(it.num_chunks())),
        SESSION(finish, it.finish(it.num_chunks())),
        SESSION(finish_with_salt, it.finish_with_salt(0, {})),
        SESSION(taken, it.taken(1)),
        SESSION(num_chunks, it.num_chunks()),
        SESSION(total_size, it.total_size()),
        SESSION(next_gap, it.next_gap(0, 1000)),
        SESSION(knows, it.knows(chunks_of(1)[0].hash)),
        SESSION(knows_each, it.knows_each(hashes_of(2))),
        SESSION(knows_each, it.knows_each({})),
        SESSION(keeps_hashes, it.keeps_hashes()),
        SESSION(num_known_hashes, it.num_known_hashes()),
        SESSION(known_hashes, it.known_hashes()),
        SESSION(num_runs, it.num_runs()),
        SESSION(run, it.run(0)),
        SESSION(run_from, it.run_from(0)),
        SESSION(to_json, it.to_json(false)),
    };
    return all;
}

#define TREE(name, ...) ROW(hash_tree, name, IS(yu::hash_tree, __VA_ARGS__))
template <> const std::vector<row<yu::hash_tree>> &rows()
{
    static const std::vector<row<yu::hash_tree>> all = {
        TREE(root, it.root()),
        TREE(file_hash, it.file_hash()),
        TREE(num_chunks, it.num_chunks()),
        TREE(total_size, it.total_size()),
        TREE(chunks_at, it.chunks_at(0, 30)),
        TREE(bytes_of, it.bytes_of(0, 1)),
        TREE(proof, it.proof(0, 1)),
        TREE(common_prefix, it.common_prefix(other)),
        TREE(common_suffix, it.common_suffix(other, 1000)),
    };
    return all;
}

#define PROOF(name, ...) ROW(range_proof, name, IS(yu::range_proof, __VA_ARGS__))
template <> const std::vector<row<yu::range_proof>> &rows()
{
    const std::string rule = "throws " + std::to_string(YUREWHA_PROOF_RULE + 5);
    static const std::vector<row<yu::range_proof>> all = {
        ROW(range_proof, from_json, IS(yu::range_proof, yu::range_proof::from_json(it.to_json())), rule),
        ROW(range_proof, from_bytes, IS(yu::range_proof, yu::range_proof::from_bytes(it.to_bytes())), rule),
        ROW(range_proof, to_json, IS(yu::range_proof, it.to_json()), rule),
        ROW(range_proof, to_bytes, IS(yu::range_proof, it.to_bytes()), rule),
        ROW(range_proof, check, CALL(yu::range_proof, it.check(); return "";), rule),
        ROW(range_proof, operator==, IS(yu::range_proof, it == other), text(false)),
        ROW(range_proof, operator!=, IS(yu::range_proof, it != other), text(true)),
    };
    return all;
}

#define HASHER(name, ...) ROW(hasher, name, IS(yu::hasher, __VA_ARGS__), "")
template <> const std::vector<row<yu::hasher>> &rows()
{
    static const std::vector<row<yu::hasher>> all = {
        HASHER(begin_data, yu::hasher::begin_data().count()),
        HASHER(begin_internal, yu::hasher::begin_internal().finalize()),
        HASHER(begin_keyed, yu::hasher::begin_keyed({}).finalize()),
        HASHER(update, it.update({}).update(data(1)).count()),
        HASHER(count, it.count()),
        HASHER(finalize, it.finalize()),
    };
    return all;
}

#define CHUNKER(name, ...) ROW(chunker, name, IS(yu::chunker, __VA_ARGS__), "")
template <> const std::vector<row<yu::chunker>> &rows()
{
    static const std::vector<row<yu::chunker>> all = {
        CHUNKER(next_boundary, it.next_boundary({})),
        CHUNKER(next_boundary, it.next_boundary(data(2))),
        CHUNKER(next_boundary, it.next_boundary(std::string(1 << 17, 'a'))),
        CHUNKER(taken, it.taken()),
    };
    return all;
}

#define FILE_HASHER(name, ...) ROW(file_hasher, name, IS(yu::file_hasher, __VA_ARGS__))
template <> const std::vector<row<yu::file_hasher>> &rows()
{
    static const std::vector<row<yu::file_hasher>> all = {
        FILE_HASHER(update, it.update({}).update(file_of(2)).finish()),
        FILE_HASHER(size, it.size()),
        FILE_HASHER(root, it.root()),
        FILE_HASHER(finish, it.finish()),
        FILE_HASHER(finish_with_salt, it.finish_with_salt({})),
    };
    return all;
}

#define INDEX(name, ...) ROW(hash_index, name, IS(yu::hash_index, __VA_ARGS__))
template <> const std::vector<row<yu::hash_index>> &rows()
{
    static const std::vector<row<yu::hash_index>> all = {
        INDEX(insert, it.insert(hashes_of(2), numbers_of(2))), INDEX(insert, it.insert({}, {})), INDEX(find, it.find(hashes_of(2))),
        INDEX(find, it.find({})),                              INDEX(entries, it.entries()),     INDEX(len, it.len()),
    };
    return all;
}

#define RANGE(name, ...) ROW(opened_range, name, IS(yu::opened_range, __VA_ARGS__))
template <> const std::vector<row<yu::opened_range>> &rows()
{
    static const std::vector<row<yu::opened_range>> all = {
        ROW(opened_range, open_root,
            IS(yu::opened_range, yu::opened_range::open_root(made<yu::range_proof>(2), yu::xorb_hash(chunks_of(2))).num_chunks()), "2"),
        RANGE(file_size, it.file_size()),
        RANGE(num_chunks, it.num_chunks()),
        RANGE(bytes_of, it.bytes_of(0)),
        RANGE(check, it.check(0, data(1))),
        RANGE(read, it.read(0, it.file_size(), data(it.num_chunks()))),
    };
    return all;
}

#define PART(name, ...) ROW(part, name, IS(yu::part, __VA_ARGS__))
template <> const std::vector<row<yu::part>> &rows()
{
    static const std::vector<row<yu::part>> all = {
        ROW(part, place, IS(yu::part, it.place().first), "0"),
        PART(check, it.check(data(1))),
        PART(check, it.check({})),
        PART(check, it.check(data(2), false)),
        PART(file_size, it.file_size()),
        PART(checked, it.checked()),
    };
    return all;
}

#define READER(name, ...) ROW(reader, name, IS(yu::reader, __VA_ARGS__))
static std::string read_by(yu::reader &reader, std::size_t count)
{
    std::vector<std::uint8_t> room(count);
    const auto read = reader.read(0, room.data(), count, 1);
    return text(read.filled) + ' ' + text(read.end) + ' ' + std::string(room.begin(), room.begin() + static_cast<std::ptrdiff_t>(read.filled));
}
template <> const std::vector<row<yu::reader>> &rows()
{
    static const std::vector<row<yu::reader>> all = {
        READER(read, read_by(it, 60)),
        READER(read, read_by(it, 0)),
        READER(needs, it.needs(0, 1000, 1)),
        READER(piece, it.piece(1, 2)),
        READER(size, it.size()),
        READER(counted, it.counted()),
        ROW(reader, keep_at_most, CALL(yu::reader, it.keep_at_most(0); return "";)),
        ROW(reader, take, CALL(yu::reader, it.take(made<yu::part>(2)); return "";)),
    };
    return all;
}

// What a function does to an object with another one: what it returns or throws, and what the object is then.
template <class Object> static std::string state(Object &it)
{
    try {
        return whole(it);
    } catch (const yu::error &error) {
        return "throws " + std::to_string(error.status());
    }
}
template <class Object> static std::string outcome(const row<Object> &row, Object &it, Object &other)
{
    std::string told;
    try {
        told = row.call(it, other);
    } catch (const yu::error &error) {
        told = "throws " + std::to_string(error.status());
    }
    return told + " leaves " + state(it);
}
static const std::size_t counts[] = {0, 1, 2, 3, 40};
template <class Object> constexpr bool is_handle = !std::is_same_v<Object, yu::hasher> && !std::is_same_v<Object, yu::chunker>;

// Moves, copies and assigns an object, and itself to itself.
template <class Object> static void moved(const row<Object> &row, std::size_t count, const std::string &where)
{
    Object other = made<Object>(2), it = made<Object>(count);
    const std::string wanted = outcome(row, it, other);
    Object first = made<Object>(count), second = std::move(first);
    Object another = made<Object>(2);
    must_be(outcome(row, second, another), wanted, where + ", moved to");
    if constexpr (is_handle<Object>) {
        Object from = made<Object>(count), to = std::move(from), last = made<Object>(2);
        must_be(outcome(row, from, last), row.empty + " leaves " + state(from), where + ", moved from");
        from = made<Object>(count);
        must_be(outcome(row, from, last = made<Object>(2)), wanted, where + ", assigned to what was moved from");
        from = made<Object>(count), to = made<Object>(2), last = made<Object>(2);
        to = std::move(from);
        must_be(outcome(row, from, last), row.empty + " leaves " + state(from), where + ", moved from by an assignment");
        must_be(outcome(row, to, last = made<Object>(2)), wanted, where + ", moved to by an assignment");
    }
    // Lists of std may lose what they have if they are moved to themselves.
    if constexpr (!std::is_same_v<Object, yu::range_proof>) {
        Object &self = it = made<Object>(count);
        it = std::move(self);
        Object fresh = made<Object>(2);
        must_be(outcome(row, it, fresh), wanted, where + ", moved to itself");
    }
    if constexpr (std::is_copy_constructible_v<Object>) {
        Object original = made<Object>(count), copy = original, same = made<Object>(2);
        const std::string before = state(original);
        must_be(outcome(row, copy, same), wanted, where + ", copied");
        must_be(state(original), before, where + ", whose copy is changed");
        copy = original;
        const Object &alias = copy;
        copy = alias;
        must_be(outcome(row, copy, same = made<Object>(2)), wanted, where + ", copied to itself");
    }
}

// Gives an object another one, itself, and one that was moved from.
template <class Object> static void together(const row<Object> &row, std::size_t count, const std::string &where)
{
    Object it = made<Object>(count), other = made<Object>(count), self = made<Object>(count);
    const std::string wanted = outcome(row, it, other);
    must_be(outcome(row, self, self), wanted, where + ", with itself");
    for (const std::size_t of_other : counts) {
        Object first = made<Object>(count), second = made<Object>(of_other);
        const std::string before = state(second);
        (void)outcome(row, first, second);
        must_be(state(second), before, where + ", the other one of " + text(of_other));
    }
    Object from = made<Object>(2), left = made<Object>(count);
    [[maybe_unused]] const Object to = std::move(from);
    const std::string before = state(left), told = outcome(row, left, from);
    if (told.rfind(refused, 0) == 0)
        must_be(told, refused + " leaves " + before, where + ", with one that was moved from");
}

template <class Object> static void test()
{
    for (const auto &row : rows<Object>())
        for (const std::size_t count : counts) {
            const std::string where = std::string(row.name) + " of " + text(count);
            moved(row, count, where);
            together(row, count, where);
        }
}
template <class Object> static void print()
{
    for (const auto &row : rows<Object>())
        std::puts(row.name);
}
template <class... Objects> static void all(bool prints) { (..., (prints ? print<Objects>() : test<Objects>())); }

int main(int count, char **words)
{
    const bool prints = count > 1 && std::strcmp(words[1], "--rows") == 0;
    all<yu::subtree, yu::session, yu::hash_tree, yu::range_proof, yu::hasher, yu::hash_index, yu::opened_range, yu::part, yu::reader>(prints);
    all<yu::chunker, yu::file_hasher>(prints);
    if (!prints)
        std::printf("states: %lu checks, %lu failed\n", checked, failed);
    return failed != 0;
}
