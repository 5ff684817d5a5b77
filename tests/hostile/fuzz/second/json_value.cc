/* JSON texts, and nodes as JSON. */
#include "json_value.h"

#include <cctype>
#include <cmath>
#include <cstdlib>

namespace second {
namespace {

constexpr unsigned DEEPEST = 32; /* so deep a text may be nested */

/* Reads a text from its beginning on. Each call answers whether the text goes on as it should. */
class Reader {
public:
    explicit Reader(std::string_view text) : text(text) {}

    bool document(Value &found)
    {
        return is_utf8() && value(found, DEEPEST) && (space(), at == text.size());
    }

private:
    std::string_view text;
    size_t at = 0;

    unsigned char peek(size_t ahead = 0) const
    {
        return at + ahead < text.size() ? static_cast<unsigned char>(text[at + ahead]) : 0;
    }

    bool is_at(char c) const { return at < text.size() && text[at] == c; }

    bool take(char c)
    {
        const bool is_there = is_at(c);
        at += is_there;
        return is_there;
    }

    bool take(std::string_view word)
    {
        const bool is_there = text.substr(at, word.size()) == word;
        at += is_there ? word.size() : 0;
        return is_there;
    }

    void space()
    {
        while (is_at(' ') || is_at('\t') || is_at('\n') || is_at('\r'))
            at++;
    }

    /* Table 3-7 of the Unicode standard. */
    bool is_utf8() const
    {
        const auto within = [&](size_t i, unsigned low, unsigned high) {
            return i < text.size() && low <= static_cast<unsigned char>(text[i]) && static_cast<unsigned char>(text[i]) <= high;
        };
        for (size_t i = 0; i < text.size();) {
            const unsigned first = static_cast<unsigned char>(text[i]);
            const unsigned low = first == 0xE0 ? 0xA0 : first == 0xF0 ? 0x90 : 0x80;
            const unsigned high = first == 0xED ? 0x9F : first == 0xF4 ? 0x8F : 0xBF;
            size_t length = 1;
            if (within(i, 0xC2, 0xDF))
                length = 2;
            else if (within(i, 0xE0, 0xEF))
                length = 3;
            else if (within(i, 0xF0, 0xF4))
                length = 4;
            else if (first > 0x7F)
                return false;
            for (size_t j = 1; j < length; j++)
                if (!within(i + j, j == 1 ? low : 0x80, j == 1 ? high : 0xBF))
                    return false;
            i += length;
        }
        return true;
    }

    bool value(Value &found, unsigned depth)
    {
        space();
        switch (peek()) {
        case '{':
            return depth > 0 && object(found, depth - 1);
        case '[':
            return depth > 0 && array(found, depth - 1);
        case '"':
            found.kind = Value::STRING;
            return string(found.string);
        case 't':
            found.kind = Value::TRUTH;
            found.truth = true;
            return take("true");
        case 'f':
            found.kind = Value::TRUTH;
            return take("false");
        case 'n':
            return take("null");
        default:
            return number(found);
        }
    }

    bool array(Value &found, unsigned depth)
    {
        found.kind = Value::ARRAY;
        at++;
        space();
        if (take(']'))
            return true;
        do {
            found.items.emplace_back();
            if (!value(found.items.back(), depth))
                return false;
            space();
        } while (take(','));
        return take(']');
    }

    bool object(Value &found, unsigned depth)
    {
        found.kind = Value::OBJECT;
        at++;
        space();
        if (take('}'))
            return true;
        do {
            std::string name;
            space();
            if (!is_at('"') || !string(name))
                return false;
            space();
            Value member;
            if (!take(':') || !value(member, depth))
                return false;
            found.members[name] = std::move(member);
            space();
        } while (take(','));
        return take('}');
    }

    bool string(std::string &found)
    {
        at++;
        while (at < text.size() && !is_at('"')) {
            if (peek() < 0x20)
                return false;
            if (!is_at('\\'))
                found += text[at++];
            else if (at++; !escape(found))
                return false;
        }
        return take('"');
    }

    bool escape(std::string &found)
    {
        static constexpr std::string_view NAMES = "\"\\/bfnrt", MEANINGS = "\"\\/\b\f\n\r\t";
        if (take('u'))
            return unicode_escape(found);
        const size_t which = at < text.size() ? NAMES.find(text[at]) : std::string_view::npos;
        if (which == std::string_view::npos)
            return false;
        found += MEANINGS[which];
        at++;
        return true;
    }

    /* Four hex digits; two of them for a number past FFFF. */
    bool unicode_escape(std::string &found)
    {
        unsigned long code = 0, low = 0;
        if (!four_digits(code) || (0xDC00 <= code && code <= 0xDFFF))
            return false;
        if (0xD800 <= code && code <= 0xDBFF) {
            if (!take("\\u") || !four_digits(low) || low < 0xDC00 || 0xDFFF < low)
                return false;
            code = 0x10000 + ((code - 0xD800) << 10) + (low - 0xDC00);
        }
        append_utf8(found, code);
        return true;
    }

    bool four_digits(unsigned long &code)
    {
        for (int i = 0; i < 4; i++, at++) {
            if (!std::isxdigit(peek()))
                return false;
            const char digit[] = {text[at], 0};
            code = code << 4 | std::strtoul(digit, nullptr, 16);
        }
        return true;
    }

    static void append_utf8(std::string &found, unsigned long code)
    {
        const auto tail = [&](unsigned shift) { found += static_cast<char>(0x80 | (code >> shift & 0x3F)); };
        if (code < 0x80) {
            found += static_cast<char>(code);
        } else if (code < 0x800) {
            found += static_cast<char>(0xC0 | code >> 6);
            tail(0);
        } else if (code < 0x10000) {
            found += static_cast<char>(0xE0 | code >> 12);
            tail(6), tail(0);
        } else {
            found += static_cast<char>(0xF0 | code >> 18);
            tail(12), tail(6), tail(0);
        }
    }

    bool digits()
    {
        const size_t first = at;
        while (std::isdigit(peek()))
            at++;
        return at > first;
    }

    /* One that is too great for a float is refused. */
    bool number(Value &found)
    {
        const size_t first = at;
        bool is_whole = !take('-');
        if (!take('0') && !digits())
            return false;
        if (take('.')) {
            is_whole = false;
            if (!digits())
                return false;
        }
        if (take('e') || take('E')) {
            is_whole = false;
            if (!take('+'))
                take('-');
            if (!digits())
                return false;
        }
        const std::string written(text.substr(first, at - first));
        found.kind = Value::NUMBER;
        if (is_whole && fits(written, found.whole))
            found.kind = Value::WHOLE;
        return found.kind == Value::WHOLE || std::isfinite(std::strtod(written.c_str(), nullptr));
    }

    static bool fits(const std::string &written, uint64_t &number)
    {
        for (const char c : written) {
            if (number > UINT64_MAX / 10 || 10 * number > UINT64_MAX - static_cast<uint64_t>(c - '0'))
                return false;
            number = 10 * number + static_cast<uint64_t>(c - '0');
        }
        return true;
    }
};

}  // namespace

std::optional<Value> read_json(std::string_view text)
{
    Value value;
    return Reader(text).document(value) ? std::optional(std::move(value)) : std::nullopt;
}

const Value *member(const Value &object, const char *name, Value::Kind kind)
{
    const auto found = object.members.find(name);
    return found != object.members.end() && found->second.kind == kind ? &found->second : nullptr;
}

bool read_node(const Value &value, Node &node)
{
    const Value *hash = member(value, "hash", Value::STRING), *size = member(value, "size", Value::WHOLE);
    const std::optional<Hash> read = hash ? from_hex(hash->string) : std::nullopt;
    if (!read || !size)
        return false;
    node = {*read, size->whole};
    return true;
}

bool read_nodes(const Value &array, Nodes &nodes)
{
    nodes.resize(array.items.size());
    for (size_t i = 0; i < nodes.size(); i++)
        if (!read_node(array.items[i], nodes[i]))
            return false;
    return true;
}

std::string nodes_text(const Nodes &nodes)
{
    std::string text = "[";
    const char *between = "";
    for (const Node &node : nodes) {
        text += between + ("{\"hash\":\"" + hex_of(node.hash)) + "\",\"size\":" + std::to_string(node.size) + "}";
        between = ",";
    }
    return text + "]";
}

}  // namespace second
