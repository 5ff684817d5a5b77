/* Spells parts of JSON texts, for which the bytes of an input say the members, the numbers and the nodes. Sometimes a part isn't as
 * it should be. */
#ifndef SPELLING_H
#define SPELLING_H

#include "support.h"

class Spelling {
public:
    explicit Spelling(Input &input) : input(input) {}

protected:
    Input &input;

    /* True for some inputs. */
    bool odd() { return input.byte() > 0xE0; }

    std::string space() { return odd() ? (input.flag() ? " " : "\n\t") : ""; }

    std::string array(const std::string &items) { return odd() ? "[" + items + ",0]" : "[" + space() + items + "]"; }

    std::string truth(bool is_true) { return odd() ? "null" : is_true ? "true" : "false"; }

    std::string member(std::string name, const std::string &value)
    {
        if (odd())
            name = input.flag() ? name + "s" : "\\u00" + hex_byte(static_cast<uint8_t>(name[0])) + name.substr(1);
        return "\"" + name + "\"" + space() + ":" + space() + value;
    }

    static std::string hex_byte(uint8_t byte)
    {
        static constexpr char DIGITS[] = "0123456789abcdef";
        return {DIGITS[byte >> 4], DIGITS[byte & 15]};
    }

    std::string number(uint64_t number)
    {
        static constexpr const char *ENDS[] = {".0", "e0", "E+0", "0", "00000000000000000000", "e400", ".5"};
        if (!odd())
            return std::to_string(number);
        const uint8_t how = input.byte();
        return how % 8 == 0 ? "-" + std::to_string(number) : std::to_string(number) + ENDS[how % 8 - 1];
    }

    std::string nested()
    {
        const size_t depth = 25 + input.below(10);
        return std::string(depth, '[') + std::string(depth, ']');
    }

    std::string spelled_node(const second::Node &node)
    {
        std::string hash = second::hex_of(node.hash);
        if (odd())
            hash = hash.substr(input.flag()) + (input.flag() ? "A" : "g");
        return "{" + member("hash", "\"" + hash + "\"") + "," + member("size", number(node.size)) + "}";
    }

    /* The items of an array. */
    std::string spelled_nodes(const second::Nodes &nodes)
    {
        std::string items;
        for (const second::Node &node : nodes)
            items += (items.empty() ? "" : ",") + spelled_node(node);
        return items;
    }
};

#endif
