/* A second reading of JSON texts, by RFC 8259, and of nodes as JSON. */
#ifndef SECOND_JSON_VALUE_H
#define SECOND_JSON_VALUE_H

#include "merkle.h"

#include <map>

namespace second {

struct Value {
    enum Kind { NONE, TRUTH, WHOLE, NUMBER, STRING, ARRAY, OBJECT } kind = NONE;
    bool truth = false;
    uint64_t whole = 0; /* of a number that is whole, from 0 to 2^64 - 1 */
    std::string string;
    std::vector<Value> items;
    std::map<std::string, Value> members; /* the last one of each name */
};

/* The value of a text, or nothing where it is no JSON text. */
std::optional<Value> read_json(std::string_view text);

/* The member of an object with a name, if it is of this kind. */
const Value *member(const Value &object, const char *name, Value::Kind kind);

/* Reads a node, which is an object with `hash` and `size`. Answers whether it is one. */
bool read_node(const Value &value, Node &node);

/* The same of each value of an array. */
bool read_nodes(const Value &array, Nodes &nodes);

/* The compact text of an array of nodes. */
std::string nodes_text(const Nodes &nodes);

}  // namespace second

#endif
