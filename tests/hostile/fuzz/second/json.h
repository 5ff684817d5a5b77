/* A second reading of the subtrees that JSON texts say, by the rules 1 to 13. */
#ifndef SECOND_JSON_H
#define SECOND_JSON_H

#include "merkle.h"

namespace second {

/* What a text says: no JSON text, or a value, which breaks a rule at least, or says a subtree where the rule is 0. */
struct Reading {
    bool is_json = false;
    unsigned rule = 0;
    Subtree subtree;
    bool says_subtree() const { return is_json && rule == 0; }
};

Reading read_subtree(std::string_view text);

/* The compact text of a subtree. */
std::string json_text(const Subtree &subtree);

}  // namespace second

#endif
