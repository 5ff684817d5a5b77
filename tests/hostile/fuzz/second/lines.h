/* A second reading of the lines of xetroot and xetrange, and what the programs should answer to them. */
#ifndef SECOND_LINES_H
#define SECOND_LINES_H

#include "json.h"

#include <map>

namespace second {

/* What a run should end with. Where ranges come from no list, nothing is promised of the hashes: then what should be written
 * isn't known, but for a range's marks, size and rules. */
struct Answer {
    unsigned status = 0;
    std::string written;
    std::string printed;
    bool is_known = true;
    uint64_t size = 0;
};

/* The lists of which some subtrees without marks are the canonical ones. */
class Lists {
public:
    /* The line of the canonical subtree of a list whose sizes fit 64 bits. */
    std::string line_of(const Nodes &nodes);
    /* A list whose canonical subtree this is, where one is known. */
    std::optional<Nodes> list_of(const Subtree &subtree) const;

private:
    std::map<std::string, Nodes> known;
};

Answer answer_of_xetroot(std::string_view text);
Answer answer_of_make(std::string_view text);
Answer answer_of_join(std::string_view text, const Lists &lists);
Answer answer_of_root(std::string_view text, const Lists &lists);

}  // namespace second

#endif
