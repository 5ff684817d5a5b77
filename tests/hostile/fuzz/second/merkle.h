/* A second reading of the definitions of groups, roots, stable points and canonical subtrees, and of the rules that a subtree
 * keeps. Each looks at whole lists. */
#ifndef SECOND_MERKLE_H
#define SECOND_MERKLE_H

#include "hash.h"

#include <utility>
#include <vector>

namespace second {

struct Node {
    Hash hash;
    uint64_t size;
};
using Nodes = std::vector<Node>;

struct Level {
    Nodes left;
    Nodes right;
};

struct Subtree {
    bool at_start = false;
    bool at_end = false;
    std::vector<Level> levels;
};

bool operator==(const Node &first, const Node &second);
bool operator==(const Level &first, const Level &second);
bool operator==(const Subtree &first, const Subtree &second);

/* A list followed by another one. */
Nodes joined(Nodes first, const Nodes &second);

/* The sum of some sizes, or nothing where it passes 2^64 - 1. */
std::optional<uint64_t> sum(std::optional<uint64_t> first, std::optional<uint64_t> second);
std::optional<uint64_t> total_size(const Nodes &nodes);
std::optional<uint64_t> total_size(const Subtree &subtree);
size_t node_count(const Subtree &subtree);

/* The places where the groups of a list begin, and last the length of the list. */
std::vector<size_t> group_bounds(const Nodes &nodes);
Nodes parents_of(const Nodes &nodes);

/* The nodes from a place up to, and without, another one. */
Nodes part(const Nodes &nodes, size_t from, size_t to);

/* The root and the file hash of a list whose sizes fit 64 bits. */
Hash root_of(const Nodes &nodes);
Hash file_hash_of(const Nodes &nodes, const Hash &salt);

std::optional<size_t> first_stable_point(const Nodes &nodes);
std::optional<size_t> last_stable_point(const Nodes &nodes);

/* The canonical subtree of a list whose sizes fit 64 bits, and how many parents it takes. */
Subtree canonical(const Nodes &nodes, bool at_start, bool at_end);
uint64_t work(const Nodes &nodes, bool at_start, bool at_end);

/* The hash of the top, where both ends are marked. */
std::optional<Hash> final_hash(const Subtree &subtree);

/* The left nodes of all levels by rising level, then the right nodes by falling level. */
Nodes flat_nodes(const Subtree &subtree);

/* The least of the rules 5 to 13 that marks, counts of left and right nodes and flat nodes break, or 0 and the subtree. */
unsigned read_flat(bool at_start, const std::vector<std::pair<uint64_t, uint64_t>> &counts, const Nodes &nodes, bool at_end,
                   Subtree &subtree);

/* The least of the rules 5 and 7 to 13 that a subtree breaks, or 0. */
unsigned broken_rule(const Subtree &subtree);

}  // namespace second

#endif
