/* A second reading of the definitions of range proofs, of their forms and rules, and of what they show. */
#ifndef SECOND_PROOF_H
#define SECOND_PROOF_H

#include "merkle.h"

namespace second {

/* The nodes of a range, and the nodes on its sides on each level, from the chunks up. */
struct Proof {
    Nodes chunks;
    std::vector<Level> levels;
};

bool operator==(const Proof &first, const Proof &second);

/* The proof of the chunks from `first` up to, and without, `end`, which are some of the list, whose sizes fit 64 bits. */
Proof prove(const Nodes &nodes, size_t first, size_t end);

/* The numbers of the first chunk and after the last one that have bytes from a place up to, and without, another one. */
std::optional<std::pair<size_t, size_t>> chunks_at(const Nodes &nodes, uint64_t from, uint64_t to);

/* The lowest of the rules 5 to 8 that a proof breaks, or 0. */
unsigned broken_rule(const Proof &proof);

/* The left nodes of all levels by rising level, then the range, then the right nodes by falling level. */
Nodes flat_nodes(const Proof &proof);

/* The lowest of the rules 5 to 8 that counts of left and right nodes and flat nodes break, or 0 and the proof. */
unsigned read_flat(const std::vector<std::pair<uint64_t, uint64_t>> &counts, const Nodes &nodes, Proof &proof);

/* What a text says: no JSON text, or a value, which breaks a rule at least, or says a proof where the rule is 0. */
struct ProofReading {
    bool is_json = false;
    unsigned rule = 0;
    Proof proof;
};

ProofReading read_proof(std::string_view text);

/* The compact text of a proof. */
std::string json_text(const Proof &proof);

/* The hash of the node at the top, if there is exactly one. */
std::optional<Hash> top(const Proof &proof);
bool shows_root(const Proof &proof, const Hash &root);
bool shows(const Proof &proof, const Hash &file_hash, const Hash &salt);

/* Where in the file a chunk of the range begins, and how long the file is, by a proof that breaks no rule. */
uint64_t begins(const Proof &proof, size_t chunk);
uint64_t file_size(const Proof &proof);

/* Where data of a chunk begins, or nothing where it isn't accepted; where in data of the whole range some bytes begin. */
std::optional<uint64_t> check(const Proof &proof, size_t chunk, std::string_view data);
std::optional<size_t> read(const Proof &proof, uint64_t from, uint64_t to, std::string_view data);

}  // namespace second

#endif
