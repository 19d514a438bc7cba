// Unit propagation with two watched literals, as a plain program writes it: what bench/propagation.sh
// sets beside the proved one. The same clauses, the same assumptions, the same chains of watches: a clause
// has a link for each of its two watches, and a literal the first watch of its chain. No blocking
// literals, no special case for two literals.
#include <cstdint>
#include <cstdio>
#include <cstdlib>
#include <cstring>
#include <vector>

struct Trail {
    struct Place { uint32_t lit; uint32_t level; int64_t reason; };
    struct Link { uint32_t at; uint32_t slot; };
    struct Head { uint64_t start; uint32_t length; bool live; uint64_t id; Link links[2]; };
    static constexpr Link none = {UINT32_MAX, 0};
    std::vector<Head> heads;
    std::vector<uint32_t> lits;
    std::vector<Link> chains;
    std::vector<uint32_t> marks;
    std::vector<Place> places;
    std::vector<size_t> starts;
    size_t head = 0;

    explicit Trail(uint32_t variables) : chains(2 * variables, none), marks(2 * variables, 0) {}
    bool is_true(uint32_t lit) const { return marks[lit] != 0; }
    bool is_false(uint32_t lit) const { return marks[lit ^ 1] != 0; }
    void mark(uint32_t lit, int64_t reason) {
        places.push_back({lit, (uint32_t)starts.size(), reason});
        marks[lit] = (uint32_t)places.size();
    }
    void put_front(uint32_t lit, Link entry) {
        heads[entry.at].links[entry.slot] = chains[lit];
        chains[lit] = entry;
    }
    // Watches the first literal and the next that differs.
    void add(const uint32_t* clause, uint32_t length, uint64_t id) {
        uint32_t at = (uint32_t)heads.size();
        uint64_t start = lits.size();
        lits.insert(lits.end(), clause, clause + length);
        heads.push_back({start, length, true, id, {none, none}});
        uint32_t* own = &lits[start];
        uint32_t other = 1;
        while (other < length && own[other] == own[0]) other++;
        if (other >= length) return;
        std::swap(own[1], own[other]);
        put_front(own[0], {at, 0});
        put_front(own[1], {at, 1});
    }
    void assume(uint32_t lit) { starts.push_back(places.size()); mark(lit, -1); }
    int64_t propagate() {
        while (head < places.size()) {
            uint32_t falsified = places[head++].lit ^ 1;
            Link before = none, entry = chains[falsified];
            while (entry.at != UINT32_MAX) {
                Head& clause = heads[entry.at];
                Link next = clause.links[entry.slot];
                uint32_t* own = &lits[clause.start];
                uint32_t other = own[1 - entry.slot];
                if (!clause.live || is_true(other)) { before = entry; entry = next; continue; }
                bool moved = false;
                for (uint32_t k = 2; k < clause.length; k++)
                    if (!is_false(own[k]) && own[k] != other) {
                        if (before.at == UINT32_MAX) chains[falsified] = next;
                        else heads[before.at].links[before.slot] = next;
                        std::swap(own[entry.slot], own[k]);
                        put_front(own[entry.slot], entry);
                        moved = true;
                        break;
                    }
                if (!moved) {
                    if (is_false(other)) return entry.at;
                    mark(other, entry.at);
                    before = entry;
                }
                entry = next;
            }
        }
        return -1;
    }
    void undo() {
        for (const Place& place : places) marks[place.lit] = 0;
        places.clear(); starts.clear(); head = 0;
    }
};

static uint32_t next_random(uint32_t number) {
    return (uint32_t)(((uint64_t)number * 1103515245 + 12345) % 2147483648u);
}

int main(int argc, char** argv) {
    if (argc != 4) return 2;
    uint32_t rounds = (uint32_t)atol(argv[2]), variables = (uint32_t)atol(argv[3]);
    Trail trail(variables);
    uint64_t total = 0;
    if (!strcmp(argv[1], "chain")) {
        for (uint32_t v = 1; v < variables; v++) {
            uint32_t clause[2] = {2 * (v - 1) + 1, 2 * v};
            trail.add(clause, 2, v);
        }
        for (uint32_t r = 0; r < rounds; r++) {
            trail.assume(0);
            trail.propagate();
            total += trail.places.size();
            trail.undo();
        }
    } else {
        uint32_t random = 1;
        for (uint32_t id = 0; id < 3 * variables; id++) {
            uint32_t clause[3];
            for (uint32_t& lit : clause) {
                random = next_random(random);
                lit = 2 * (random / 8 % variables) + (random / 65536 % 2);
            }
            trail.add(clause, 3, id);
        }
        for (uint32_t r = 0; r < rounds; r++) {
            for (uint32_t i = 0; i < variables; i++) {
                random = next_random(random);
                uint32_t lit = 2 * (random / 8 % variables) + (random / 65536 % 2);
                if (!trail.is_true(lit) && !trail.is_false(lit)) trail.assume(lit);
                if (trail.propagate() >= 0) break;
            }
            total += trail.places.size();
            trail.undo();
        }
    }
    printf("implied %llu\n", (unsigned long long)total);
}
