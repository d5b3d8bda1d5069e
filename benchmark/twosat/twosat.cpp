// The two-set expansion over two incremental SAT solvers (CaDiCaL), as a stand-in for solvers of that kind: a narrowed QDIMACS on standard
// input, which is taken to be well formed; at most 256 rows a side. Any model will do, so rounds and rows differ from the program's.
// With the argument `first` it starts from the house preferences and takes the first model each time, one call of the solver for each copy
// that has not the preferred value: then both printed lines are the program's.
#include <algorithm>
#include <bitset>
#include <cadical.hpp>
#include <cstdio>
#include <cstdlib>
#include <string>
#include <unordered_map>
#include <unordered_set>
#include <vector>

using Row = std::bitset<128>;  // by prefix position, the other side's bits zero
using Clause = std::vector<int>;
constexpr size_t ROWS = 256;

struct Hash {
    size_t operator()(const Clause &clause) const {
        size_t sum = 0;
        for (int literal : clause) sum = sum * 1000003 + literal;
        return sum;
    }
};

struct Block {
    bool universal;
    int first, size;
};

struct Formula {
    int variables = 0, stated = 0;
    std::vector<Block> blocks;
    std::vector<int> block;  // of each position
    std::vector<Clause> clauses;  // literals by position + 1
};

static Formula read() {
    Formula f;
    std::string text;
    char buffer[65536];
    for (size_t got; (got = fread(buffer, 1, sizeof buffer, stdin)) > 0;) text.append(buffer, got);
    std::vector<int> position;
    for (const char *at = text.c_str(); *at; at++) {
        char *end;
        if (*at == 'c') {
            while (*at != '\n') at++;
            continue;
        }
        if (*at == 'p') {
            while (*at != 'f') at++;
            f.variables = strtol(at + 1, &end, 10);
            f.stated = strtol(end, &end, 10);
            at = end;
            position.resize(f.variables + 1);
            continue;
        }
        bool universal = *at == 'a', prefix = universal || *at == 'e';
        Clause line;
        at += prefix;
        while (long literal = strtol(at, &end, 10)) line.push_back(literal), at = end;
        at = end;
        if (!prefix) {
            for (int &literal : line) literal = literal > 0 ? position[literal] : -position[-literal];
            f.clauses.push_back(line);
            continue;
        }
        if (f.blocks.empty() || f.blocks.back().universal != universal) f.blocks.push_back({universal, int(f.block.size()), 0});
        for (int name : line) {
            f.block.push_back(f.blocks.size() - 1);
            f.blocks.back().size++;
            position[name] = f.block.size();
        }
    }
    return f;
}

// The house preferences.
static bool preference(size_t i) { return __builtin_parity(i % 256); }

// One side: its solver over the copies of its own unknowns, and the other side's rows that it has been given.
class Side {
public:
    Side(const Formula &f, bool universal) : f(f), universal(universal), copies(f.blocks.size()) {
        solver.set("quiet", 1);
        Row before;
        int position = 0;
        for (const Block &block : f.blocks) {
            others.push_back(before);
            for (int i = 0; i < block.size; i++) before[position++] = block.universal != universal;
        }
    }

    void give(const Row &row) {
        std::vector<int> copy(f.blocks.size());  // the first copy of each own block
        for (size_t b = 0; b < f.blocks.size(); b++) {
            if (f.blocks[b].universal != universal) continue;
            auto [at, fresh] = copies[b].try_emplace(row & others[b], last + 1);
            if (fresh) last += f.blocks[b].size;
            copy[b] = at->second;
        }
        given.push_back(copy);
        Clause some;  // universal side: one of these clauses is false
        for (const Clause &clause : f.clauses) {
            Clause own;
            bool holds = false;
            for (int literal : clause) {
                int position = abs(literal) - 1, b = f.block[position];
                if (f.blocks[b].universal != universal) {
                    holds |= row[position] == (literal > 0);
                } else {
                    int name = copy[b] + position - f.blocks[b].first;
                    own.push_back(literal > 0 ? name : -name);
                }
            }
            if (holds) continue;
            std::sort(own.begin(), own.end());
            auto [at, fresh] = known.try_emplace(own, last + universal);
            if (!universal) {
                if (fresh) add(own);
                continue;
            }
            if (fresh) {
                last++;
                for (int literal : own) add({-last, -literal});
            }
            some.push_back(at->second);
        }
        if (universal) add(some);
    }

    // Whether there is a model, and the rows that it yields, one for each row given.
    bool solve(std::vector<Row> &yielded, bool first) {
        if (solver.solve() != 10) return false;
        value.assign(last + 1, false);
        take();
        if (first) prefer();
        yielded.clear();
        for (const auto &copy : given) {
            Row row;
            for (size_t b = 0; b < f.blocks.size(); b++)
                for (int i = 0; copy[b] && i < f.blocks[b].size; i++) row[f.blocks[b].first + i] = value[copy[b] + i];
            yielded.push_back(row);
        }
        return true;
    }

private:
    void take() {
        for (int name = 1; name <= last; name++) value[name] = solver.val(name) > 0;
    }

    // Copies by position, then by the first row that has them: each keeps the preferred value if some model with the values before it has it.
    void prefer() {
        std::vector<int> fixed;
        std::unordered_set<int> seen;
        for (size_t position = 0; position < f.block.size(); position++) {
            int b = f.block[position];
            if (f.blocks[b].universal != universal) continue;
            for (const auto &copy : given) {
                int name = copy[b] + int(position) - f.blocks[b].first;
                if (!seen.insert(name).second) continue;
                int wanted = preference(fixed.size()) ? name : -name;
                if (value[name] != (wanted > 0)) {
                    for (int literal : fixed) solver.assume(literal);
                    solver.assume(wanted);
                    if (solver.solve() == 10)
                        take();
                    else
                        wanted = -wanted;
                }
                fixed.push_back(wanted);
            }
        }
    }

    void add(const Clause &clause) {
        for (int literal : clause) solver.add(literal);
        solver.add(0);
    }

    const Formula &f;
    const bool universal;
    CaDiCaL::Solver solver;
    int last = 0;
    std::vector<Row> others;  // the other side's positions before each block
    std::vector<std::unordered_map<Row, int>> copies;  // by block: restriction to its first copy
    std::unordered_map<Clause, int, Hash> known;  // a clause over copies; universal side: the unknown that says it is false
    std::vector<std::vector<int>> given;
    std::vector<bool> value;  // of the last model
};

// Gives a side the rows that are new to the table; if they don't fit, none of them.
static bool gain(std::unordered_set<Row> &table, const std::vector<Row> &yielded, Side &side) {
    std::vector<Row> fresh;
    for (const Row &row : yielded)
        if (!table.count(row) && std::find(fresh.begin(), fresh.end(), row) == fresh.end()) fresh.push_back(row);
    if (table.size() + fresh.size() > ROWS) return false;
    for (const Row &row : fresh) side.give(row);
    table.insert(fresh.begin(), fresh.end());
    return true;
}

int main(int count, char **arguments) {
    bool first = count > 1 && std::string(arguments[1]) == "first";
    Formula f = read();
    Side existential(f, false), universal(f, true);
    std::unordered_set<Row> a, s;
    std::vector<Row> yielded(1);
    for (size_t position = 0, k = 0; first && position < f.block.size(); position++)
        if (f.blocks[f.block[position]].universal) yielded[0][position] = preference(k++);
    gain(a, yielded, existential);
    int answer = -1, round = 1;
    for (;; round++) {
        if (!existential.solve(yielded, first)) {
            answer = 0;
            break;
        }
        if (!gain(s, yielded, universal)) break;
        if (!universal.solve(yielded, first)) {
            answer = 1;
            break;
        }
        if (!gain(a, yielded, existential)) break;
    }
    printf("s cnf %d %d %d\n", answer, f.variables, f.stated);
    printf("c rounds %d universal %zu existential %zu\n", round, a.size(), s.size());
    fflush(stdout);
    _Exit(0);
}
