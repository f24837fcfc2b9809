// Decides causal consistency (cc) and causal convergence (ccv) of a memory history by vectors, in the way of the literature's checkers.
//
//     g++ -std=c++20 -O3 -march=x86-64-v2 -o vector_clocks bench/vector_clocks.cpp
//     ./vector_clocks < HISTORY
//
// It is a plain program to measure `judge --long` beside, and nothing of it is proved. It reads the same JSON and writes the lines of cc
// and ccv with the same kinds; causal memory it does not decide. Each operation has a vector: for every session, how many of its
// operations are before or at this one in CO, the paths of program order and reads-from. So the vectors take 4 n k bytes for n operations
// of k sessions. The vector of an operation is the greater of those of its predecessors, counted by session. Then
//
//   - a read of an initial value is refuted by a write of its variable that its vector counts;
//   - a read of w by a write of its variable that its vector counts, and whose own vector counts w;
//   - and each other write of its variable that its vector counts has to come before w: a conflict, and a cycle refutes ccv.
//
// Of each session the last of these writes is enough. All reads of one write, and all initial reads of one variable, are looked at
// together: the greatest of their vectors counts what any of theirs counts. So the work grows with n k, and each look for the last write of
// a session is a binary search.

#include <algorithm>
#include <array>
#include <cstdint>
#include <cstdlib>
#include <iostream>
#include <iterator>
#include <memory>
#include <span>
#include <stdexcept>
#include <string>
#include <string_view>
#include <tuple>
#include <unordered_map>
#include <vector>

namespace {

// The number of an operation: those of the sessions before its own, and its place in that.
using Op = std::uint32_t;
using Count = std::uint32_t;
constexpr Op NONE = UINT32_MAX;

enum class Call : std::uint8_t { Write, Read, UnknownRead };

struct Operation {
    std::uint64_t value;
    std::uint32_t variable;
    Call call;
};

// A memory history: its operations session by session, and the initial value of each variable. Variables are numbered as they come.
struct History {
    std::vector<Operation> operations;
    std::vector<std::uint32_t> session_of;
    std::vector<Op> first_of;  // of each session
    std::vector<std::uint64_t> initial;

    Op size() const { return static_cast<Op>(operations.size()); }
    std::size_t sessions() const { return first_of.size(); }
    bool is_first(Op op) const { return op == first_of[session_of[op]]; }
    Count index(Op op) const { return op - first_of[session_of[op]]; }
};

class Reader {
public:
    explicit Reader(std::string_view text) : at_(text.data()), end_(text.data() + text.size()) {}

    // The memory that the whole text writes.
    History history() {
        expect('[');
        if (word() != "memory") throw std::runtime_error("no memory");
        expect(',');
        each([this] { session(); });
        if (take(',')) each([this] { initial_value(); });
        expect(']');
        if (peek() != '\0') throw std::runtime_error("more than a history");
        return std::move(history_);
    }

private:
    const char* at_;
    const char* end_;
    History history_;
    std::unordered_map<std::uint64_t, std::uint32_t> variables_;

    char peek() {
        while (at_ != end_ && (*at_ == ' ' || *at_ == '\n' || *at_ == '\t' || *at_ == '\r')) ++at_;
        return at_ == end_ ? '\0' : *at_;
    }

    bool take(char wanted) {
        if (peek() != wanted) return false;
        ++at_;
        return true;
    }

    void expect(char wanted) {
        if (!take(wanted)) throw std::runtime_error(std::string("no '") + wanted + "' where one has to be");
    }

    std::string_view word() {
        expect('"');
        const char* begin = at_;
        at_ = std::find(at_, end_, '"');
        std::string_view found(begin, at_ - begin);
        expect('"');
        return found;
    }

    std::uint64_t number() {
        if (peek() < '0' || peek() > '9') throw std::runtime_error("no number where one has to be");
        std::uint64_t found = 0;
        for (; at_ != end_ && *at_ >= '0' && *at_ <= '9'; ++at_) found = found * 10 + (*at_ - '0');
        return found;
    }

    // Reads a list, each element of which is read by the function.
    template <class Element>
    void each(Element element) {
        expect('[');
        if (take(']')) return;
        do element();
        while (take(','));
        expect(']');
    }

    std::uint32_t variable() {
        const auto [found, is_new] = variables_.try_emplace(number(), variables_.size());
        if (is_new) history_.initial.push_back(0);
        return found->second;
    }

    void session() {
        history_.first_of.push_back(history_.size());
        each([this] { operation(); });
    }

    void operation() {
        expect('[');
        const std::string_view name = word();
        if (name != "w" && name != "r") throw std::runtime_error("no operation of a memory");
        Operation read{0, 0, name == "w" ? Call::Write : Call::Read};
        expect(',');
        read.variable = variable();
        expect(',');
        if (peek() == '"') {
            word();
            read.call = Call::UnknownRead;
        } else {
            read.value = number();
        }
        if (take(',')) word();
        expect(']');
        history_.operations.push_back(read);
        history_.session_of.push_back(static_cast<std::uint32_t>(history_.sessions() - 1));
    }

    void initial_value() {
        expect('[');
        const std::uint32_t which = variable();
        expect(',');
        history_.initial[which] = number();
        expect(']');
    }
};

// The write that each known read reads from.
struct Sources {
    std::vector<Op> of;  // NONE for a read of the initial value, and for all that is no known read
    bool are_distinct = true;
    bool has_thin_air = false;
};

Sources sources_of(const History& history) {
    using Key = std::tuple<std::uint32_t, std::uint64_t>;
    struct Written { Key key; Op op; };
    const auto key_of = [&](Op op) { return Key(history.operations[op].variable, history.operations[op].value); };
    const auto is_initial = [&](Key key) { return history.initial[std::get<0>(key)] == std::get<1>(key); };
    Sources sources{std::vector<Op>(history.size(), NONE)};
    std::vector<Written> written;
    for (Op op = 0; op < history.size(); ++op)
        if (history.operations[op].call == Call::Write) written.push_back({key_of(op), op});
    std::ranges::sort(written, {}, &Written::key);
    sources.are_distinct = std::ranges::adjacent_find(written, {}, &Written::key) == written.end() &&
                           std::ranges::none_of(written, is_initial, &Written::key);
    for (Op op = 0; op < history.size(); ++op) {
        const Key key = key_of(op);
        if (history.operations[op].call != Call::Read || is_initial(key)) continue;
        const auto found = std::ranges::lower_bound(written, key, {}, &Written::key);
        if (found != written.end() && found->key == key)
            sources.of[op] = found->op;
        else
            sources.has_thin_air = true;
    }
    return sources;
}

// The conflicts: of each operation the writes that have to come before it, behind those of the operations before.
struct Conflicts {
    std::vector<std::uint64_t> first_of;
    std::vector<Op> before;
};

// The edges to each operation: from the one before it in its session, from its source, and from its conflicts.
struct Edges {
    const History& history;
    const Sources& sources;
    const Conflicts& conflicts;

    // The predecessor of this number; NONE where there is none, as where it is past the last.
    Op before(Op op, std::uint64_t number) const {
        if (number == 0) return history.is_first(op) ? NONE : op - 1;
        if (number == 1) return sources.of[op];
        return conflicts.before[conflicts.first_of[op] + number - 2];
    }

    std::uint64_t many(Op op) const { return 2 + (conflicts.before.empty() ? 0 : conflicts.first_of[op + 1] - conflicts.first_of[op]); }
};

// The operations, each after all its predecessors; fewer where there is a cycle. It goes depth first from each to what is before it.
std::vector<Op> ordered(const Edges& edges) {
    enum class Mark : std::uint8_t { New, Open, Placed };
    struct Visit { Op op; std::uint64_t next; };
    const Op many = edges.history.size();
    std::vector<Mark> marks(many, Mark::New);
    std::vector<Visit> path;
    std::vector<Op> order;
    order.reserve(many);
    const auto enter = [&](Op op) {
        marks[op] = Mark::Open;
        path.push_back({op, 0});
    };
    for (Op root = 0; root < many; ++root) {
        if (marks[root] == Mark::New) enter(root);
        while (!path.empty()) {
            Visit& last = path.back();
            if (last.next == edges.many(last.op)) {
                marks[last.op] = Mark::Placed;
                order.push_back(last.op);
                path.pop_back();
                continue;
            }
            const Op before = edges.before(last.op, last.next++);
            if (before == NONE || marks[before] == Mark::Placed) continue;
            if (marks[before] == Mark::Open) return order;
            enter(before);
        }
    }
    return order;
}

// A vector of counts for each operation.
class Vectors {
public:
    Vectors(const History& history, const Sources& sources, const std::vector<Op>& order)
        : sessions_(history.sessions()), counts_(std::make_unique_for_overwrite<Count[]>(sessions_ * history.size())) {
        for (const Op op : order) {
            const std::span<Count> mine = row(op);
            if (history.is_first(op))
                std::fill(mine.begin(), mine.end(), 0);
            else
                std::copy_n(row(op - 1).begin(), sessions_, mine.begin());
            if (sources.of[op] != NONE) raise(mine, sources.of[op]);
            mine[history.session_of[op]] = history.index(op) + 1;
        }
    }

    std::span<const Count> of(Op op) const { return {counts_.get() + sessions_ * op, sessions_}; }

    // Raises each count to that of an operation, where this is greater.
    void raise(std::span<Count> counts, Op op) const {
        const Count* const more = counts_.get() + sessions_ * op;
        Count* const mine = counts.data();
        for (std::size_t s = 0; s < sessions_; ++s) mine[s] = std::max(mine[s], more[s]);
    }

private:
    std::size_t sessions_;
    std::unique_ptr<Count[]> counts_;

    std::span<Count> row(Op op) { return {counts_.get() + sessions_ * op, sessions_}; }
};

// The writes of each variable, by session: blocks of writes, of which each block is of one variable and one session.
class Writes {
public:
    struct Block { std::uint32_t session, begin, end; };

    explicit Writes(const History& history) : history_(history), first_of_(history.initial.size() + 1) {
        for (Op op = 0; op < history.size(); ++op)
            if (history.operations[op].call == Call::Write) writes_.push_back(op);
        const auto variable = [&](Op op) { return history.operations[op].variable; };
        std::ranges::stable_sort(writes_, {}, variable);
        for (std::uint32_t at = 0; at < writes_.size(); ++at) {
            const Op op = writes_[at];
            const bool is_new = at == 0 || variable(op) != variable(writes_[at - 1]) || history.session_of[op] != blocks_.back().session;
            if (is_new) {
                blocks_.push_back({history.session_of[op], at, at});
                ++first_of_[variable(op) + 1];
            }
            blocks_.back().end = at + 1;
        }
        for (std::size_t x = 1; x < first_of_.size(); ++x) first_of_[x] += first_of_[x - 1];
    }

    std::span<const Block> blocks_of(std::uint32_t variable) const {
        return std::span(blocks_).subspan(first_of_[variable], first_of_[variable + 1] - first_of_[variable]);
    }

    // The last write of a block that these counts count, or NONE.
    Op last(const Block& block, std::span<const Count> counts) const {
        const Op end = history_.first_of[block.session] + counts[block.session];
        const auto first = writes_.begin() + block.begin;
        const auto found = std::lower_bound(first, writes_.begin() + block.end, end);
        return found == first ? NONE : *(found - 1);
    }

private:
    const History& history_;
    std::vector<Op> writes_;
    std::vector<Block> blocks_;
    std::vector<std::uint32_t> first_of_;  // of each variable, the number of its first block
};

// What the vectors show against the reads, and the conflicts between writes.
struct Found {
    bool has_overwritten_start = false;
    bool has_overwritten_read = false;
    Conflicts conflicts;
};

// Looks at reads that have one source, or one variable and its initial value, together.
void look(const History& history, const Vectors& vectors, const Writes& writes, Op source, std::span<const Op> reads,
          std::vector<Count>& counts, Found& found) {
    std::fill(counts.begin(), counts.end(), 0);
    for (const Op read : reads) vectors.raise(counts, read);
    for (const Writes::Block& block : writes.blocks_of(history.operations[reads.front()].variable)) {
        const Op write = writes.last(block, counts);
        if (write == NONE || write == source) continue;
        if (source == NONE)
            found.has_overwritten_start = true;
        else if (vectors.of(write)[history.session_of[source]] > history.index(source))
            found.has_overwritten_read = true;
        else if (vectors.of(source)[block.session] <= history.index(write))
            found.conflicts.before.push_back(write);
    }
}

Found found_in(const History& history, const Sources& sources, const Vectors& vectors) {
    std::vector<Op> reads;
    for (Op op = 0; op < history.size(); ++op)
        if (history.operations[op].call == Call::Read) reads.push_back(op);
    const auto group = [&](Op op) { return std::tuple(sources.of[op], sources.of[op] == NONE ? history.operations[op].variable : 0); };
    std::ranges::sort(reads, {}, group);
    const Writes writes(history);
    Found found;
    std::vector<Count> counts(history.sessions());
    auto& ends = found.conflicts.first_of;
    ends.reserve(history.size() + 1);
    for (auto begin = reads.begin(); begin != reads.end();) {
        const auto end = std::find_if(begin, reads.end(), [&](Op op) { return group(op) != group(*begin); });
        const Op source = sources.of[*begin];
        // What is before this source in number has no conflicts that were not pushed yet.
        if (source != NONE) ends.resize(source + 1, found.conflicts.before.size());
        look(history, vectors, writes, source, {begin, end}, counts, found);
        begin = end;
    }
    ends.resize(history.size() + 1, found.conflicts.before.size());
    return found;
}

// What the lines of cc and ccv say.
std::array<std::string_view, 2> judged(const History& history) {
    const auto both = [](std::string_view line) { return std::array{line, line}; };
    const Sources sources = sources_of(history);
    if (!sources.are_distinct) return both("unknown");
    const std::vector<Op> order = ordered({history, sources, {}});
    if (order.size() < history.size()) return both("no CyclicCO");
    if (sources.has_thin_air) return both("no ThinAirRead");
    const Found found = found_in(history, sources, Vectors(history, sources, order));
    if (found.has_overwritten_start) return both("no WriteCOInitRead");
    if (found.has_overwritten_read) return both("no WriteCORead");
    if (ordered({history, sources, found.conflicts}).size() < history.size()) return {"yes", "no CyclicCF"};
    return both("yes");
}

}  // namespace

int main() {
    std::ios::sync_with_stdio(false);
    try {
        const std::string text{std::istreambuf_iterator<char>(std::cin), {}};
        const auto [cc, ccv] = judged(Reader(text).history());
        std::cout << "cc " << cc << "\nccv " << ccv << '\n';
        return EXIT_SUCCESS;
    } catch (const std::exception& error) {
        std::cerr << "vector_clocks: " << error.what() << '\n';
        return EXIT_FAILURE;
    }
}
