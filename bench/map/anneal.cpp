// Seeks an order of tables for a machine by plain annealing: anneal TRIES < NUMBERS. Nothing of the mapper is in it.
//
// Read are numbers: modules, chips, hextants and tables of a node; ports of a module, a chip and a hextant; lines of the root, a module,
// a chip and a hextant; how many seats covers have, how many tables covers are, how many tables and nets there are; and for each net how
// many pins and how many terminals it has, and their tables. Covers sit on the first seats, the tables of latches on those behind.
// An exchange of two seats is borne by chance. What counts is a smooth maximum of all ports and lines against what there is: the
// logarithm of the sum of exponentials. The seat of each table is written where no node has too many, and else nothing.
#include <cmath>
#include <cstdio>
#include <cstdlib>
#include <random>
#include <vector>
using namespace std;

const double STEEP = 20, HOT = 0.3, COLD = 0.01;
int counts[4], have[2][4], span[4], room, split_at, tables, nets;
vector<vector<int>> terminals, of;
vector<int> pins, seat, holder, used[2][4];
vector<double> price[2][4];
double total;
int beyond;

int read_number() {
    int number;
    if (scanf("%d", &number) != 1) exit(1);
    return number;
}

// One more or one less of a port or a line at a node.
void bump(int kind, int level, int node, int by) {
    int &count = used[kind][level][node];
    total -= price[kind][level][count];
    beyond -= max(0, count - have[kind][level]);
    count += by;
    total += price[kind][level][count];
    beyond += max(0, count - have[kind][level]);
}

// Counts the ports and lines of a net, or takes them away. Levels: 0 is the root, 3 a hextant.
void count_net(int net, int by) {
    vector<pair<int, int>> nodes, above;
    auto add = [](vector<pair<int, int>> &list, int node) {
        for (auto &one : list) if (one.first == node) { one.second++; return; }
        list.push_back({node, 1});
    };
    for (int table : terminals[net]) add(nodes, seat[table] / span[3]);
    for (int level = 3; level > 0; level--) {
        bool crosses = pins[net] > 0 || nodes.size() > 1;
        for (auto &one : nodes) {
            if (crosses) bump(0, level, one.first, by);
            if (one.second + crosses >= 2) bump(1, level, one.first, by);
        }
        above.clear();
        for (auto &one : nodes) add(above, one.first / counts[level - 1]);
        swap(nodes, above);
    }
    if (pins[net] + (nodes.empty() ? 0 : nodes[0].second) >= 2) bump(1, 0, 0, by);
}

// The sum anew, since what was added and taken away leaves errors.
void sum_up() {
    total = 0;
    for (int kind = 0; kind < 2; kind++)
        for (int level = 0; level < 4; level++)
            for (int count : used[kind][level]) total += price[kind][level][count];
}

void count_both(int a, int b, int by) {
    for (int net : of[a]) count_net(net, by);
    if (b < 0) return;
    for (int net : of[b]) {
        bool both = false;
        for (int other : of[a]) both |= other == net;
        if (!both) count_net(net, by);
    }
}

void put(int table, int place) {
    if (table >= 0) seat[table] = place;
    holder[place] = table;
}

int main(int, char **words) {
    for (int &count : counts) count = read_number();
    for (int level = 1; level < 4; level++) have[0][level] = read_number();
    for (int level = 0; level < 4; level++) have[1][level] = read_number();
    room = read_number(), split_at = read_number(), tables = read_number(), nets = read_number();
    span[3] = counts[3], span[2] = span[3] * counts[2], span[1] = span[2] * counts[1], span[0] = span[1] * counts[0];
    terminals.resize(nets), pins.resize(nets), of.resize(tables), seat.resize(tables), holder.assign(span[0], -1);
    for (int net = 0; net < nets; net++) {
        pins[net] = read_number();
        terminals[net].resize(read_number());
        for (int &table : terminals[net]) {
            table = read_number();
            if (of[table].empty() || of[table].back() != net) of[table].push_back(net);
        }
    }
    for (int kind = 0; kind < 2; kind++)
        for (int level = 0; level < 4; level++) {
            used[kind][level].assign(span[0] / span[level], 0);
            for (int count = 0; count < nets + 2; count++)
                price[kind][level].push_back(exp(min(300.0, STEEP * (double(count) / max(have[kind][level], 1) - 1))));
        }
    for (int table = 0; table < tables; table++)
        put(table, table < split_at ? int((long)table * room / split_at) : room + table - split_at);
    for (int net = 0; net < nets; net++) count_net(net, 1);
    mt19937 chance(1);
    uniform_real_distribution<double> part(0, 1);
    const long tries = atol(words[1]);
    for (long k = 0; k < tries && beyond > 0; k++) {
        if (k % 1000 == 0) sum_up();
        int table = chance() % tables, place = table < split_at ? chance() % room : room + chance() % (tables - split_at);
        if (chance() % 8 && !of[table].empty()) {  // mostly to the hextant, chip or module of a table on the same net
            auto &near = terminals[of[table][chance() % of[table].size()]];
            int level = 1 + chance() % 3, first = seat[near[chance() % near.size()]] / span[level] * span[level];
            place = first + chance() % span[level];
        }
        if (table < split_at ? place >= room : place < room || place >= room + tables - split_at) continue;
        int from = seat[table], other = holder[place];
        if (from / span[3] == place / span[3]) continue;
        double before = total, heat = HOT * pow(COLD / HOT, double(k) / tries);
        count_both(table, other, -1);
        put(table, place), put(other, from);
        count_both(table, other, 1);
        if (log(total / before) <= -heat * log(part(chance) + 1e-12)) continue;
        count_both(table, other, -1);
        put(table, from), put(other, place);
        count_both(table, other, 1);
    }
    if (beyond == 0) for (int place : seat) printf("%d\n", place);
}
