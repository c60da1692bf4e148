// Judges networks by binary decision diagrams on BuDDy, and times itself.
//
//     check RUNS FILE
//
// The file holds the records of one or more sound networks; each begins with its widths record. For
// each, one line: `holds` or `violated` policy state, then the median time of the runs in microseconds.

#include <bdd.h>

#include <algorithm>
#include <array>
#include <chrono>
#include <cstdio>
#include <cstdlib>
#include <fstream>
#include <map>
#include <optional>
#include <utility>
#include <vector>

namespace {

using Record = std::array<unsigned char, 24>;
using Network = std::vector<Record>;

// Variables of nodes, and the state between two steps.
enum { X = 0, Y = 1, MIDDLE = 2 };

constexpr int MOST_BITS = 10;

// High bits stand above low ones; the bits of X, the middle state and Y are interleaved.
int level(int variable, int bit, int bits) {
    static const int place[] = {0, 2, 1};
    return 3 * (bits - 1 - bit) + place[variable];
}

// Sets and renamings that every network shares.
struct Names {
    bdd all[3];
    bddPair *y_to_middle = bdd_newpair();
    bddPair *x_to_middle = bdd_newpair();
    bddPair *swap = bdd_newpair();

    Names() {
        for (int variable : {X, Y, MIDDLE}) {
            std::vector<int> levels;
            for (int bit = 0; bit < MOST_BITS; bit++)
                levels.push_back(level(variable, bit, MOST_BITS));
            all[variable] = bdd_makeset(levels.data(), MOST_BITS);
        }
        for (int bit = 0; bit < MOST_BITS; bit++) {
            int x = level(X, bit, MOST_BITS);
            int y = level(Y, bit, MOST_BITS);
            int middle = level(MIDDLE, bit, MOST_BITS);
            bdd_setpair(y_to_middle, y, middle);
            bdd_setpair(x_to_middle, x, middle);
            bdd_setpair(swap, x, y);
            bdd_setpair(swap, y, x);
        }
    }
};

struct Broken {
    int policy;
    int state;
};

class Judge {
  public:
    Judge(const Network &network, const Names &names)
        : records(network), names(names), header(network[0][1]), port(network[0][2]),
          switches(network[0][3]), bits(1 + header + port + switches) {}

    // The lowest broken policy and the lowest state that breaks it.
    std::optional<Broken> verdict() {
        back = same(header, port, 0, 0);
        steps = arriving_steps() | link_steps();
        external_x = ordinary(X) - linked(X);
        std::vector<bdd> nodes;
        for (size_t place = 0; place < records.size(); place++) {
            const Record &record = records[place];
            if (record[0] != 5)
                continue;
            nodes.push_back(node(record, nodes));
            bool more = place + 1 < records.size() && records[place + 1][0] == 5;
            if (more && records[place + 1][1] == record[1])
                continue;
            if (nodes.back() != bddfalse)
                return Broken{record[1], lowest(nodes.back())};
            nodes.clear();
        }
        return std::nullopt;
    }

  private:
    const Network &records;
    const Names &names;
    const int header, port, switches, bits;
    // Y is at the port at which X arrived.
    bdd back;
    bdd steps, external_x;
    // What a group sends, by switch, number, and the value and care of the header that entered it.
    mutable std::map<std::array<int, 4>, bdd> groups;

    int at(int variable, int bit) const { return level(variable, bit, bits); }

    // The bits from the first on that are cared for have the value.
    bdd fixed(int variable, int first, int width, int value, int care) const {
        bdd cube = bddtrue;
        for (int i = 0; i < width; i++) {
            int bit = at(variable, first + i);
            if (care >> i & 1)
                cube &= value >> i & 1 ? bdd_ithvar(bit) : bdd_nithvar(bit);
        }
        return cube;
    }

    bdd equals(int variable, int first, int width, int value) const {
        return fixed(variable, first, width, value, (1 << width) - 1);
    }

    bdd is_port(int variable, int value) const { return equals(variable, header, port, value); }

    bdd is_switch(int variable, int value) const {
        return equals(variable, header + port, switches, value);
    }

    bdd departing(int variable) const { return bdd_ithvar(at(variable, bits - 1)); }

    bdd arriving(int variable) const { return bdd_nithvar(at(variable, bits - 1)); }

    bdd ordinary(int variable) const {
        return bdd_not(is_port(variable, 0) | is_port(variable, (1 << port) - 1));
    }

    // X and Y have the same bits from the first on, except that Y has the value where cared for.
    bdd same(int first, int width, int value, int care) const {
        bdd so = fixed(Y, first, width, value, care);
        for (int i = 0; i < width; i++)
            if (!(care >> i & 1))
                so &= bdd_biimp(bdd_ithvar(at(X, first + i)), bdd_ithvar(at(Y, first + i)));
        return so;
    }

    // Y is at a port that the pattern of an OUTPUT reaches, that of arrival or another.
    bdd reached(int value, int care) const {
        bdd ports = fixed(Y, header, port, value, care);
        return care == (1 << port) - 1 ? ports : ports & ordinary(Y);
    }

    const Record &group_record(int of_switch, int number) const {
        return *std::find_if(records.begin(), records.end(), [&](const Record &record) {
            return record[0] == 9 && record[1] == of_switch && record[2] == number;
        });
    }

    // The states Y that a group makes of X, if actions and buckets before it have set the header by
    // a pattern. A frame takes the ways through groups that end in one pattern once.
    bdd grouped(int of_switch, int number, int value, int care) const {
        const std::array<int, 4> key = {of_switch, number, value, care};
        auto known = groups.find(key);
        if (known != groups.end())
            return known->second;
        bdd sent = bddfalse;
        const Record &group = group_record(of_switch, number);
        for (int place = 9; place < 9 + 4 * group[8]; place += 4) {
            int its_value = (value & ~group[place + 1]) | group[place];
            int its_care = care | group[place + 1], target = group[place + 3];
            if (group[place + 2] == 1)
                sent |= same(0, header, its_value, its_care) & (is_port(Y, target) - back);
            else
                sent |= grouped(of_switch, target, its_value, its_care);
        }
        return groups[key] = sent;
    }

    // The departing states Y that the actions of a rule or miss make of an arriving state X.
    bdd copies(const Record &record) const {
        int value = 0, care = 0;
        bdd sent = bddfalse;
        for (int place = 9; place < 9 + 3 * record[8]; place += 3) {
            int its_value = record[place + 1], its_care = record[place + 2];
            switch (record[place]) {
            case 1:
                sent |= same(0, header, value, care) & (reached(its_value, its_care) - back);
                break;
            case 2:
                value = (value & ~its_care) | its_value;
                care |= its_care;
                break;
            case 3:
                sent |= same(0, header, value, care) & back;
                break;
            default:
                sent |= grouped(record[1], its_value, value, care);
            }
        }
        return sent & is_switch(Y, record[1]) & departing(Y);
    }

    // The steps by rules and misses.
    bdd arriving_steps() const {
        std::vector<std::vector<const Record *>> tables(1 << switches);
        for (const Record &record : records)
            if (record[0] == 4)
                tables[record[1]].push_back(&record);
        auto priority = [](const Record *rule) { return (*rule)[2] + 256 * (*rule)[3]; };
        bdd all = bddfalse;
        for (const Record &miss : records) {
            if (miss[0] != 3)
                continue;
            auto &table = tables[miss[1]];
            std::sort(table.begin(), table.end(), [&](const Record *one, const Record *other) {
                return priority(one) > priority(other);
            });
            // What no rule of higher priority matches, and what no rule before matches.
            bdd open = bdd_not(is_port(X, 0)), left = open;
            bdd its = bddfalse;
            int last = -1;
            for (const Record *rule : table) {
                const Record &r = *rule;
                if (priority(rule) != last)
                    open = left;
                last = priority(rule);
                bdd matched = fixed(X, 0, header, r[6], r[7]) & fixed(X, header, port, r[4], r[5]);
                its |= (matched & open) & copies(r);
                left -= matched;
            }
            its |= left & copies(miss);
            all |= its & is_switch(X, miss[1]);
        }
        return all & arriving(X);
    }

    bdd point(int variable, int of_switch, int of_port) const {
        return is_port(variable, of_port) & is_switch(variable, of_switch);
    }

    // The steps over links.
    bdd link_steps() const {
        bdd over = bddfalse;
        for (const Record &link : records) {
            if (link[0] != 2)
                continue;
            over |= point(X, link[1], link[2]) & point(Y, link[3], link[4]);
            over |= point(X, link[3], link[4]) & point(Y, link[1], link[2]);
        }
        return same(0, header, 0, 0) & over & departing(X) & arriving(Y);
    }

    bdd linked(int variable) const {
        bdd ends = bddfalse;
        for (const Record &link : records)
            if (link[0] == 2)
                ends |= point(variable, link[1], link[2]) | point(variable, link[3], link[4]);
        return ends;
    }

    // A relation of X to Y, taken of two variables.
    bdd taken(const bdd &relation, int from, int to) const {
        if (from != to)
            return from == X ? relation : bdd_replace(relation, names.swap);
        return bdd_exist(relation & same(0, bits, 0, 0), names.all[from == X ? Y : X]);
    }

    // The closure of a relation of X to Y, one step more in each round.
    bdd closed(const bdd &relation) const {
        bdd second = bdd_replace(relation, names.x_to_middle);
        bdd all = relation, fresh = relation;
        while (fresh != bddfalse) {
            bdd first = bdd_replace(fresh, names.y_to_middle);
            fresh = bdd_appex(first, second, bddop_and, names.all[MIDDLE]) - all;
            all |= fresh;
        }
        return all;
    }

    bdd node(const Record &record, const std::vector<bdd> &earlier) const {
        int one = record[3], other = record[4];
        switch (record[2]) {
        case 0:
            return bdd_ithvar(at(one, other));
        case 1:
            return taken(steps, one, other);
        case 2:
            return one == X ? external_x : bdd_replace(external_x, names.swap);
        case 3:
            return bdd_not(earlier[one]);
        case 4:
            return earlier[one] & earlier[other];
        case 5:
            return earlier[one] | earlier[other];
        case 6:
            return bdd_exist(earlier[one], names.all[other]);
        case 7:
            return bdd_forall(earlier[one], names.all[other]);
        default:
            return taken(closed(earlier[one]), other / 2, other % 2);
        }
    }

    // The lowest state X of a set that is not empty.
    int lowest(bdd set) const {
        int state = 0;
        while (set != bddtrue) {
            bool high = bdd_low(set) == bddfalse;
            if (high)
                state |= 1 << (bits - 1 - bdd_var(set) / 3);
            set = high ? bdd_high(set) : bdd_low(set);
        }
        return state;
    }
};

std::vector<Network> read(const char *path) {
    std::ifstream file(path, std::ios::binary);
    std::vector<Network> networks;
    Record record;
    while (file.read(reinterpret_cast<char *>(record.data()), record.size())) {
        if (record[0] == 1)
            networks.emplace_back();
        networks.back().push_back(record);
    }
    return networks;
}

// Each run begins without the nodes and the cached results of the one before.
void run(const Network &network, const Names &names, int runs) {
    std::optional<Broken> broken;
    std::vector<double> times;
    for (int i = 0; i < runs; i++) {
        bdd_gbc();
        auto start = std::chrono::steady_clock::now();
        broken = Judge(network, names).verdict();
        std::chrono::duration<double, std::micro> taken = std::chrono::steady_clock::now() - start;
        times.push_back(taken.count());
    }
    std::sort(times.begin(), times.end());
    double median = times[times.size() / 2];
    if (broken)
        std::printf("violated %d %d %.3f\n", broken->policy, broken->state, median);
    else
        std::printf("holds %.3f\n", median);
}

} // namespace

int main(int count, char **arguments) {
    int runs = count == 3 ? std::atoi(arguments[1]) : 0;
    if (runs < 1) {
        std::fprintf(stderr, "check RUNS FILE\n");
        return 2;
    }
    bdd_init(1 << 14, 1 << 12);
    bdd_setcacheratio(4);
    bdd_setvarnum(3 * MOST_BITS);
    bdd_gbc_hook(nullptr);
    const Names names;
    for (const Network &network : read(arguments[2]))
        run(network, names, runs);
    return 0;
}
