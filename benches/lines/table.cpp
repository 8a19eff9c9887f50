// Counts by a table what a label setter over credit in whole hours and eight bids keeps, for the pairings that `items`
// prints: arcs, steps, labels, and the greatest weight of a line of 70 to 90 hours. No label is compared with another
// here: the table has a place for each set of bids, sum of hours rounded down, and hours that rounding up adds.
// Its first word is the set of bids to look at, 0 to 255; its second a floor, where the member's bids have one.
#include <algorithm>
#include <cstdio>
#include <cstdlib>
#include <iostream>
#include <vector>
using namespace std;

const int HIGH = 90, LOW = 70, HOURS = HIGH + 1, GAPS = 26, SETS = 256, NONE = -1000000000;
const int WEIGHTS[] = {120, 100, 80, 60, 50, 40, 30, 20};  // of the bids in `month`
struct Item { int report, release, credit, weight, clears, sets; };
using Table = vector<int>;

int at(int set, int down, int gap) { return (set * HOURS + down) * GAPS + gap; }

void take_best(Table& best, const Table& other) {
    for (size_t k = 0; k < best.size(); k++) best[k] = max(best[k], other[k]);
}

// How many entries no other one dispenses with.
long labels(const Table& table) {
    Table most = table;  // the greatest weight at an entry or at one that is at least as good otherwise
    for (int set = 0; set < SETS; set++) {
        for (int bit = 1; bit < SETS; bit *= 2)
            if (set & bit)
                for (int k = 0; k < HOURS * GAPS; k++)
                    most[at(set, 0, 0) + k] = max(most[at(set, 0, 0) + k], most[at(set ^ bit, 0, 0) + k]);
        for (int down = 0; down < HOURS; down++)
            for (int gap = GAPS - 2; gap >= 0; gap--) {
                int& here = most[at(set, down, gap)];
                here = max(here, most[at(set, down, gap + 1)]);
                if (down) here = max(here, most[at(set, down - 1, gap + 1)]);
            }
    }
    long count = 0;
    for (int set = 0; set < SETS; set++)
        for (int down = 0; down < HOURS; down++)
            for (int gap = 0; gap < GAPS; gap++) {
                int here = table[at(set, down, gap)], better = NONE;
                if (here == NONE) continue;
                if (gap == GAPS - 1) { fprintf(stderr, "too few gaps\n"); exit(1); }
                for (int bit = 1; bit < SETS; bit *= 2)
                    if (set & bit) better = max(better, most[at(set ^ bit, down, gap)]);
                better = max(better, most[at(set, down, gap + 1)]);
                if (down) better = max(better, most[at(set, down - 1, gap + 1)]);
                count += better < here;
            }
    return count;
}

// What the bids weigh that are not in the set: those that a line with the set has not granted.
int granted(int set) {
    int sum = 0;
    for (int bid = 0; bid < 8; bid++)
        if (!(set >> bid & 1)) sum += WEIGHTS[bid];
    return sum;
}

Table extended(const Table& before, const Item& item) {
    Table after(before.size(), NONE);
    int hours = item.credit / 60, gap = (item.credit + 59) / 60 - hours;
    for (int set = 0; set < SETS; set++)
        for (int down = 0; down + hours < HOURS; down++)
            for (int old = 0; old + gap < GAPS; old++) {
                int weight = before[at(set, down, old)];
                int& here = after[at((set & ~item.clears) | item.sets, down + hours, old + gap)];
                if (weight != NONE) here = max(here, weight + item.weight);
            }
    return after;
}

int main(int words, char** word) {
    int bids = words > 1 ? atoi(word[1]) : 255, floor = words > 2 ? atoi(word[2]) : 0, count;
    cin >> count;
    vector<Item> items(count);
    for (Item& it : items) {
        cin >> it.report >> it.release >> it.credit >> it.weight >> it.clears >> it.sets;
        it.clears &= bids, it.sets &= bids;
    }
    Table open(SETS * HOURS * GAPS, NONE);
    open[at((1 | 16) & bids, 0, 0)] = 0;
    vector<Table> closed(count);  // the tables of items after which the next one cannot yet begin
    vector<long> kept(count);
    long arcs = 0, steps = 0, all = 1, most = 1, open_places = 1, open_labels = 1;
    for (int to = 0; to < count; to++) {
        for (int from = 0; from < to; from++)
            if (!closed[from].empty() && items[from].release + 600 <= items[to].report) {
                take_best(open, closed[from]);
                closed[from] = Table();
                open_places++, open_labels += kept[from];
            }
        arcs += open_places, steps += open_labels;
        closed[to] = extended(open, items[to]);
        kept[to] = labels(closed[to]);
        all += kept[to], most = max(most, kept[to]);
    }
    for (const Table& table : closed)
        if (!table.empty()) take_best(open, table);
    arcs += count + 1, steps += all;
    long last = labels(open);
    all += last, most = max(most, last);
    int best = NONE;
    for (int set = 0; set < SETS; set++)
        for (int down = 0; down < HOURS && granted(set) >= floor; down++)
            for (int gap = max(0, LOW - down); gap < GAPS; gap++) best = max(best, open[at(set, down, gap)]);
    printf("%ld arcs, %ld steps, %ld labels, at most %ld at a place\nweight %d\n", arcs, steps, all, most, best);
}
