// The same methods in plain C++, with nothing proved: what the proved program is timed beside, and a second opinion on its answers. It shares no code
// with it, makes the same houses from the same seed, and prints the same lines.
//
//   plain time COUNT PASSES [N]    COUNT houses of each kind and size, shared and checked; the times of the fastest pass go to standard error
//   plain load COUNT               COUNT sound and damaged groups and sheets
#include <algorithm>
#include <chrono>
#include <cstdint>
#include <cstdio>
#include <cstdlib>
#include <cstring>
#include <string>
#include <vector>

using u8 = std::uint8_t;
using u32 = std::uint32_t;
using u64 = std::uint64_t;
using i64 = std::int64_t;
using i128 = __int128;

constexpr std::size_t MOST_PEOPLE = 24;
constexpr u32 MOST_RENT = 24000000;
constexpr u32 MOST_WORTH = 1000000;
constexpr u8 NOBODY = 255;

// ---- groups

struct House {
    std::size_t n;
    u32 rent;
    u32 worth[MOST_PEOPLE][MOST_PEOPLE];
};

// A refusal by its number and place; number 0 where there is none.
struct Fault {
    u32 number;
    u64 place;
};

constexpr Fault NONE = {0, 0};

static u32 word_at(const u8 *bytes) {
    u32 x;
    std::memcpy(&x, bytes, 4);
    return x;
}

static Fault read_group(const u8 *bytes, std::size_t len, House &house) {
    if (len == 0) return {1, 0};
    std::size_t n = bytes[0];
    if (n == 0 || n > MOST_PEOPLE) return {2, 0};
    std::size_t want = 5 + 4 * n * n;
    if (len < want) return {1, len};
    if (len > want) return {1, want};
    house.n = n;
    house.rent = word_at(bytes + 1);
    if (house.rent > MOST_RENT) return {3, 1};
    const u8 *at = bytes + 5;
    for (std::size_t i = 0; i < n; i++) {
        for (std::size_t r = 0; r < n; r++, at += 4) {
            house.worth[i][r] = word_at(at);
            if (house.worth[i][r] > MOST_WORTH) return {4, u64(at - bytes)};
        }
    }
    return NONE;
}

// ---- the best sharing: the Hungarian method, a round for each person

struct Assignment {
    u64 looks;
    u64 persons[MOST_PEOPLE];
    u64 rooms[MOST_PEOPLE];
};

static void exchange(u64 *room, u64 *holder, std::size_t a, std::size_t b) {
    std::swap(holder[room[a]], holder[room[b]]);
    std::swap(room[a], room[b]);
}

static Assignment assign(const House &house, u32 *rooms) {
    const std::size_t n = house.n;
    Assignment found = {};
    u64 *u = found.persons, *v = found.rooms;
    u64 room[MOST_PEOPLE], holder[MOST_PEOPLE], distance[MOST_PEOPLE], parent[MOST_PEOPLE];
    bool reached[MOST_PEOPLE];
    for (std::size_t i = 0; i < n; i++) {
        u[i] = MOST_WORTH;
        room[i] = holder[i] = i;
    }
    for (std::size_t p = 0; p < n; p++) {
        for (std::size_t r = 0; r < n; r++) {
            distance[r] = u[p] + v[r] - house.worth[p][r];
            parent[r] = p;
            reached[r] = false;
        }
        std::size_t near;
        for (;;) {
            near = n;
            for (std::size_t r = 0; r < n; r++)
                if (!reached[r] && (near == n || distance[r] < distance[near])) near = r;
            reached[near] = true;
            found.looks += n;
            std::size_t i = holder[near];
            if (i >= p) break;
            u64 base = distance[near] + u[i];
            for (std::size_t r = 0; r < n; r++) {
                u64 offer = base + v[r] - house.worth[i][r];
                if (offer < distance[r]) {
                    distance[r] = offer;
                    parent[r] = i;
                }
            }
        }
        u64 d = distance[near];
        for (std::size_t r = 0; r < n; r++)
            if (distance[r] < d) v[r] += d - distance[r];
        for (std::size_t i = 0; i < p; i++)
            if (distance[room[i]] < d) u[i] -= d - distance[room[i]];
        u[p] -= d;
        exchange(room, holder, p, holder[near]);
        for (std::size_t i; (i = parent[room[p]]) != p;) exchange(room, holder, p, i);
    }
    for (std::size_t i = 0; i < n; i++) rooms[i] = u32(room[i]);
    return found;
}

// ---- the longest rows, the nearest first

struct LongestRows {
    u64 d[MOST_PEOPLE];
    u8 before[MOST_PEOPLE];
    std::size_t rounds;
};

static LongestRows longest_rows(const House &house, const u32 *rooms, const Assignment &found) {
    const std::size_t n = house.n;
    LongestRows rows;
    u64 slack[MOST_PEOPLE][MOST_PEOPLE]; // from, to
    u64 left[MOST_PEOPLE], offer[MOST_PEOPLE];
    u8 from[MOST_PEOPLE];
    for (std::size_t k = 0; k < n; k++)
        for (std::size_t i = 0; i < n; i++) slack[k][i] = found.persons[i] + found.rooms[rooms[k]] - house.worth[i][rooms[k]];
    for (std::size_t i = 0; i < n; i++) {
        left[i] = offer[i] = found.persons[i];
        rows.before[i] = from[i] = NOBODY;
    }
    auto through = [&](std::size_t k, u64 rest) {
        for (std::size_t i = 0; i < n; i++) {
            if (rest + slack[k][i] < offer[i]) {
                offer[i] = rest + slack[k][i];
                from[i] = u8(k);
            }
        }
    };
    for (std::size_t k = 0; k < n; k++) through(k, found.persons[k]);
    for (rows.rounds = 0; rows.rounds < n; rows.rounds++) {
        std::size_t to = n;
        for (std::size_t i = 0; i < n; i++)
            if (offer[i] < left[i] && (to == n || offer[i] < offer[to])) to = i;
        if (to == n) break;
        left[to] = offer[to];
        rows.before[to] = from[to];
        through(to, offer[to]);
    }
    for (std::size_t i = 0; i < n; i++) rows.d[i] = found.persons[i] - left[i];
    return rows;
}

// ---- rents, cents and the sheet

static i64 floor_div(i64 a, i64 n) { return a / n - (a % n < 0); }

static void put(u8 *at, u64 x) { std::memcpy(at, &x, 8); }

struct Shared {
    std::size_t people;
    i64 joint, least;
    u64 looks;
};

static void price(const House &house, const u32 *rooms, const u64 *d, u64 *rents, Shared &shared) {
    const std::size_t n = house.n;
    shared.joint = 0;
    i64 lengths = 0;
    for (std::size_t i = 0; i < n; i++) {
        shared.joint += house.worth[i][rooms[i]];
        lengths += i64(d[i]);
    }
    shared.least = shared.joint - i64(house.rent) - lengths;
    for (std::size_t i = 0; i < n; i++) rents[rooms[i]] = u64((i64(house.worth[i][rooms[i]]) - i64(d[i])) * i64(n) - shared.least);
    i64 missing = house.rent;
    for (std::size_t r = 0; r < n; r++) missing -= floor_div(i64(rents[r]), i64(n));
    for (std::size_t r = 0; r < n; r++) rents[n + r] = u64(floor_div(i64(rents[r]), i64(n)) + (i64(r) < missing));
}

static void write_sheet(std::size_t n, const u32 *rooms, const LongestRows &rows, const u64 *rents, const Assignment &found, u8 *sheet) {
    for (std::size_t i = 0; i < n; i++) {
        sheet[10 * i] = u8(rooms[i]);
        sheet[10 * i + 1] = rows.before[i];
        put(sheet + 10 * i + 2, rows.d[i]);
        put(sheet + 10 * n + 16 * i, rents[i]);
        put(sheet + 10 * n + 16 * i + 8, rents[n + i]);
        put(sheet + 26 * n + 8 * i, found.persons[i]);
        put(sheet + 34 * n + 8 * i, found.rooms[i]);
    }
}

static std::size_t work_len(std::size_t n) { return n * n + 7 * n; }

// The lengths of the lent slices: rooms, rents, work and sheet.
struct Lent {
    std::size_t rooms, rents, work, sheet;
};

static Fault share(const u8 *group, std::size_t len, const Lent &lent, u32 *rooms, u64 *rents, u8 *sheet, Shared &shared) {
    House house;
    Fault fault = read_group(group, len, house);
    if (fault.number) return fault;
    const std::size_t n = house.n;
    if (lent.rooms < n) return {5, 0};
    if (lent.rents < 2 * n) return {5, 1};
    if (lent.work < work_len(n)) return {5, 2};
    if (lent.sheet < 42 * n) return {5, 3};
    Assignment found = assign(house, rooms);
    LongestRows rows = longest_rows(house, rooms, found);
    shared.people = n;
    shared.looks = found.looks;
    price(house, rooms, rows.d, rents, shared);
    write_sheet(n, rooms, rows, rents, found, sheet);
    return NONE;
}

// ---- the checker

static i64 signed_at(const u8 *at) {
    i64 x;
    std::memcpy(&x, at, 8);
    return x;
}

static i128 wide_floor(i128 a, i128 n) { return a / n - (a % n < 0); }

static bool on_circle(const u8 *sheet, std::size_t n, std::size_t i) {
    std::size_t j = i;
    for (std::size_t left = n; left > 0; left--) {
        j = sheet[10 * j + 1];
        if (j == NOBODY) return false;
        if (j == i) return true;
    }
    return false;
}

static Fault check(const u8 *group, std::size_t len, const u8 *sheet, std::size_t sheet_len) {
    House house;
    Fault fault = read_group(group, len, house);
    if (fault.number) return fault;
    const std::size_t n = house.n;
    if (sheet_len != 42 * n) return {6, sheet_len};
    auto room = [&](std::size_t i) -> std::size_t { return sheet[10 * i]; };
    auto d = [&](std::size_t i) -> i128 { return signed_at(sheet + 10 * i + 2); };
    auto reach = [&](std::size_t k, std::size_t i) -> i128 {
        return d(k) + (i64(house.worth[i][room(k)]) - i64(house.worth[k][room(k)]));
    };
    u8 tenant[MOST_PEOPLE];
    std::memset(tenant, NOBODY, n);
    for (std::size_t i = 0; i < n; i++) {
        if (room(i) >= n || tenant[room(i)] != NOBODY) return {7, i};
        tenant[room(i)] = u8(i);
    }
    for (std::size_t i = 0; i < n; i++) {
        for (std::size_t r = 0; r < n; r++) {
            i128 sum = i128(signed_at(sheet + 26 * n + 8 * i)) + signed_at(sheet + 34 * n + 8 * r);
            if (sum < house.worth[i][r] || (room(i) == r && sum > house.worth[i][r])) return {8, 32 * i + r};
        }
    }
    for (std::size_t i = 0; i < n; i++) {
        std::size_t before = sheet[10 * i + 1];
        if (d(i) < 0) return {9, i};
        if (before == NOBODY ? d(i) != 0 : before >= n || d(i) != reach(before, i)) return {9, i};
    }
    for (std::size_t i = 0; i < n; i++)
        if (on_circle(sheet, n, i)) return {9, i};
    for (std::size_t k = 0; k < n; k++)
        for (std::size_t i = 0; i < n; i++)
            if (d(i) < reach(k, i)) return {10, 32 * k + i};
    i128 surplus = -i128(house.rent);
    for (std::size_t i = 0; i < n; i++) surplus += house.worth[i][room(i)] - d(i);
    i128 even = wide_floor(-surplus, i128(n));
    i128 missing = -surplus - even * i128(n);
    for (std::size_t r = 0; r < n; r++) {
        i128 mine = house.worth[tenant[r]][r] - d(tenant[r]);
        if (signed_at(sheet + 10 * n + 16 * r) != mine * i128(n) - surplus) return {11, r};
        if (signed_at(sheet + 10 * n + 16 * r + 8) != mine + even + (i128(r) < missing)) return {11, r + 32};
    }
    return NONE;
}

// ---- houses made from a seed

struct Seed {
    u64 state;

    // The next number, from 0 to most.
    u32 draw(u32 most) {
        state = state * 6364136223846793005u + 1442695040888963407u;
        return u32((state >> 33) % (u64(most) + 1));
    }
};

constexpr std::size_t KINDS = 4;
const char *const NAMES[KINDS] = {"random", "near", "equal", "steep"};

static u32 worth_of(Seed &seed, std::size_t kind, u32 common, std::size_t i, std::size_t r) {
    switch (kind) {
    case 0: return seed.draw(MOST_WORTH);
    case 1: return u32(500000 + 1000 * r) + seed.draw(9);
    case 2: return common;
    default: return u32(1800 * i * r) + seed.draw(9);
    }
}

static void push_word(std::vector<u8> &bytes, u32 x) {
    u8 four[4];
    std::memcpy(four, &x, 4);
    bytes.insert(bytes.end(), four, four + 4);
}

// Appends the bytes of a group of n.
static void make_group(Seed &seed, std::size_t n, std::size_t kind, std::vector<u8> &bytes) {
    bytes.push_back(u8(n));
    push_word(bytes, seed.draw(MOST_RENT));
    u32 common = seed.draw(MOST_WORTH);
    for (std::size_t i = 0; i < n; i++)
        for (std::size_t r = 0; r < n; r++) push_word(bytes, worth_of(seed, kind, common, i, r));
}

static u64 mix(u64 sum, u64 x) { return (sum ^ x) * 1099511628211u; }

// ---- the houses, shared and checked

using Clock = std::chrono::steady_clock;

constexpr Lent ENOUGH = {24, 48, 744, 1008};

struct Slices {
    u32 rooms[24];
    u64 rents[48];
    u64 work[744];
    u8 sheet[1008];
};

// What each part took, in nanoseconds, over all houses: up to the end of reading, of the sharing, of the rows and of the sheet; and checking.
struct Times {
    u64 until[4], check;
};

static u64 since(Clock::time_point start) {
    return u64(std::chrono::duration_cast<std::chrono::nanoseconds>(Clock::now() - start).count());
}

// The first parts of share, as many as are wanted.
static u64 run_until(std::size_t part, const u8 *group, std::size_t len, Slices &lent) {
    if (part == 3) {
        Shared shared;
        share(group, len, ENOUGH, lent.rooms, lent.rents, lent.sheet, shared);
        return shared.looks;
    }
    House house;
    read_group(group, len, house);
    if (part == 0) return house.n;
    Assignment found = assign(house, lent.rooms);
    if (part == 1) return found.looks;
    return longest_rows(house, lent.rooms, found).rounds;
}

static u64 seen = 0;

static Times run_pass(const std::vector<u8> &groups, std::size_t len, const std::vector<u8> &sheets, std::size_t sheet_len) {
    static Slices lent;
    Times times;
    const std::size_t count = groups.size() / len;
    for (std::size_t part = 0; part < 4; part++) {
        Clock::time_point start = Clock::now();
        for (std::size_t k = 0; k < count; k++) seen += run_until(part, &groups[k * len], len, lent);
        times.until[part] = since(start);
    }
    Clock::time_point start = Clock::now();
    for (std::size_t k = 0; k < count; k++) seen += check(&groups[k * len], len, &sheets[k * sheet_len], sheet_len).number;
    times.check = since(start);
    return times;
}

static void print_times(std::size_t n, std::size_t kind, u64 count, const Times &t) {
    std::fprintf(stderr, "n %zu %s:", n, NAMES[kind]);
    const char *const parts[4] = {"read", "sharing", "rows", "rents-and-sheet"};
    u64 before = 0;
    for (std::size_t part = 0; part < 4; part++) {
        std::fprintf(stderr, " %s %llu", parts[part], (unsigned long long)(t.until[part] > before ? (t.until[part] - before) / count : 0));
        before = t.until[part];
    }
    std::fprintf(stderr, " share %llu check %llu\n", (unsigned long long)(t.until[3] / count), (unsigned long long)(t.check / count));
}

static void time_kind(std::size_t n, std::size_t kind, u64 count, u64 passes) {
    Seed seed = {n};
    const std::size_t len = 5 + 4 * n * n, sheet_len = 42 * n;
    std::vector<u8> groups, sheets;
    for (u64 k = 0; k < count; k++) make_group(seed, n, kind, groups);
    u64 looks = 0, rounds = 0, accepted = 0, sum = 0;
    Slices lent;
    for (u64 k = 0; k < count; k++) {
        const u8 *group = &groups[k * len];
        Shared shared;
        share(group, len, ENOUGH, lent.rooms, lent.rents, lent.sheet, shared);
        looks += shared.looks;
        sum = mix(mix(mix(sum, u64(shared.joint)), u64(shared.least)), shared.looks);
        for (std::size_t i = 0; i < n; i++) sum = mix(sum, lent.rooms[i]);
        for (std::size_t i = 0; i < 2 * n; i++) sum = mix(sum, lent.rents[i]);
        for (std::size_t i = 0; i < sheet_len; i++) sum = mix(sum, lent.sheet[i]);
        sheets.insert(sheets.end(), lent.sheet, lent.sheet + sheet_len);
        accepted += check(group, len, lent.sheet, sheet_len).number == 0;
        rounds += run_until(2, group, len, lent);
    }
    std::printf("n %zu %s: houses %llu looks %llu rounds %llu accepted %llu sum %llu\n", n, NAMES[kind], (unsigned long long)count,
                (unsigned long long)looks, (unsigned long long)rounds, (unsigned long long)accepted, (unsigned long long)sum);
    Times best = {};
    for (u64 pass = 0; pass < passes; pass++) {
        Times times = run_pass(groups, len, sheets, sheet_len);
        if (pass == 0) best = times;
        for (std::size_t part = 0; part < 4; part++) best.until[part] = std::min(best.until[part], times.until[part]);
        best.check = std::min(best.check, times.check);
    }
    print_times(n, kind, count, best);
}

// ---- groups and sheets by the million, sound and damaged

struct Tally {
    u64 numbers[12], sum;

    void count(Fault fault) {
        numbers[fault.number]++;
        sum = mix(mix(sum, fault.number), fault.place);
    }
};

constexpr u8 MARK = 77;

static void damage(Seed &seed, std::vector<u8> &bytes) {
    if (bytes.empty()) return;
    std::size_t k = seed.draw(u32(bytes.size() - 1));
    bytes[k] ^= u8(1 + seed.draw(254) % 255);
}

static void scramble(Seed &seed, std::vector<u8> &bytes) {
    for (u8 &byte : bytes) byte = u8(seed.draw(255));
}

static bool try_group(const std::vector<u8> &group, const std::size_t cut[4], Tally &tally, std::vector<u8> &sheet) {
    Slices lent;
    Shared shared;
    Lent lengths = {ENOUGH.rooms - cut[0], ENOUGH.rents - cut[1], ENOUGH.work - cut[2], ENOUGH.sheet - cut[3]};
    Fault fault = share(group.data(), group.size(), lengths, lent.rooms, lent.rents, lent.sheet, shared);
    tally.count(fault);
    if (fault.number) return false;
    tally.sum = mix(mix(mix(tally.sum, shared.looks), u64(shared.joint)), u64(shared.least));
    sheet.assign(lent.sheet, lent.sheet + 42 * shared.people);
    return true;
}

static void try_sound(Seed &seed, const std::vector<u8> &group, std::size_t n, Tally &tally) {
    const std::size_t none[4] = {0, 0, 0, 0};
    std::vector<u8> sheet;
    if (!try_group(group, none, tally, sheet)) return;
    tally.count(check(group.data(), group.size(), sheet.data(), sheet.size()));
    switch (seed.draw(7)) {
    case 0:
        for (std::size_t i = 0; i < n; i++) {
            sheet[10 * i + 1] = NOBODY;
            put(&sheet[10 * i + 2], 0);
        }
        break;
    case 1: scramble(seed, sheet); break;
    case 2: sheet.push_back(MARK); break;
    case 3: sheet.pop_back(); break;
    default: damage(seed, sheet);
    }
    tally.count(check(group.data(), group.size(), sheet.data(), sheet.size()));
}

static void try_damaged(Seed &seed, std::vector<u8> &group, std::size_t n, Tally &tally) {
    std::size_t cut[4] = {0, 0, 0, 0};
    switch (seed.draw(7)) {
    case 0: group.push_back(MARK); break;
    case 1: group.resize(seed.draw(u32(group.size()))); break;
    case 2: {
        const std::size_t most[4] = {ENOUGH.rooms, ENOUGH.rents, ENOUGH.work, ENOUGH.sheet};
        const std::size_t wanted[4] = {n, 2 * n, work_len(n), 42 * n};
        std::size_t which = seed.draw(3);
        cut[which] = most[which] + 1 - wanted[which];
        break;
    }
    case 3:
        group.resize(std::min<std::size_t>(group.size(), 21));
        scramble(seed, group);
        group[0] = 2;
        break;
    default: damage(seed, group);
    }
    std::vector<u8> sheet;
    try_group(group, cut, tally, sheet);
}

static void load_all(u64 count) {
    Seed seed = {2};
    Tally tally = {};
    for (u64 k = 0; k < count; k++) {
        std::size_t n = k % 64 == 63 ? 24 : 1 + seed.draw(5) % 6;
        std::vector<u8> group;
        make_group(seed, n, k / 2 % KINDS, group);
        if (k % 2 == 0) try_sound(seed, group, n, tally);
        else try_damaged(seed, group, n, tally);
    }
    std::printf("groups %llu, taken or accepted %llu, refused", (unsigned long long)count, (unsigned long long)tally.numbers[0]);
    for (int number = 1; number < 12; number++) std::printf(" %d: %llu", number, (unsigned long long)tally.numbers[number]);
    std::printf(", ill formed 0, changing what was lent 0, sum %llu\n", (unsigned long long)tally.sum);
}

int main(int argc, char **argv) {
    const std::string mode = argc > 1 ? argv[1] : "";
    auto number = [&](int k) { return std::strtoull(argv[k], nullptr, 10); };
    if (mode == "time" && (argc == 4 || argc == 5)) {
        for (std::size_t n : {2, 6, 12, 24})
            for (std::size_t kind = 0; kind < KINDS; kind++)
                if (argc == 4 || number(4) == n) time_kind(n, kind, number(2), number(3));
        std::fprintf(stderr, "seen %llu\n", (unsigned long long)seen);
        return 0;
    }
    if (mode == "load" && argc == 3) {
        load_all(number(2));
        return 0;
    }
    std::fprintf(stderr, "usage: plain time COUNT PASSES [N] | load COUNT\n");
    return 1;
}
