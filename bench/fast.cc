// What a strong engineer would write without proofs, with speed as the only goal: the yardstick for `snap` and `check`. Not part of the product. It
// checks every order rule, and reads and writes the same bytes.
//
// Orders are found through a table of pages indexed by reference. Nodes have 32 bytes and 32-bit links and are in one reserved address range. Each
// side of a book is a sorted vector of levels. Messages are examined in advance, so that the memory they touch is prefetched into the cache.
//
// Build: g++ -O3 -march=native -std=c++20 -fno-exceptions bench/fast.cc -o fast
// Run:   fast snap | check | frames | decode < day.itch
// With -DLAZY it keeps no books, and sorts the orders at the end.
#include <algorithm>
#include <cstdint>
#include <cstdio>
#include <cstdlib>
#include <cstring>
#include <unordered_map>
#include <vector>
#include <sys/mman.h>
#include <unistd.h>
#include <immintrin.h>
typedef uint8_t u8; typedef uint16_t u16; typedef uint32_t u32; typedef uint64_t u64;
#define LIKELY(x) __builtin_expect(!!(x), 1)
#define UNLIKELY(x) __builtin_expect(!!(x), 0)
#define INL static inline __attribute__((always_inline))
#define PF(p) __builtin_prefetch((const void *)(p), 1, 3)
#ifndef AHEAD
#define AHEAD 24
#endif
INL u16 be16(const u8 *p) { u16 x; memcpy(&x, p, 2); return __builtin_bswap16(x); }
INL u32 be32(const u8 *p) { u32 x; memcpy(&x, p, 4); return __builtin_bswap32(x); }
INL u64 be64(const u8 *p) { u64 x; memcpy(&x, p, 8); return __builtin_bswap64(x); }
INL u64 raw64(const u8 *p) { u64 x; memcpy(&x, p, 8); return x; }
INL u32 raw32(const u8 *p) { u32 x; memcpy(&x, p, 4); return x; }

static void *arena(size_t bytes, bool huge = true) {
    void *p = mmap(nullptr, bytes, PROT_READ | PROT_WRITE, MAP_PRIVATE | MAP_ANONYMOUS | MAP_NORESERVE, -1, 0);
    if (p == MAP_FAILED) { fprintf(stderr, "itchsnap: out of memory\n"); exit(4); }
#ifndef NOHUGE
    if (huge) madvise(p, bytes, MADV_HUGEPAGE);
#endif
    return p;
}

// Nodes of 32 bytes with 32-bit links in one reserved address range. A price level is also such a node, and the orders of its queue form a ring
// through it, so insertion and removal have no branches. Node 0 means none.
struct Node {
    u64 ref;                    // of a level: all shares
    u32 shares;                 // of a level: the number of orders
    u32 level;                  // of a level: the price
    u32 prev, next;             // of a level: the last and the first order
    u32 mpid; u16 locate; u8 has, side;
};
static_assert(sizeof(Node) == 32);
struct Pool {
    Node *at; u32 len = 1, free_ = 0;
    inline __attribute__((always_inline)) u32 take() { u32 k = free_; if (LIKELY(k)) { free_ = at[k].next; return k; } return len++; }
    inline __attribute__((always_inline)) void give(u32 k) { at[k].next = free_; free_ = k; }
};

struct Side { u32 *k = nullptr; u32 len = 0, cap = 0; };       // ascending keys, the best price last; their levels are stored cap words later

struct Sec { u8 stock[8]; u8 entry[20]; u8 has, has_action, has_sho, state, sho; u8 reason[4]; std::vector<std::pair<u8, u8>> halts; std::vector<std::pair<u32, u32>> positions; };

static Sec *secs; static u64 *stocks;                           // stocks: the eight raw bytes for the quick comparison, 0 for none
static Side *sides;
static int event_ = -1;
static Pool nodes;
#ifdef LAZY
static u32 *seqs; static u32 seq_; static u32 live;
#endif

// The order table: pages of 512 references with four bytes each. Page 0 is always empty. Pages that become empty are reused. References from 2^38 up
// are in a map.
static const u32 PB = 9, PN = 1 << PB; static const u64 DIRECT = (u64)1 << 38;
static u32 *dir_, *slots; static u16 *in_page; static u32 pages = 1; static std::vector<u32> free_pages; static std::unordered_map<u64, u32> *far_;
INL u32 *slot_of(u64 ref) { ref = ref < DIRECT ? ref : 0; return slots + ((u64)dir_[ref >> PB] << PB | (ref & (PN - 1))); }
static u32 __attribute__((noinline)) find_far(u64 ref) { auto i = far_->find(ref); return i == far_->end() ? 0 : i->second; }
INL u32 find(u64 ref) { if (UNLIKELY(ref >= DIRECT)) return find_far(ref); return *slot_of(ref); }
static u32 __attribute__((noinline)) new_page() { if (!free_pages.empty()) { u32 p = free_pages.back(); free_pages.pop_back(); return p; } return pages++; }
INL void put(u64 ref, u32 n) {
    if (UNLIKELY(ref >= DIRECT)) { (*far_)[ref] = n; return; }
    u32 &d = dir_[ref >> PB];
    if (UNLIKELY(!d)) d = new_page();
    in_page[d]++; slots[(u64)d << PB | (ref & (PN - 1))] = n;
}
INL void drop(u64 ref) {
    if (UNLIKELY(ref >= DIRECT)) { far_->erase(ref); return; }
    u32 &d = dir_[ref >> PB];
    slots[(u64)d << PB | (ref & (PN - 1))] = 0;
    if (UNLIKELY(--in_page[d] == 0)) { free_pages.push_back(d); d = 0; }
}

INL u32 key_of(u8 side, u32 price) { return side == 'B' ? price : ~price; }
// Returns how many keys are lower: first among the 32 best at once, then by a binary search without branches. The 32 words before k are zeros.
INL u32 place(const Side &s, u32 key) {
#if defined(__AVX512F__) && !defined(NOVEC)
    __m512i w = _mm512_set1_epi32(key);
    const u32 *e = s.k + s.len;
    u32 m = _mm512_cmplt_epu32_mask(_mm512_loadu_si512(e - 16), w);
    u32 above = 16 - __builtin_popcount(m);
    if (LIKELY(above < 16)) return s.len > above ? s.len - above : 0;
    m = _mm512_cmplt_epu32_mask(_mm512_loadu_si512(e - 32), w);
    above = 32 - __builtin_popcount(m);
    if (LIKELY(above < 32)) return s.len > above ? s.len - above : 0;
    if (s.len <= 32) return 0;
    u32 n = s.len - 32;
#else
    u32 n = s.len;
    if (n == 0) return 0;
#endif
    const u32 *b = s.k;
    while (n > 1) { u32 half = n / 2; b += b[half - 1] < key ? half : 0; n -= half; }
    return (u32)(b - s.k) + (*b < key);
}
#ifndef LAZY
static void __attribute__((noinline)) widen(Side &s) {          // drops empty levels, and doubles the room if that is not enough
    u32 n = 0;
    for (u32 i = 0; i < s.len; i++) { u32 l = s.k[s.cap + i]; if (nodes.at[l].shares) { s.k[n] = s.k[i]; s.k[s.cap + n] = l; n++; } else { nodes.at[l].has = 0; nodes.give(l); } }
    s.len = n;
    if (n * 4 > s.cap * 3 || s.cap == 0) {
        u32 cap = s.cap ? s.cap * 2 : 8;
        u32 *k = (u32 *)malloc(4 * (2 * cap + 32)); memset(k, 0, 128); k += 32;
        if (s.cap) { memcpy(k, s.k, 4 * n); memcpy(k + cap, s.k + s.cap, 4 * n); free(s.k - 32); }
        s.k = k; s.cap = cap;
    }
}
static u32 __attribute__((noinline)) open_level(Side &s, u32 key, u16 locate, u8 side, u32 price) {
    if (UNLIKELY(s.len == s.cap)) widen(s);
    u32 at = place(s, key), l = nodes.take(), n = s.len - at, *k = s.k + at, *v = k + s.cap;
    memmove(k + 1, k, 4 * n); memmove(v + 1, v, 4 * n);
    *k = key; *v = l; s.len++;
    nodes.at[l] = Node{0, 0, price, l, l, 0, locate, 2, side};
    return l;
}
INL u32 level_at(const Side &s, u32 key) { if (UNLIKELY(!s.cap)) return 0; u32 at = place(s, key); return at < s.len && s.k[at] == key ? s.k[s.cap + at] : 0; }
INL void add(u64 ref, u16 locate, u8 side, u32 shares, u32 price, u32 mpid, u8 has, u32 guess) {
    Side &s = sides[(u32)locate * 2 + (side == 'S')];
    u32 l = guess;                                              // the look-ahead's result, if it is still valid
    const Node &g = nodes.at[l];
    if (UNLIKELY(!(g.has == 2 && g.level == price && g.locate == locate && g.side == side))) {
        u32 key = key_of(side, price);
        l = level_at(s, key);
        if (!l) l = open_level(s, key, locate, side, price);
    }
    u32 n = nodes.take();
    Node &v = nodes.at[l];
    u32 last = v.prev;
    nodes.at[n] = Node{ref, shares, l, last, l, mpid, locate, has, side};
    nodes.at[last].next = n; v.prev = n; v.shares++; v.ref += shares;
    put(ref, n);
}
INL void remove(u32 n) {
    Node &x = nodes.at[n]; Node &v = nodes.at[x.level];
    v.ref -= x.shares; v.shares--;
    nodes.at[x.prev].next = x.next; nodes.at[x.next].prev = x.prev;
    drop(x.ref);
#ifdef EAGER
    if (v.shares == 0) { Side &s = sides[(u32)x.locate * 2 + (x.side == 'S')]; u32 at = place(s, key_of(x.side, v.level)), *k = s.k + at, m = 4 * (s.len - at - 1); memmove(k, k + 1, m); memmove(k + s.cap, k + s.cap + 1, m); s.len--; v.has = 0; nodes.give(x.level); }
#endif
    nodes.give(n);
}
INL void lessen(u32 n, u32 take) { nodes.at[n].shares -= take; nodes.at[nodes.at[n].level].ref -= take; }
#else
INL void add(u64 ref, u16 locate, u8 side, u32 shares, u32 price, u32 mpid, u8 has, u32) {
    u32 n = nodes.take();
    u32 q = seq_++;
    nodes.at[n] = Node{ref, shares, price, q, 0, mpid, locate, has, side};
    live++; put(ref, n);
}
INL void remove(u32 n) { drop(nodes.at[n].ref); nodes.at[n].shares = 0; nodes.give(n); live--; }
INL void lessen(u32 n, u32 take) { nodes.at[n].shares -= take; }
#endif

// Faults and refusals: the slow path, with the same texts.
static u64 number; // of the current message
[[noreturn]] static void refuse(const char *why) { fprintf(stderr, "itchsnap: message %llu: %s\n", (unsigned long long)number, why); exit(1); }
[[noreturn]] static void refuse(const char *form, unsigned a, unsigned b = 0, unsigned c = 0) { char t[80]; snprintf(t, 80, form, a, b, c); refuse(t); }
static void text(const u8 *p, int at, int n) { for (int i = at; i < at + n; i++) if (p[i] < 0x20 || p[i] > 0x7e) refuse("bad text at %u", i); }
INL bool printable8(u64 x) { return !(((x - 0x2020202020202020ull) | (x + 0x0101010101010101ull) | x) & 0x8080808080808080ull); }
static void check_stock(const u8 *p, int at) {
    u16 l = be16(p + 1);
    if (!secs[l].has) refuse("unknown locate");
    if (memcmp(secs[l].stock, p + at, 8)) refuse("stock mismatch");
}
static u8 size_of[256];

INL void add_message(const u8 *p, bool f, u32 guess) {
    u16 l = be16(p + 1); u8 side = p[19]; u32 shares = be32(p + 20); u64 ref = be64(p + 11);
    u64 s = raw64(p + 24);
    u32 mpid = f ? raw32(p + 36) : 0;
    if (UNLIKELY((side != 'B' && side != 'S') || s != stocks[l] || s == 0 || shares == 0 || (f && !printable8((u64)mpid << 32 | mpid)))) {
        if (side != 'B' && side != 'S') refuse("bad side at 19");
        text(p, 24, 8); if (f) text(p, 36, 4);
        check_stock(p, 24);
        if (shares == 0) refuse("zero shares");
    }
    if (UNLIKELY(find(ref))) refuse("duplicate reference");
    add(ref, l, side, shares, be32(p + 32), mpid, f, guess);
}
INL u32 known(const u8 *p) {
    u32 n = find(be64(p + 11));
    if (UNLIKELY(!n)) refuse("unknown reference");
    if (UNLIKELY(nodes.at[n].locate != be16(p + 1))) refuse("locate mismatch");
    return n;
}
INL void take_message(const u8 *p) {
    u32 n = known(p), t = be32(p + 19), has = nodes.at[n].shares;
    if (UNLIKELY(t > has)) refuse("too many shares, %u remain", has);
    if (t == has) remove(n); else lessen(n, t);
}
INL void delete_message(const u8 *p) { remove(known(p)); }
INL void replace_message(const u8 *p, u32 guess) {
    u32 n = known(p);
    Node x = nodes.at[n];
    u32 shares = be32(p + 27);
    if (UNLIKELY(shares == 0)) refuse("zero shares");
    u64 next = be64(p + 19);
    if (UNLIKELY(find(next))) refuse("duplicate reference");
    remove(n);
    add(next, x.locate, x.side, shares, be32(p + 31), x.mpid, x.has, guess);
}
template <class V, class K, class T> static void keep(V &v, K k, T t) {
    auto i = std::lower_bound(v.begin(), v.end(), k, [](auto &a, K b) { return a.first < b; });
    if (i != v.end() && i->first == k) i->second = t; else v.insert(i, {k, t});
}
static void __attribute__((noinline)) rare(const u8 *p, u32 n) {
    u16 l = n > 2 ? be16(p + 1) : 0; Sec &s = secs[l];
    switch (p[0]) {
    case 'S': event_ = p[11]; break;
    case 'R':
        text(p, 11, 8);
        if (s.has) { if (memcmp(s.stock, p + 11, 8)) refuse("stock mismatch"); }
        s.has = 1; memcpy(s.stock, p + 11, 8); memcpy(s.entry, p + 19, 20); memcpy(&stocks[l], p + 11, 8); break;
    case 'H': text(p, 11, 8); check_stock(p, 11); s.has_action = 1; s.state = p[19]; memcpy(s.reason, p + 21, 4); break;
    case 'Y': text(p, 11, 8); check_stock(p, 11); s.has_sho = 1; s.sho = p[19]; break;
    case 'h': text(p, 11, 8); check_stock(p, 11); keep(s.halts, p[19], p[20]); break;
    case 'L': text(p, 11, 4); text(p, 15, 8); check_stock(p, 15); keep(s.positions, be32(p + 11), (u32)p[23] << 16 | p[24] << 8 | p[25]); break;
    case 'P': if (p[19] != 'B' && p[19] != 'S') refuse("bad side at 19"); text(p, 24, 8); break;
    case 'Q': text(p, 19, 8); break;
    case 'G': {
        int i = 1, j = 21; while (i < 21 && p[i] == ' ') i++; while (j > i && p[j - 1] == ' ') j--;
        unsigned __int128 v = 0; if (i == j) refuse("bad number");
        for (; i < j; i++) { if (p[i] < '0' || p[i] > '9') refuse("bad number"); v = v * 10 + (p[i] - '0'); }
        if (v < 1 || v > (unsigned __int128)10000000000000000000ull) refuse("bad number");
        refuse("unexpected end");
    }
    default: break;
    }
}
INL void apply(const u8 *p, u32 n, u32 guess) {
    u8 k = p[0];
    if (UNLIKELY(size_of[k] != n && size_of[k])) { char t[80]; snprintf(t, 80, "wrong length for %c: want %u, got %u", k, size_of[k], n); refuse(t); }
    switch (k) {
    case 'A': add_message(p, false, guess); break;
    case 'F': add_message(p, true, guess); break;
    case 'D': delete_message(p); break;
    case 'E': case 'C': case 'X': take_message(p); break;
    case 'U': replace_message(p, guess); break;
    default: rare(p, n);
    }
}

// Input in a window of 256 KiB, refilled so that it always holds at least one block of the greatest length.
static const u32 PIECE = 1 << 18;
static u8 *buf; static u32 have, pos; static bool ended;
static void __attribute__((noinline)) refill() {
    memmove(buf, buf + pos, have - pos); have -= pos; pos = 0;
    while (!ended && have < 65537 + 4096) { ssize_t r = read(0, buf + have, PIECE - have); if (r < 0) { perror("itchsnap: read"); exit(3); } if (r == 0) ended = true; else have += r; }
}
// The stages of the look-ahead have no branches: they treat each message as one with a reference at 11 and a side at 19. A wrong guess costs only a
// needless prefetch.
INL void warm_slot(const u8 *p) { PF(slot_of(be64(p + 11)));
#ifndef LAZY
    PF(&sides[(u32)be16(p + 1) * 2 + (p[19] == 'S')]);
#endif
}
INL void warm_node(const u8 *p) { PF(&nodes.at[*slot_of(be64(p + 11))]);
#ifndef LAZY
    Side &s = sides[(u32)be16(p + 1) * 2 + (p[19] == 'S')]; PF(s.k + s.len - 8); PF(s.k + s.len - 24); PF(s.k + s.cap + s.len - 8);
#endif
}
INL u32 warm_level(const u8 *p) {
#ifndef LAZY
    u8 k = p[0];
    if (k == 'A' || k == 'F') { u32 l = level_at(sides[(u32)be16(p + 1) * 2 + (p[19] == 'S')], key_of(p[19], be32(p + 32))); PF(&nodes.at[l]); return l; }
    Node &x = nodes.at[*slot_of(be64(p + 11))]; PF(&nodes.at[x.level]); PF(&nodes.at[x.prev]); PF(&nodes.at[x.next]);
    if (k == 'U') { u32 l = level_at(sides[(u32)be16(p + 1) * 2 + (x.side == 'S')], key_of(x.side, be32(p + 31))); PF(&nodes.at[l]); return l; }
#endif
    return 0;
}
INL void warm_tail(u32 l) { PF(&nodes.at[nodes.at[l].prev]); }
static u64 day() {
    u32 off[AHEAD], len[AHEAD], guess[AHEAD] = {};
    for (u64 count = 0;;) {
        if (have - pos < AHEAD * 64 + 65537 && !ended) refill();
        // frame up to AHEAD complete messages
        u32 n = 0, q = pos;
        while (n < AHEAD) {
            if (UNLIKELY(have - q < 2)) break;
            u32 l = be16(buf + q);
            if (UNLIKELY(l == 0 || have - q < 2 + l)) break;
            off[n] = q + 2; len[n] = l; n++; q += 2 + l;
#ifndef NOWARM
            warm_slot(buf + off[n - 1]);
#endif
        }
        if (n == 0) {
            if (have == pos) return count;
            if (have - pos >= 2 && be16(buf + pos) == 0) return count;
            if (!ended) { refill(); continue; }
            number = count + 1; refuse("truncated, %u bytes held", have - pos);
        }
#ifndef NOWARM
        for (u32 i = 0; i < n; i++) warm_node(buf + off[i]);
        for (u32 i = 0; i < n; i++) guess[i] = warm_level(buf + off[i]);
#ifndef LAZY
        for (u32 i = 0; i < n; i++) warm_tail(guess[i]);
#endif
#endif
        for (u32 i = 0; i < n; i++) { number = ++count; apply(buf + off[i], len[i], guess[i]); }
        pos = q;
    }
}

static u8 out[1 << 17]; static u32 olen;
static void flush() { u32 d = 0; while (d < olen) { ssize_t w = write(1, out + d, olen - d); if (w <= 0) { perror("itchsnap: write"); exit(3); } d += w; } olen = 0; }
INL u8 *block(u8 kind, u16 locate, u32 n) {
    if (UNLIKELY(olen + 64 > sizeof out)) flush();
    u8 *p = out + olen; olen += n + 2;
    p[0] = 0; p[1] = n; p[2] = kind; p[3] = locate >> 8; p[4] = locate; memset(p + 5, 0, 8); return p + 2;
}
INL void order(u16 locate, u64 stock, u64 ref, u8 side, u32 shares, u32 price, u8 has, u32 mpid) {
    u8 *p = block(has ? 'F' : 'A', locate, has ? 40 : 36);
    u64 r = __builtin_bswap64(ref); memcpy(p + 11, &r, 8); p[19] = side; u32 s = __builtin_bswap32(shares); memcpy(p + 20, &s, 4);
    memcpy(p + 24, &stock, 8); s = __builtin_bswap32(price); memcpy(p + 32, &s, 4); if (has) memcpy(p + 36, &mpid, 4);
}
static void snapshot(u64 count) {
    if (event_ >= 0) block('S', 0, 12)[11] = event_;
#ifdef LAZY
    // counting sort by locate and side, then each part by price and arrival
    std::vector<u32> start(131073, 0); std::vector<u32> part(live);
    for (u32 i = 0; i < nodes.len; i++) if (nodes.at[i].shares) start[nodes.at[i].locate * 2u + (nodes.at[i].side == 'S') + 1]++;
    for (u32 i = 0; i < 131072; i++) start[i + 1] += start[i];
    struct Row { u32 key; u32 node; u32 seq; };
    std::vector<Row> rows(live); std::vector<u32> fill(start.begin(), start.end() - 1);
    for (u32 i = 0; i < nodes.len; i++) { auto &x = nodes.at[i]; if (x.shares) rows[fill[x.locate * 2u + (x.side == 'S')]++] = Row{x.side == 'B' ? ~x.level : x.level, i, x.prev}; }
#endif
    for (u32 l = 0; l < 65536; l++) {
        Sec &s = secs[l]; if (!s.has) continue;
        u8 *p = block('R', l, 39); memcpy(p + 11, s.stock, 8); memcpy(p + 19, s.entry, 20);
        if (s.has_action) { p = block('H', l, 25); memcpy(p + 11, s.stock, 8); p[19] = s.state; p[20] = ' '; memcpy(p + 21, s.reason, 4); }
        if (s.has_sho) { p = block('Y', l, 20); memcpy(p + 11, s.stock, 8); p[19] = s.sho; }
        for (auto &h : s.halts) { p = block('h', l, 21); memcpy(p + 11, s.stock, 8); p[19] = h.first; p[20] = h.second; }
        for (auto &x : s.positions) { p = block('L', l, 26); u32 m = __builtin_bswap32(x.first); memcpy(p + 11, &m, 4); memcpy(p + 15, s.stock, 8); p[23] = x.second >> 16; p[24] = x.second >> 8; p[25] = x.second; }
        u64 stock; memcpy(&stock, s.stock, 8);
        for (u32 b = 0; b < 2; b++) {
#ifndef LAZY
            Side &d = sides[l * 2 + b];
            const u32 *v_ = d.k + d.cap;
            for (u32 i = d.len; i-- > 0;) {
                if (i >= 12) PF(&nodes.at[v_[i - 12]]);
                if (i >= 6) PF(&nodes.at[nodes.at[v_[i - 6]].next]);
                u32 lv = v_[i]; Node &v = nodes.at[lv];
                for (u32 n = v.next; n != lv;) { Node &x = nodes.at[n]; PF(&nodes.at[x.next]); order(l, stock, x.ref, b ? 'S' : 'B', x.shares, v.level, x.has, x.mpid); n = x.next; }
            }
#else
            u32 a = start[l * 2 + b], z = start[l * 2 + b + 1];
            std::sort(rows.begin() + a, rows.begin() + z, [](const Row &x, const Row &y) { return x.key != y.key ? x.key < y.key : x.seq < y.seq; });
            for (u32 i = a; i < z; i++) { if (i + 16 < live) PF(&nodes.at[rows[i + 16].node]); auto &x = nodes.at[rows[i].node]; order(l, stock, x.ref, x.side, x.shares, x.level, x.has, x.mpid); }
#endif
        }
    }
    char t[32]; snprintf(t, 32, "G%20llu", (unsigned long long)(count + 1));
    u8 *p = block('G', 0, 21); memcpy(p, t, 21);
    flush();
}

int main(int argc, char **argv) {
    const char *job = argc > 1 ? argv[1] : "snap";
    const char *types = "SRHYhLAFECXDUPQBG"; const u8 sizes[] = {12, 39, 25, 20, 21, 26, 36, 40, 31, 36, 23, 19, 35, 44, 40, 19, 21};
    for (int i = 0; types[i]; i++) size_of[(u8)types[i]] = sizes[i];
    buf = (u8 *)aligned_alloc(4096, PIECE + 4096);
    if (!strcmp(job, "copy")) { u64 n = 0; static u8 to[4096]; ssize_t r; while ((r = read(0, buf, 65536)) > 0) { for (ssize_t i = 0; i < r; i += 4096) { memcpy(to, buf + i, 4096); asm volatile("" ::"r"(to) : "memory"); } n += r; } printf("%llu bytes\n", (unsigned long long)n); return 0; }
    if (!strcmp(job, "frames") || !strcmp(job, "decode")) {
        bool dec = !strcmp(job, "decode"); u64 count = 0, sum = 0;
        for (;;) {
            if (have - pos < 65537 && !ended) refill();
            if (have - pos < 2) break;
            u32 l = be16(buf + pos); if (l == 0 || have - pos < 2 + l) break;
            const u8 *p = buf + pos + 2; pos += 2 + l; count++;
            if (!dec) { sum += p[0]; continue; }
            if (size_of[p[0]] && size_of[p[0]] != l) break;
            sum += be16(p + 1);
            switch (p[0]) { // all fields that the order rules read, and the texts checked
            case 'F': if (!printable8((u64)raw32(p + 36) << 32 | raw32(p + 36))) text(p, 36, 4); [[fallthrough]];
            case 'A': if (p[19] != 'B' && p[19] != 'S') refuse("bad side at 19"); if (!printable8(raw64(p + 24))) text(p, 24, 8); sum += be64(p + 11) + be32(p + 20) + be32(p + 32); break;
            case 'E': case 'C': case 'X': sum += be64(p + 11) + be32(p + 19); break;
            case 'D': sum += be64(p + 11); break;
            case 'U': sum += be64(p + 11) + be64(p + 19) + be32(p + 27) + be32(p + 31); break;
            case 'R': case 'H': case 'Y': text(p, 11, 8); break;
            default: break;
            }
        }
        printf("%llu messages %llu\n", (unsigned long long)count, (unsigned long long)sum);
        return 0;
    }
    secs = (Sec *)calloc(65536, sizeof(Sec)); stocks = (u64 *)calloc(65536, 8); sides = (Side *)calloc(131072, sizeof(Side));
    nodes.at = (Node *)arena((size_t)1 << 37); slots = (u32 *)arena((size_t)1 << 40, false); dir_ = (u32 *)arena((DIRECT >> PB) * 4, false); in_page = (u16 *)arena((size_t)1 << 31, false);
    far_ = new std::unordered_map<u64, u32>;
    u64 count = day();
    if (!strcmp(job, "check")) { printf("ok %llu messages\n", (unsigned long long)count); return 0; }
    snapshot(count);
    return 0;
}
