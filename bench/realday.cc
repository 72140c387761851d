// Writes a day of messages that is shaped like a real one: symbols by Zipf's law, most orders short-lived with a long tail that
// stays, prices by a random walk around the middle of each symbol, and ten message types in about the proportions of a real day. The
// same arguments give the same bytes.
//
// Build: g++ -O3 -std=c++20 bench/realday.cc -o realday
// Run:   realday MESSAGES SYMBOLS [SEED] > day.itch
#include <algorithm>
#include <cmath>
#include <cstdint>
#include <cstdio>
#include <cstdlib>
#include <cstring>
#include <vector>

namespace {

constexpr uint64_t HOUR = 3600ull * 1000000000;

// xorshift128+
class Random {
public:
    explicit Random(uint64_t seed) : first(0x9E3779B97F4A7C15ull + seed) {
        for (int i = 0; i < 20; i++) next();
    }
    uint64_t next() {
        uint64_t a = first, b = second;
        first = b;
        a ^= a << 23;
        second = a ^ b ^ (a >> 17) ^ (b >> 26);
        return second + b;
    }
    uint32_t below(uint32_t bound) { return static_cast<uint64_t>(static_cast<uint32_t>(next())) * bound >> 32; }
    double unit() { return static_cast<double>(next() >> 11) * 0x1p-53; }

private:
    uint64_t first, second = 88172645463325252ull;
};

struct Order {
    uint64_t reference;
    uint32_t shares, price;
    uint16_t locate;
    uint8_t side;
};

class Day {
public:
    Day(uint64_t messages, uint32_t symbols, uint64_t seed)
        : random(seed), messages(messages), symbols(symbols), step(16 * HOUR / (messages + 1)), pick(1 << 20), middle(symbols + 1) {
        spread_symbols();
        for (auto &price : middle) price = 50000 + random.below(3000000);
    }

    void write() {
        open();
        while (count < messages) step_once();
        flush();
        fprintf(stderr, "%llu messages, %zu live orders\n", static_cast<unsigned long long>(count), brief.size() + lasting.size());
    }

private:
    Random random;
    uint64_t messages, symbols, step, count = 0, reference = 1000, stamp = 4 * HOUR;
    std::vector<uint32_t> pick, middle;
    std::vector<Order> brief, lasting;
    uint8_t message[64];
    std::vector<uint8_t> out;

    // Locates, repeated according to their rank: `pick` takes one at a random place.
    void spread_symbols() {
        std::vector<double> weight(symbols);
        double total = 0, sum = 0;
        for (uint32_t i = 0; i < symbols; i++) total += weight[i] = 1 / std::pow(i + 3, 0.9);
        size_t place = 0;
        for (uint32_t i = 0; i < symbols; i++)
            for (sum += weight[i]; place < pick.size() && place < sum / total * pick.size();) pick[place++] = i + 1;
        while (place < pick.size()) pick[place++] = symbols;
    }

    static void put(uint8_t *at, uint64_t value, int width) {
        for (int i = width - 1; i >= 0; i--, value >>= 8) at[i] = value;
    }

    void head(char type, uint16_t locate) {
        message[0] = type;
        put(message + 1, locate, 2);
        put(message + 3, random.below(65536), 2);
        put(message + 5, stamp, 6);
        stamp += random.below(2 * step + 1);
    }

    void stock(int offset, uint16_t locate) {
        char name[16];
        snprintf(name, sizeof name, "S%05u  ", locate);
        memcpy(message + offset, name, 8);
    }

    void end(size_t length) {
        if (out.size() > 1 << 20) flush();
        out.push_back(length >> 8);
        out.push_back(length);
        out.insert(out.end(), message, message + length);
        count++;
    }

    void flush() {
        fwrite(out.data(), 1, out.size(), stdout);
        out.clear();
    }

    void event(char code) {
        head('S', 0);
        message[11] = code;
        end(12);
    }

    // The directory, with the trading state and the short sale restriction of each symbol.
    void open() {
        event('O');
        for (uint32_t locate = 1; locate <= symbols; locate++) {
            head('R', locate), stock(11, locate), memcpy(message + 19, "QN\0\0\0dNCZ PNN1N\0\0\0\0N", 20), end(39);
            head('H', locate), stock(11, locate), memcpy(message + 19, "T     ", 6), end(25);
            head('Y', locate), stock(11, locate), message[19] = '0', end(20);
        }
        event('Q');
    }

    uint16_t some_locate() { return pick[random.below(pick.size())]; }

    uint64_t next_reference() { return reference += 1 + random.below(3); }

    void keep(const Order &order) { (random.below(100) < 4 ? lasting : brief).push_back(order); }

    void add() {
        Order order;
        order.locate = some_locate();
        order.reference = next_reference();
        order.side = random.below(2) ? 'B' : 'S';
        order.shares = (1 + random.below(8)) * 100;
        uint32_t &mid = middle[order.locate];
        if (random.below(40) == 0 && mid > 20000) mid += random.below(2) ? 100 : -100;
        uint32_t away = static_cast<uint32_t>(-std::log(random.unit() + 1e-12) * 12) * 100;
        order.price = order.side == 'S' ? mid + 100 + away : mid > away + 100 ? mid - away : 100;
        bool attributed = random.below(100) < 3;
        head(attributed ? 'F' : 'A', order.locate);
        put(message + 11, order.reference, 8);
        message[19] = order.side;
        put(message + 20, order.shares, 4);
        stock(24, order.locate);
        put(message + 32, order.price, 4);
        if (attributed) memcpy(message + 36, "ABCD", 4);
        end(attributed ? 40 : 36);
        keep(order);
    }

    void execute(std::vector<Order> &orders, size_t at) {
        Order order = orders[at];
        uint32_t taken = random.below(3) ? order.shares : 100;
        bool priced = random.below(30) == 0;
        head(priced ? 'C' : 'E', order.locate);
        put(message + 11, order.reference, 8);
        put(message + 19, taken, 4);
        put(message + 23, reference, 8);
        if (priced) message[31] = 'Y', put(message + 32, order.price, 4);
        end(priced ? 36 : 31);
        if (taken == order.shares) drop(orders, at);
        else orders[at].shares -= taken;
    }

    void cancel(Order &order) {
        head('X', order.locate);
        put(message + 11, order.reference, 8);
        put(message + 19, 100, 4);
        end(23);
        order.shares -= 100;
    }

    void replace(std::vector<Order> &orders, size_t at) {
        Order old = orders[at], now = old;
        now.reference = next_reference();
        now.price = old.price + (random.below(2) ? 100 : old.price > 200 ? -100 : 0);
        head('U', old.locate);
        put(message + 11, old.reference, 8);
        put(message + 19, now.reference, 8);
        put(message + 27, now.shares, 4);
        put(message + 31, now.price, 4);
        end(35);
        drop(orders, at);
        keep(now);
    }

    void remove(std::vector<Order> &orders, size_t at) {
        head('D', orders[at].locate);
        put(message + 11, orders[at].reference, 8);
        end(19);
        drop(orders, at);
    }

    void trade() {
        uint16_t locate = some_locate();
        head('P', locate);
        put(message + 11, 0, 8);
        message[19] = 'B';
        put(message + 20, 100, 4);
        stock(24, locate);
        put(message + 32, middle[locate], 4);
        put(message + 36, reference, 8);
        end(44);
    }

    // A Net Order Imbalance Indicator, which is not decoded.
    void imbalance() {
        uint16_t locate = some_locate();
        head('I', locate);
        memset(message + 11, 0, 39);
        stock(28, locate);
        end(50);
    }

    static void drop(std::vector<Order> &orders, size_t at) {
        orders[at] = orders.back();
        orders.pop_back();
    }

    // Picks one of a few recent orders, most of the time.
    size_t some_place(const std::vector<Order> &orders) {
        bool recent = random.below(10) < 8 && orders.size() > 4096;
        return recent ? orders.size() - 1 - random.below(4096) : random.below(orders.size());
    }

    void step_once() {
        uint32_t kind = random.below(1000);
        if (brief.size() < 60000 || kind < 455) return add();
        if (kind >= 992) return imbalance();
        if (kind >= 985) return trade();
        auto &orders = random.below(100) < 96 || lasting.empty() ? brief : lasting;
        size_t at = some_place(orders);
        if (kind < 830) remove(orders, at);
        else if (kind < 900) execute(orders, at);
        else if (kind >= 915) replace(orders, at);
        else if (orders[at].shares > 100) cancel(orders[at]);
    }
};

}

int main(int argc, char **argv) {
    if (argc < 3) {
        fprintf(stderr, "usage: realday MESSAGES SYMBOLS [SEED] > day.itch\n");
        return 2;
    }
    Day(strtoull(argv[1], nullptr, 10), atoi(argv[2]), argc > 3 ? strtoull(argv[3], nullptr, 10) : 1).write();
}
