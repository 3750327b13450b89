// The books and tiles on which the solvers are compared. All are drawn by one generator from a family's own seeds.
#pragma once
#include <algorithm>
#include <cmath>
#include <cstdint>
#include <set>
#include <string>
#include <utility>
#include <vector>

namespace families {

constexpr long long binding = 8'000'000'000;

struct Random {
  uint64_t state;
  explicit Random(uint64_t seed) : state(seed * 0x9e3779b97f4a7c15u + 1) {}
  uint64_t next() {
    state ^= state << 13;
    state ^= state >> 7;
    state ^= state << 17;
    return state;
  }
  int below(int bound) { return next() % bound; }
};

struct Book {
  std::vector<uint32_t> earning, cost;
  // in the order of the entries that need
  std::vector<std::pair<int, int>> needs;
};

struct Tile {
  int width, height;
  std::vector<unsigned char> costs;
};

struct Family {
  std::string name;
  std::vector<Book> books;
  std::vector<Tile> tiles;
};

inline void put(std::vector<unsigned char>& bytes, uint32_t value, int count) {
  for (int shift = 8 * (count - 1); shift >= 0; shift -= 8) bytes.push_back(value >> shift);
}

// The order sheet of a book: a record an entry, of a map byte and then the fields whose bit stands.
inline std::vector<unsigned char> sheet_of(const Book& book) {
  std::vector<unsigned char> bytes;
  size_t next = 0;
  for (size_t entry = 0; entry < book.earning.size(); entry++) {
    size_t end = next;
    while (end < book.needs.size() && book.needs[end].first == int(entry)) end++;
    const int needs = end - next;
    bytes.push_back((book.earning[entry] > 0) | (book.cost[entry] > 0) << 1 | ((1 << needs) - 1) << 2);
    if (book.earning[entry] > 0) put(bytes, book.earning[entry], 4);
    if (book.cost[entry] > 0) put(bytes, book.cost[entry], 4);
    for (; next < end; next++) put(bytes, book.needs[next].second, 2);
  }
  return bytes;
}

inline uint32_t get(const std::vector<unsigned char>& bytes, size_t& at, int count) {
  uint32_t value = 0;
  for (; count > 0; count--) value = value << 8 | bytes[at++];
  return value;
}

// Reads a sheet that is known to be well formed.
template <typename Entry, typename Need>
void read_sheet(const std::vector<unsigned char>& bytes, Entry entry, Need need) {
  int number = 0;
  for (size_t at = 0; at < bytes.size(); number++) {
    const int map = bytes[at++];
    const uint32_t earning = map & 1 ? get(bytes, at, 4) : 0;
    const uint32_t cost = map & 2 ? get(bytes, at, 4) : 0;
    entry(number, earning, cost);
    for (int bits = map >> 2; bits != 0; bits >>= 1) need(number, int(get(bytes, at, 2)));
  }
}

inline void add_needs(Book& book, int entry, std::set<int> needed) {
  needed.erase(entry);
  for (int other : needed) book.needs.push_back({entry, other});
}

// Many jobs to a set-up: a tenth of the entries are set-ups that only cost, and each job needs from one to four of them.
inline Book jobs(int entries, uint64_t seed) {
  Random random(seed);
  Book book;
  const int setups = std::max(4, entries / 10);
  for (int entry = 0; entry < entries; entry++) {
    const bool is_setup = entry < setups;
    book.earning.push_back(is_setup ? 0 : 1 + random.below(1000));
    book.cost.push_back(is_setup ? 1 + random.below(20000) : random.below(200));
    if (is_setup) continue;
    std::set<int> needed;
    for (int many = 1 + random.below(4); many > 0; many--) needed.insert(random.below(setups));
    add_needs(book, entry, needed);
  }
  return book;
}

// Long chains of needs: each entry needs the next of its chain, and some need one further on.
inline Book chains(int entries, uint64_t seed) {
  Random random(seed);
  Book book;
  const int length = 100;
  for (int entry = 0; entry < entries; entry++) {
    book.earning.push_back(random.below(3) == 0 ? 1 + random.below(1000) : 0);
    book.cost.push_back(random.below(3) == 0 ? 1 + random.below(1000) : 0);
    std::set<int> needed;
    if (entry % length + 1 < length && entry + 1 < entries) needed.insert(entry + 1);
    if (random.below(10) == 0 && entry + length < entries) needed.insert(entry + length);
    add_needs(book, entry, needed);
  }
  return book;
}

// A page of greys, priced as prepress prices it: what is black is cheap as line, and neighbours of like grey are dear to part.
inline Tile priced(int side, const std::vector<int>& grey) {
  Tile tile{side, side, {}};
  const auto penalty = [&](int a, int b) { return (255 - std::abs(grey[a] - grey[b])) / 4; };
  for (int pixel = 0; pixel < side * side; pixel++) {
    tile.costs.push_back(grey[pixel]);
    tile.costs.push_back(255 - grey[pixel]);
    tile.costs.push_back(pixel % side + 1 < side ? penalty(pixel, pixel + 1) : 0);
    tile.costs.push_back(pixel / side + 1 < side ? penalty(pixel, pixel + side) : 0);
  }
  return tile;
}

// Costs and penalties drawn at random.
inline Tile noise(int side, uint64_t seed) {
  Random random(seed);
  Tile tile{side, side, {}};
  for (int pixel = 0; pixel < side * side; pixel++) {
    tile.costs.push_back(random.below(256));
    tile.costs.push_back(random.below(256));
    tile.costs.push_back(pixel % side + 1 < side ? random.below(256) : 0);
    tile.costs.push_back(pixel / side + 1 < side ? random.below(256) : 0);
  }
  return tile;
}

inline int clamp(int grey) { return std::min(255, std::max(0, grey)); }

// Strokes of letters on pale paper, with the grain of a scan.
inline Tile text(int side, uint64_t seed) {
  Random random(seed);
  std::vector<int> grey(side * side);
  for (int& g : grey) g = 200;
  for (int top = 4; top + 8 < side; top += 12) {
    for (int left = 3; left + 6 < side; left += 8) {
      for (int stroke = 0; stroke < 4; stroke++) {
        const bool upright = random.below(2);
        const int from = random.below(3), at = random.below(6);
        for (int step = from; step < 7; step++) {
          const int x = left + (upright ? at : step), y = top + (upright ? step : at);
          if (x < side && y < side) grey[y * side + x] = 50;
        }
      }
    }
  }
  std::vector<int> blurred(grey);
  for (int y = 1; y + 1 < side; y++)
    for (int x = 1; x + 1 < side; x++) {
      int sum = 0;
      for (int dy = -1; dy <= 1; dy++)
        for (int dx = -1; dx <= 1; dx++) sum += grey[(y + dy) * side + x + dx];
      blurred[y * side + x] = (sum + 7 * grey[y * side + x]) / 16;
    }
  for (int& g : blurred) g = clamp(g + random.below(61) - 30);
  return priced(side, blurred);
}

// Long thin lines, a little darker than the ground.
inline Tile lines(int side, uint64_t seed) {
  Random random(seed);
  std::vector<int> grey(side * side);
  for (int& g : grey) g = clamp(150 + random.below(41) - 20);
  for (int line = 0; line < side / 6; line++) {
    double x = random.below(side), y = 0;
    const double slope = (random.below(200) - 100) / 60.0;
    for (; y < side; y += 0.5, x += slope / 2)
      if (x >= 0 && x < side) grey[int(y) * side + int(x)] = clamp(90 + random.below(41) - 20);
  }
  return priced(side, grey);
}

// A spiral corridor from the middle to the edge: the source pays at one end, the sink at the other, and what is between is joined well
// along the corridor and hardly across its walls.
inline Tile spiral(int side, uint64_t seed) {
  Random random(seed);
  std::vector<int> order(side * side, -1);
  // the pixels of the corridor, numbered from the outside in, with walls of one pixel between its turns
  int x = 0, y = 0, dx = 1, dy = 0, number = 0;
  const auto inside = [&](int a, int b) { return a >= 0 && a < side && b >= 0 && b < side; };
  const auto taken = [&](int a, int b) { return !inside(a, b) || order[b * side + a] >= 0; };
  while (true) {
    order[y * side + x] = number++;
    const auto blocked = [&] {
      return !inside(x + dx, y + dy) || (inside(x + 2 * dx, y + 2 * dy) && order[(y + 2 * dy) * side + x + 2 * dx] >= 0) ||
             order[(y + dy) * side + x + dx] >= 0;
    };
    if (blocked()) {
      std::swap(dx, dy);
      dx = -dx;
      if (blocked() || taken(x + dx, y + dy)) break;
    }
    x += dx;
    y += dy;
  }
  Tile tile{side, side, {}};
  const auto on = [&](int pixel) { return order[pixel] >= 0; };
  const auto penalty = [&](int a, int b) { return on(a) && on(b) ? 150 + random.below(100) : on(a) || on(b) ? random.below(2) : 1 + random.below(20); };
  for (int pixel = 0; pixel < side * side; pixel++) {
    const bool first = on(pixel) && order[pixel] < number / 8, last = on(pixel) && order[pixel] > number - number / 8;
    tile.costs.push_back(first ? random.below(64) : 0);
    tile.costs.push_back(last ? random.below(64) : 0);
    tile.costs.push_back(pixel % side + 1 < side ? penalty(pixel, pixel + 1) : 0);
    tile.costs.push_back(pixel / side + 1 < side ? penalty(pixel, pixel + side) : 0);
  }
  return tile;
}

inline Family books(std::string name, Book (*draw)(int, uint64_t), int entries, int many) {
  Family family{name, {}, {}};
  for (int seed = 1; seed <= many; seed++) family.books.push_back(draw(entries, seed));
  return family;
}

inline Family tiles(std::string name, Tile (*draw)(int, uint64_t), int side, int many) {
  Family family{name, {}, {}};
  for (int seed = 1; seed <= many; seed++) family.tiles.push_back(draw(side, seed));
  return family;
}

// The families that are compared.
inline std::vector<Family> all() {
  return {
      books("jobs-300", jobs, 300, 20), books("jobs-4096", jobs, 4096, 10), books("chains-300", chains, 300, 20),
      books("chains-4096", chains, 4096, 10), tiles("noise", noise, 64, 20), tiles("text", text, 64, 20),
      tiles("lines", lines, 64, 20), tiles("spiral", spiral, 64, 20),
  };
}

// Books and tiles of growing size.
inline std::vector<Family> growing() {
  std::vector<Family> made;
  for (int nodes = 64; nodes <= 4096; nodes *= 2) {
    made.push_back(books("jobs", jobs, nodes, 10));
    made.push_back(books("chains", chains, nodes, 10));
  }
  for (int side : {8, 11, 16, 23, 32, 45, 64}) {
    made.push_back(tiles("noise", noise, side, 10));
    made.push_back(tiles("text", text, side, 10));
    made.push_back(tiles("lines", lines, side, 10));
    made.push_back(tiles("spiral", spiral, side, 10));
  }
  return made;
}

}  // namespace families
