// Compares the library's processor time and memory with those of libmaxflow, Boost and LEMON, on the same books and tiles.
//
// Each solver starts from the same plain description (for the library: the bytes of a sheet, or of a tile's costs), builds its own
// network, finds the cheapest cost and tells each node's side. A family's time is the sum over its instances of the best of several
// turns. All must agree on the cheapest cost.
#include <boost/graph/adjacency_list.hpp>
#include <boost/graph/boykov_kolmogorov_max_flow.hpp>
#include <lemon/preflow.h>
#include <lemon/smart_graph.h>
#include <maxflow/graph.cpp>

#include <algorithm>
#include <cstdio>
#include <cstdlib>
#include <ctime>
#include <functional>
#include <string>
#include <vector>

#include "../crates/cheapest/cheapest.h"
#include "families.h"
#include "memory.h"

namespace {

using families::Family;

// What every solver starts from: the bytes of a sheet, or of a tile's costs.
struct Instance {
  int nodes = 0, edges = 0;
  std::vector<unsigned char> bytes;
  // of a tile; 0 for a book
  int width = 0;
};

// Tells the terminal residuals and the edges of an instance to a solver's own network, one after another.
template <typename Node, typename Edge>
void tell(const Instance& instance, Node node, Edge edge) {
  if (instance.width == 0) {
    families::read_sheet(instance.bytes, node, [&](int needing, int needed) { edge(needing, needed, families::binding, 0); });
    return;
  }
  for (int pixel = 0; pixel < instance.nodes; pixel++) {
    const unsigned char* four = &instance.bytes[4 * pixel];
    node(pixel, four[1], four[0]);
  }
  for (int pixel = 0; pixel < instance.nodes; pixel++) {
    const unsigned char* four = &instance.bytes[4 * pixel];
    if (pixel % instance.width + 1 < instance.width) edge(pixel, pixel + 1, four[2], four[2]);
    if (pixel + instance.width < instance.nodes) edge(pixel, pixel + instance.width, four[3], four[3]);
  }
}

// Each solver answers the cheapest cost and writes each node's side.
using Solver = std::function<long long(const Instance&, std::vector<unsigned char>&)>;

long long by_library(const Instance& instance, std::vector<unsigned char>& sides) {
  if (instance.width > 0)
    return cheapest_split(instance.width, instance.nodes / instance.width, instance.bytes.data(), instance.bytes.size(), sides.data(), sides.size()).energy;
  return cheapest_plan(instance.bytes.data(), instance.bytes.size(), sides.data(), sides.size()).least;
}

template <typename Amount>
long long by_libmaxflow(const Instance& instance, std::vector<unsigned char>& sides) {
  using Graph = maxflow::Graph<Amount, Amount, Amount>;
  Graph graph(instance.nodes, instance.edges);
  graph.add_node(instance.nodes);
  tell(
      instance, [&](int node, long long source, long long sink) { graph.add_tweights(node, source, sink); },
      [&](int tail, int head, long long forward, long long back) { graph.add_edge(tail, head, forward, back); });
  const long long cost = graph.maxflow();
  for (int node = 0; node < instance.nodes; node++) sides[node] = graph.what_segment(node) == Graph::SOURCE;
  return cost;
}

long long by_boost(const Instance& instance, std::vector<unsigned char>& sides) {
  using namespace boost;
  using Traits = adjacency_list_traits<vecS, vecS, directedS>;
  using Graph = adjacency_list<
      vecS, vecS, directedS,
      property<vertex_index_t, long,
               property<vertex_color_t, default_color_type,
                        property<vertex_distance_t, long, property<vertex_predecessor_t, Traits::edge_descriptor>>>>,
      property<edge_capacity_t, long long,
               property<edge_residual_capacity_t, long long, property<edge_reverse_t, Traits::edge_descriptor>>>>;
  Graph graph(instance.nodes + 2);
  const int s = instance.nodes, t = s + 1;
  auto capacity = get(edge_capacity, graph);
  auto reverse = get(edge_reverse, graph);
  const auto join = [&](int tail, int head, long long forward, long long back) {
    const auto a = add_edge(tail, head, graph).first;
    const auto b = add_edge(head, tail, graph).first;
    capacity[a] = forward;
    capacity[b] = back;
    reverse[a] = b;
    reverse[b] = a;
  };
  tell(
      instance,
      [&](int node, long long source, long long sink) {
        if (source > 0) join(s, node, source, 0);
        if (sink > 0) join(node, t, sink, 0);
      },
      join);
  const long long cost = boykov_kolmogorov_max_flow(graph, s, t);
  auto color = get(vertex_color, graph);
  for (int node = 0; node < instance.nodes; node++) sides[node] = color[node] == color[s];
  return cost;
}

long long by_lemon(const Instance& instance, std::vector<unsigned char>& sides) {
  using Graph = lemon::SmartDigraph;
  Graph graph;
  graph.reserveNode(instance.nodes + 2);
  graph.reserveArc(2 * (instance.nodes + instance.edges));
  Graph::ArcMap<long long> capacity(graph);
  std::vector<Graph::Node> nodes;
  for (int node = 0; node < instance.nodes + 2; node++) nodes.push_back(graph.addNode());
  const auto s = nodes[instance.nodes], t = nodes[instance.nodes + 1];
  const auto add = [&](Graph::Node tail, Graph::Node head, long long amount) {
    if (amount > 0) capacity[graph.addArc(tail, head)] = amount;
  };
  tell(
      instance,
      [&](int node, long long source, long long sink) {
        add(s, nodes[node], source);
        add(nodes[node], t, sink);
      },
      [&](int tail, int head, long long forward, long long back) {
        add(nodes[tail], nodes[head], forward);
        add(nodes[head], nodes[tail], back);
      });
  lemon::Preflow<Graph, Graph::ArcMap<long long>> preflow(graph, capacity, s, t);
  preflow.runMinCut();
  for (int node = 0; node < instance.nodes; node++) sides[node] = preflow.minCut(nodes[node]);
  return preflow.flowValue();
}

double processor_time() {
  timespec now;
  clock_gettime(CLOCK_PROCESS_CPUTIME_ID, &now);
  return now.tv_sec + now.tv_nsec * 1e-9;
}

struct Measured {
  double seconds = 0;
  size_t bytes = 0;
  std::vector<long long> costs;
};

Measured measure(const Solver& solver, const std::vector<Instance>& instances, int turns) {
  Measured all;
  for (const Instance& instance : instances) {
    std::vector<unsigned char> sides(instance.nodes);
    double best = 1e9;
    long long cost = 0;
    memory::begin();
    for (int turn = 0; turn < turns; turn++) {
      const double from = processor_time();
      cost = solver(instance, sides);
      best = std::min(best, processor_time() - from);
    }
    all.bytes = std::max(all.bytes, memory::most());
    all.seconds += best;
    all.costs.push_back(cost);
  }
  return all;
}

Measured measure_libmaxflow(const Family& family, const std::vector<Instance>& instances, int turns) {
  // an amount of a book needs more than 32 bits
  return measure(family.books.empty() ? Solver(by_libmaxflow<int>) : Solver(by_libmaxflow<long long>), instances, turns);
}

std::vector<Instance> instances_of(const Family& family) {
  std::vector<Instance> instances;
  for (const auto& book : family.books)
    instances.push_back({int(book.earning.size()), int(book.needs.size()), families::sheet_of(book)});
  for (const auto& tile : family.tiles) {
    const int pixels = tile.width * tile.height;
    instances.push_back({pixels, 2 * pixels, tile.costs, tile.width});
  }
  return instances;
}

bool agrees(const Family& family, const Measured& ours, const Measured& other) {
  if (other.costs == ours.costs) return true;
  printf("%s: the costs differ\n", family.name.c_str());
  return false;
}

// Runs the solvers that are compared most closely once on the largest instances, so that the heap has grown before time is taken.
void warm_up() {
  for (const Family& family : families::all()) {
    const auto instances = instances_of(family);
    const std::vector<Instance> first(instances.begin(), instances.begin() + 1);
    measure(by_library, first, 1);
    measure_libmaxflow(family, first, 1);
  }
}

// Compares all solvers on every family.
bool compare(int turns, const std::string& only) {
  bool agree = true;
  printf("%-12s %9s %9s %7s %7s %7s %7s %7s %7s\n", "family", "us each", "libmax.", "ratio", "/boost", "/lemon", "KiB", "libmax.", "ratio");
  for (const Family& family : families::all()) {
    if (family.name.find(only) == std::string::npos) continue;
    const auto instances = instances_of(family);
    const Measured ours = measure(by_library, instances, turns);
    const Measured theirs = measure_libmaxflow(family, instances, turns);
    const Measured boost = measure(by_boost, instances, std::min(turns, 3));
    const Measured lemon = measure(by_lemon, instances, std::min(turns, 3));
    for (const Measured* other : {&theirs, &boost, &lemon}) agree = agrees(family, ours, *other) && agree;
    const double each = 1e6 / instances.size();
    printf("%-12s %9.1f %9.1f %7.2f %7.2f %7.2f %7zu %7zu %7.2f\n", family.name.c_str(), ours.seconds * each, theirs.seconds * each,
           ours.seconds / theirs.seconds, ours.seconds / boost.seconds, ours.seconds / lemon.seconds, ours.bytes / 1024,
           theirs.bytes / 1024, double(ours.bytes) / theirs.bytes);
    fflush(stdout);
  }
  return agree;
}

// How time grows with the nodes, one line a size: the kind of instance, the nodes, and the microseconds of the library and libmaxflow.
bool grow(int turns) {
  bool agree = true;
  for (const Family& family : families::growing()) {
    const auto instances = instances_of(family);
    const Measured ours = measure(by_library, instances, turns);
    const Measured theirs = measure_libmaxflow(family, instances, turns);
    agree = agrees(family, ours, theirs) && agree;
    const double each = 1e6 / instances.size();
    printf("%s %d %.2f %.2f\n", family.name.c_str(), instances[0].nodes, ours.seconds * each, theirs.seconds * each);
    fflush(stdout);
  }
  return agree;
}

}  // namespace

// compare TURNS [FAMILY] | compare TURNS growth
int main(int count, char** words) {
  const int turns = count > 1 ? atoi(words[1]) : 15;
  const std::string only = count > 2 ? words[2] : "";
  warm_up();
  return (only == "growth" ? grow(turns) : compare(turns, only)) ? 0 : 1;
}
