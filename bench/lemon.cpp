// Times LEMON's network simplex on problems that bench/families.py prints, which this reads from its standard input, and prints a
// line for each as `bench_solver` does. It needs the library's headers alone (Debian: liblemon-dev).
//
// Two times are printed, each the least of some runs: from the costs to the answer, as our solver is timed too, which takes the
// allowed pairs out of the costs and makes the graph that LEMON works on; and of that the run of its simplex alone. With the argument
// `processor` both count the time of the processor, on a busy machine too.

#include <lemon/network_simplex.h>
#include <lemon/smart_graph.h>

#include <algorithm>
#include <chrono>
#include <cstdint>
#include <cstdio>
#include <ctime>
#include <iostream>
#include <string>
#include <vector>

namespace {

using Graph = lemon::SmartDigraph;
using Simplex = lemon::NetworkSimplex<Graph, std::int64_t, std::int64_t>;

constexpr int runs = 2;

// An entry, a tier of a consumer that it is allowed, and what it is charged there.
struct Pair {
  int entry;
  int tier;
  std::int64_t cost;
};

// Some places of a consumer, at a fee for each entry: a column of the graph.
struct Tier {
  int consumer;
  std::int64_t room;
  std::int64_t fee;
};

struct Problem {
  int entries;
  int consumers;
  std::vector<Tier> tiers;
  // A row for each entry, with a cost for each consumer, -1 where it is not allowed.
  std::vector<std::int64_t> costs;
};

// A number of the problem, -1 for a `-`.
std::int64_t read_number() {
  std::string word;
  std::cin >> word;
  return word == "-" ? -1 : std::stoll(word);
}

// The tiers of a consumer, which are one word: its room, or FIRST+NEXT@FEE.
void read_tiers(int consumer, std::vector<Tier>& tiers) {
  std::string word;
  std::cin >> word;
  const std::size_t next = word.find('+');
  tiers.push_back({consumer, std::stoll(word.substr(0, next)), 0});
  if (next == std::string::npos) return;
  const std::size_t fee = word.find('@');
  tiers.push_back({consumer, std::stoll(word.substr(next + 1, fee - next - 1)), std::stoll(word.substr(fee + 1))});
}

// The numbers of a problem, without the first one, which says how often our solver is timed.
Problem read_problem() {
  Problem problem;
  read_number();
  problem.entries = static_cast<int>(read_number());
  problem.consumers = static_cast<int>(read_number());
  for (int consumer = 0; consumer < problem.consumers; ++consumer) read_tiers(consumer, problem.tiers);
  problem.costs.resize(static_cast<std::size_t>(problem.entries) * problem.consumers);
  for (std::int64_t& cost : problem.costs) cost = read_number();
  std::cin.ignore();
  return problem;
}

// The pairs of an entry and a tier that are allowed.
std::vector<Pair> allowed(const Problem& problem) {
  const int tiers = static_cast<int>(problem.tiers.size());
  std::vector<Pair> pairs;
  const std::int64_t* costs = problem.costs.data();
  for (int entry = 0; entry < problem.entries; ++entry, costs += problem.consumers) {
    for (int tier = 0; tier < tiers; ++tier) {
      const std::int64_t cost = costs[problem.tiers[tier].consumer];
      if (cost >= 0) pairs.push_back({entry, tier, cost + problem.tiers[tier].fee});
    }
  }
  return pairs;
}

struct Answer {
  double whole;
  double run;
  std::string text;
};

// Whether times are those of the processor.
bool is_processor_time = false;

// Milliseconds from some moment on.
double now() {
  if (is_processor_time) return 1e3 * std::clock() / CLOCKS_PER_SEC;
  return std::chrono::duration<double, std::milli>(std::chrono::steady_clock::now().time_since_epoch()).count();
}

Answer solve(const Problem& problem) {
  const double start = now();
  const int entries = problem.entries;
  const int tiers = static_cast<int>(problem.tiers.size());
  const std::vector<Pair> pairs = allowed(problem);
  Graph graph;
  graph.reserveNode(entries + tiers);
  graph.reserveArc(static_cast<int>(pairs.size()));
  for (int node = 0; node < entries + tiers; ++node) graph.addNode();
  for (const Pair& pair : pairs) graph.addArc(graph.nodeFromId(pair.entry), graph.nodeFromId(entries + pair.tier));
  Graph::ArcMap<std::int64_t> costs(graph);
  for (std::size_t arc = 0; arc < pairs.size(); ++arc) costs[graph.arcFromId(static_cast<int>(arc))] = pairs[arc].cost;
  Graph::NodeMap<std::int64_t> supplies(graph, 1);
  for (int tier = 0; tier < tiers; ++tier) supplies[graph.nodeFromId(entries + tier)] = -problem.tiers[tier].room;
  Simplex simplex(graph);
  simplex.costMap(costs).supplyMap(supplies).supplyType(Simplex::GEQ);
  const double ready = now();
  const bool is_best = simplex.run() == Simplex::OPTIMAL;
  const double run = now() - ready;
  return {now() - start, run, is_best ? "best, total " + std::to_string(simplex.totalCost<std::int64_t>()) : "none"};
}

void measure(const std::string& family, const Problem& problem) {
  Answer least = solve(problem);
  for (int again = 1; again < runs; ++again) {
    const Answer answer = solve(problem);
    least.whole = std::min(least.whole, answer.whole);
    least.run = std::min(least.run, answer.run);
  }
  std::printf("%s: %.2f ms, %.2f of them the simplex alone, %s\n", family.c_str(), least.whole, least.run, least.text.c_str());
}

}  // namespace

int main(int count, char** words) {
  is_processor_time = count > 1 && std::string(words[1]) == "processor";
  for (std::string family; std::getline(std::cin, family, ':');) measure(family, read_problem());
}
