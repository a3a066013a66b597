// The programs that the planner is compared with: three methods of LEMON, of which an argument names one.
//
//   peer network-simplex | cost-scaling | successive-paths
//
// Reads a network text from standard input and prints a cheapest plan, of the cheapest ones one that
// carries the fewest bikes over all legs together, as the planner prints it: `s CENTS` and a line `f SRC DST BIKES`
// for each leg. Prints `c refused 15 0` if there is no plan. The text is taken to be without fault.

#include <cstdint>
#include <cstdio>
#include <cstdlib>
#include <cstring>
#include <vector>

#include <lemon/capacity_scaling.h>
#include <lemon/cost_scaling.h>
#include <lemon/network_simplex.h>
#include <lemon/static_graph.h>

typedef lemon::StaticDigraph Graph;

// More than all legs can carry together: 3,000 legs with 500 bikes each.
static const std::int64_t BIG = std::int64_t(1) << 21;

struct Leg {
  int source, end, capacity, cents;
};

static char text[1 << 17];
static const char* at = text;

static int number() {
  while (*at == ' ') ++at;
  bool below = *at == '-';
  if (below) ++at;
  int value = 0;
  while (*at >= '0' && *at <= '9') value = value * 10 + (*at++ - '0');
  return below ? -value : value;
}

// A network as LEMON takes it: the graph wants its arcs ordered by source, so arc[] says which one a leg is.
struct Problem {
  Graph graph;
  std::vector<int> arc;
  Graph::ArcMap<int> capacity;
  Graph::ArcMap<std::int64_t> cost;
  Graph::NodeMap<int> supply;

  Problem() : capacity(graph), cost(graph), supply(graph) {}
};

// Plans by a method, with the argument that its run takes, if any: the bikes of each leg, or false if there is no plan.
template <class Method, class... Argument>
static bool plan(const Problem& problem, std::vector<int>& bikes, Argument... argument) {
  Method method(problem.graph);
  method.upperMap(problem.capacity).costMap(problem.cost).supplyMap(problem.supply);
  if (method.run(argument...) != Method::OPTIMAL) return false;
  for (std::size_t k = 0; k < bikes.size(); ++k) bikes[k] = method.flow(problem.graph.arc(problem.arc[k]));
  return true;
}

static bool plan_by(const char* name, const Problem& problem, std::vector<int>& bikes) {
  if (std::strcmp(name, "network-simplex") == 0)
    return plan<lemon::NetworkSimplex<Graph, int, std::int64_t> >(problem, bikes);
  if (std::strcmp(name, "cost-scaling") == 0)
    return plan<lemon::CostScaling<Graph, int, std::int64_t> >(problem, bikes);
  // Scaled by 1, which is no scaling: cheapest walks one after another.
  if (std::strcmp(name, "successive-paths") == 0)
    return plan<lemon::CapacityScaling<Graph, int, std::int64_t> >(problem, bikes, 1);
  std::fprintf(stderr, "peer: no method %s\n", name);
  std::exit(2);
}

static char* digits(char* to, std::int64_t value) {
  char turned[20];
  int count = 0;
  do {
    turned[count++] = char('0' + value % 10);
    value /= 10;
  } while (value != 0);
  while (count > 0) *to++ = turned[--count];
  return to;
}

int main(int, char** arguments) {
  std::size_t length = std::fread(text, 1, sizeof text - 1, stdin);
  text[length] = 0;
  const char* over = text + length;

  int stations = 0;
  std::vector<int> balance;
  std::vector<Leg> legs;
  while (at < over) {
    char kind = *at++;
    if (kind == 'p') {
      at += 4;
      stations = number();
      balance.assign(stations, 0);
      legs.reserve(number());
    } else if (kind == 'n') {
      int station = number();
      balance[station - 1] = number();
    } else if (kind == 'a') {
      Leg leg;
      leg.source = number() - 1;
      leg.end = number() - 1;
      number();
      leg.capacity = number();
      leg.cents = number();
      legs.push_back(leg);
    }
    while (at < over && *at != '\n') ++at;
    ++at;
  }

  int count = int(legs.size());
  Problem problem;
  std::vector<int> next(stations + 1, 0);
  for (int k = 0; k < count; ++k) ++next[legs[k].source + 1];
  for (int v = 0; v < stations; ++v) next[v + 1] += next[v];
  std::vector<std::pair<int, int> > ends(count);
  problem.arc.resize(count);
  for (int k = 0; k < count; ++k) {
    problem.arc[k] = next[legs[k].source]++;
    ends[problem.arc[k]] = std::make_pair(legs[k].source, legs[k].end);
  }
  problem.graph.build(stations, ends.begin(), ends.end());
  for (int k = 0; k < count; ++k) {
    Graph::Arc arc = problem.graph.arc(problem.arc[k]);
    problem.capacity[arc] = legs[k].capacity;
    problem.cost[arc] = legs[k].cents * BIG + 1;
  }
  std::int64_t sum = 0;
  for (int v = 0; v < stations; ++v) {
    problem.supply[problem.graph.node(v)] = balance[v];
    sum += balance[v];
  }

  std::vector<int> bikes(count);
  if (!plan_by(arguments[1] ? arguments[1] : "", problem, bikes) || sum != 0) {
    std::fputs("c refused 15 0\n", stdout);
    return 0;
  }

  std::int64_t cents = 0;
  for (int k = 0; k < count; ++k) cents += std::int64_t(bikes[k]) * legs[k].cents;
  std::vector<char> out(64 + std::size_t(count) * 20);
  char* to = out.data();
  *to++ = 's';
  *to++ = ' ';
  to = digits(to, cents);
  *to++ = '\n';
  for (int k = 0; k < count; ++k) {
    *to++ = 'f';
    *to++ = ' ';
    to = digits(to, legs[k].source + 1);
    *to++ = ' ';
    to = digits(to, legs[k].end + 1);
    *to++ = ' ';
    to = digits(to, bikes[k]);
    *to++ = '\n';
  }
  std::fwrite(out.data(), 1, std::size_t(to - out.data()), stdout);
  return 0;
}
