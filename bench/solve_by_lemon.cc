// Solves a minimum-cost flow problem in the DIMACS format by LEMON's network simplex or cost scaling, and prints what was found on
// standard output and the seconds of solving alone, processor time, on standard error. For bench/run_solvers.
#include <lemon/cost_scaling.h>
#include <lemon/dimacs.h>
#include <lemon/network_simplex.h>
#include <lemon/smart_graph.h>
#include <time.h>
#include <fstream>
#include <iostream>
#include <limits>
#include <string>

using namespace lemon;
typedef long long Number;

// Processor time, as LEMON's own timer has it only in hundredths of a second.
double seconds() {
    timespec now;
    clock_gettime(CLOCK_PROCESS_CPUTIME_ID, &now);
    return now.tv_sec + now.tv_nsec / 1e9;
}

struct Problem {
    SmartDigraph graph;
    SmartDigraph::ArcMap<Number> low, cap, cost;
    SmartDigraph::NodeMap<Number> supply;
    Problem() : low(graph), cap(graph), cost(graph), supply(graph) {}
};

template <typename Solver>
bool solve(Problem &problem, Number &value) {
    double start = seconds();
    Solver solver(problem.graph);
    solver.lowerMap(problem.low).upperMap(problem.cap).costMap(problem.cost).supplyMap(problem.supply);
    bool found = solver.run() == Solver::OPTIMAL;
    std::cerr << seconds() - start << "\n";
    if (found) value = solver.template totalCost<Number>();
    return found;
}

int main(int count, char **words) {
    if (count != 3) {
        std::cerr << "usage: solve_by_lemon simplex|scaling PROBLEM\n";
        return 2;
    }
    Problem problem;
    std::ifstream file(words[2]);
    DimacsDescriptor kind = dimacsType(file);
    Number infinite = std::numeric_limits<Number>::max();
    readDimacsMin(file, problem.graph, problem.low, problem.cap, problem.cost, problem.supply, infinite, kind);
    Number value = 0;
    bool found = std::string(words[1]) == "simplex" ? solve<NetworkSimplex<SmartDigraph, Number, Number> >(problem, value)
                                                    : solve<CostScaling<SmartDigraph, Number, Number> >(problem, value);
    if (found) std::cout << "s " << value << "\n";
    else std::cout << "no flow\n";
    return 0;
}
