// The work of crates/solve_bench in plain C++ over __int128: the same lines in, the same ends out.
#include "fraction.h"

struct Problem { std::vector<std::vector<i128>> rows; std::vector<i128> bounds, target; };
struct Wide { int pivot, row, column; };

// A tableau, and the two phases by Bland's rule; cells that a pivot cannot change are left alone.
struct Tableau {
  int n, m, columns;
  std::vector<F> cells;
  std::vector<int> basis, places;
  F &at(int i, int j) { return cells[(size_t)i * columns + j]; }

  void load(const Problem &p) {
    n = p.target.size(); m = p.rows.size(); columns = n + m + 1;
    std::fill(cells.begin(), cells.begin() + (size_t)(n + 2) * columns, F{0, 1});
    for (int i = 0; i < n; i++) {
      int sign = p.target[i] < 0 ? -1 : 1; basis[i] = m + i;
      for (int j = 0; j < m; j++) at(i, j) = {sign * p.rows[j][i], 1};
      at(i, m + i) = {1, 1}; at(i, n + m) = {sign * p.target[i], 1};
    }
    for (int j = 0; j < m; j++) at(n + 1, j) = {p.bounds[j], 1};
    for (int j = 0; j < columns; j++) if (j < m || j == n + m) {
      F sum{0, 1}; for (int i = 0; i < n; i++) if (!add(sum, at(i, j), sum)) throw Wide{0, n, j};
      at(n, j) = {-sum.num, sum.den};
    }
  }
  void pivot(int number, int l, int c) {
    F *ps = &at(l, 0); F by = ps[c]; places.clear();
    for (int j = 0; j < columns; j++) { if (!divide(ps[j], by, ps[j])) throw Wide{number, l, j}; if (ps[j].num) places.push_back(j); }
    for (int i = 0; i < n + 2; i++) if (i != l) {
      F *x = &at(i, 0); F f = x[c]; if (!f.num) continue;
      for (int j : places) { F p; if (!mul(f, ps[j], p) || !add(x[j], F{-p.num, p.den}, x[j])) throw Wide{number, i, j}; }
    }
    basis[l] = c;
  }
  int entering(int cost) { for (int j = 0; j < m; j++) if (at(cost, j).num < 0) return j; return -1; }
  int leaving(int number, int c) {
    int best = -1; F least{0, 1};
    for (int i = 0; i < n; i++) if (at(i, c).num > 0) {
      F ratio, gap; if (!divide(at(i, n + m), at(i, c), ratio)) throw Wide{number, i, n + m + 1};
      if (best >= 0 && !add(ratio, F{-least.num, least.den}, gap)) throw Wide{number, i, n + m + 1};
      if (best < 0 || gap.num < 0 || (gap.num == 0 && basis[i] < basis[best])) { best = i; least = ratio; }
    }
    return best;
  }
  std::string solve(const Problem &p, int most) {
    int made = 0; load(p);
    for (int c; (c = entering(n)) >= 0;) { if (made == most) return "Err(PivotLimit)"; made++; pivot(made, leaving(made, c), c); }
    if (at(n, n + m).num) return "Ok(NoWeights)";
    for (int i = 0; i < n; i++) if (basis[i] >= m) for (int j = 0; j < m; j++) if (at(i, j).num) {
      if (made == most) return "Err(PivotLimit)";
      made++; pivot(made, i, j); break;
    }
    for (int c; (c = entering(n + 1)) >= 0;) {
      bool falls = true; for (int i = 0; i < n; i++) falls &= at(i, c).num <= 0;
      if (falls) return "Ok(Endless { column: " + std::to_string(c) + " })";
      if (made == most) return "Err(PivotLimit)";
      made++; pivot(made, leaving(made, c), c);
    }
    return "Ok(Least)";
  }
};

static u64 state;
static u64 draw() { return state = next(state); }
static i128 number(u64 filled, u64 top) {
  u64 s = draw(); if ((s >> 20) % 16 >= filled) return 0;
  i128 size = (i128)((s >> 40) % top) + 1; return s % 2 ? -size : size;
}
static Problem problem(int columns, int rows, u64 filled, u64 top) {
  Problem p; p.target.assign(columns, 0);
  for (int j = 0; j < rows; j++) {
    std::vector<i128> c; i128 b = 0;
    for (int i = 0; i < columns; i++) { c.push_back(number(filled, top)); b += c[i] * (1 - i % 3); p.target[i] += c[i]; }
    p.bounds.push_back(b + draw() % 9); p.rows.push_back(c);
  }
  return p;
}

int main() {
  std::string line;
  while (std::getline(std::cin, line)) {
    std::istringstream in(line); u64 filled, top, seed; int columns, rows, most, rounds;
    in >> filled >> top >> columns >> rows >> seed >> most >> rounds;
    state = 88172645463325252ULL ^ seed;
    Problem p = problem(columns, rows, filled, top);
    Tableau t; t.cells.resize((size_t)(columns + 2) * (columns + rows + 1)); t.basis.resize(columns);
    std::string end;
    for (int r = 0; r <= rounds; r++) {
      try { end = t.solve(p, most); }
      catch (Wide w) {
        end = "Err(Wide(WideAt { pivot: " + std::to_string(w.pivot) + ", row: " + std::to_string(w.row) + ", column: " + std::to_string(w.column) + " }))";
      }
    }
    puts(end.c_str());
  }
}
