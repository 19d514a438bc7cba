// A plain walk over the prefixes of a problem's pairs, with all points in a table of bits: what the program's walk is measured
// beside. It reads what `asp.py FILE table` prints, and puts the worlds in order, a line of letters each. Nothing is checked.
#include <cstdint>
#include <cstdio>
#include <cstdlib>
#include <cstring>
#include <string>
#include <vector>

using Row = std::vector<uint64_t>;
static const char LETTERS[] = "=><x!";
static size_t words;

struct Pair { int x, y; std::string allowed; };
struct Frame { Row mask, must; std::vector<Row> open; };

static bool any(const Row& r) { for (auto w : r) if (w) return true; return false; }
static bool meet(const Row& a, const Row& b) { for (size_t i = 0; i < words; i++) if (a[i] & b[i]) return true; return false; }
static bool within(const Row& a, const Row& b) { for (size_t i = 0; i < words; i++) if (a[i] & ~b[i]) return false; return true; }

// Adds a row of which one point has to stay: none, one that must, or one more that is open.
static bool need(Frame& f, const Row& region) {
  Row left(words); size_t count = 0;
  for (size_t i = 0; i < words; i++) { left[i] = region[i] & f.mask[i]; count += __builtin_popcountll(left[i]); }
  if (count == 0) return false;
  if (meet(left, f.must)) return true;
  if (count == 1) { for (size_t i = 0; i < words; i++) f.must[i] |= left[i]; return true; }
  for (auto& o : f.open) if (within(o, left)) return true;
  f.open.push_back(left);
  return true;
}

// The frame after a pair has one relation more, or none where that is dead; whether anything changed.
static bool step(const Frame& f, const Row& x, const Row& y, char rel, Frame& out, bool& changed) {
  Row l(words), b(words), r(words);
  for (size_t i = 0; i < words; i++) { l[i] = x[i] & ~y[i] & f.mask[i]; b[i] = x[i] & y[i] & f.mask[i]; r[i] = y[i] & ~x[i] & f.mask[i]; }
  Row gone(words);
  bool el = rel == '=' || rel == '<', er = rel == '=' || rel == '>', eb = rel == '!';
  for (size_t i = 0; i < words; i++) gone[i] = (el ? l[i] : 0) | (er ? r[i] : 0) | (eb ? b[i] : 0);
  bool ol = rel == '>' || rel == 'x' || rel == '!', orr = rel == '<' || rel == 'x' || rel == '!', ob = rel == 'x';
  if ((ol && !any(l)) || (orr && !any(r)) || (ob && !any(b))) return false;
  if (meet(gone, f.must)) return false;
  changed = any(gone) || (ol && !meet(l, f.must)) || (orr && !meet(r, f.must)) || (ob && !meet(b, f.must));
  if (!changed) return true;
  out.mask = f.mask; out.must = f.must; out.open.clear();
  for (size_t i = 0; i < words; i++) out.mask[i] &= ~gone[i];
  for (auto& o : f.open) if (!need(out, o)) return false;
  if (ol && !need(out, l)) return false;
  if (orr && !need(out, r)) return false;
  if (ob && !need(out, b)) return false;
  for (auto& o : out.open) if (!meet(o, out.mask)) return false;
  return true;
}

int main() {
  int n, points, nonempty;
  if (scanf("%d %d %d", &n, &points, &nonempty) != 3) return 1;
  words = (points + 63) / 64 + (points == 0);
  std::vector<Row> row(n, Row(words));
  for (int p = 0; p < points; p++) {
    int k; scanf("%d", &k);
    while (k--) { int c; scanf("%d", &c); row[c][p / 64] |= 1ull << (p % 64); }
  }
  std::vector<Pair> pairs;
  int x, y; char set[16];
  while (scanf("%d %d %15s", &x, &y, set) == 3) pairs.push_back({x, y, set});
  Frame root; root.mask.assign(words, 0); root.must.assign(words, 0);
  for (int p = 0; p < points; p++) root.mask[p / 64] |= 1ull << (p % 64);
  size_t count = pairs.size(), worlds = 0;
  if (nonempty) for (int c = 0; c < n; c++) if (!need(root, row[c])) { printf("complete 0\n"); return 0; }
  // each pair is narrowed to the relations that are alive by themselves; one that is left alone joins the root
  for (auto& pair : pairs) {
    std::string left; Frame next; bool changed;
    for (char rel : pair.allowed) if (rel != '-' && step(root, row[pair.x], row[pair.y], rel, next, changed)) left += rel;
    if (left.empty()) { printf("complete 0\n"); return 0; }
    if (left.size() == 1 && step(root, row[pair.x], row[pair.y], left[0], next, changed) && changed) root = next;
    pair.allowed = left;
  }
  std::vector<size_t> choice;
  for (size_t k = 0; k < count; k++) if (pairs[k].allowed.size() > 1) choice.push_back(k);
  std::string line(count + 1, '\n');
  for (size_t k = 0; k < count; k++) line[k] = pairs[k].allowed[0];
  struct Level { size_t tried; bool pushed; };
  std::vector<Frame> frames{root};
  std::vector<Level> levels;
  // depth first over the pairs with a choice
  levels.push_back({0, false});
  while (!levels.empty()) {
    size_t d = levels.size() - 1;
    if (d == choice.size()) {
      fwrite(line.data(), 1, line.size(), stdout); worlds++;
      levels.pop_back();
      continue;
    }
    Level& at = levels.back();
    if (at.pushed) { frames.pop_back(); at.pushed = false; }
    Pair& pair = pairs[choice[d]];
    if (at.tried == pair.allowed.size()) { levels.pop_back(); continue; }
    char rel = pair.allowed[at.tried++];
    Frame next; bool changed = false;
    if (!step(frames.back(), row[pair.x], row[pair.y], rel, next, changed)) continue;
    line[choice[d]] = rel;
    if (changed) { frames.push_back(std::move(next)); at.pushed = true; }
    levels.push_back({0, false});
  }
  printf("complete %zu\n", worlds);
  return 0;
}
