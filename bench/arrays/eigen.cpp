// Times Eigen's evaluation of arrays for bench/arrays/run: eigen WHAT WORKERS ROUNDS, on arrays that
// lie in memory already, into one that is kept: nothing is copied. WHAT is one of the names below.

#include "views.h"

namespace {

constexpr Index MANY = 1 << 20, SIDE = 512;

// Evaluates what is asked of these values, and gives how many the answer has.
template <typename Device>
Index evaluate(const std::string& what, std::int64_t* a, std::int64_t* out, const Device& device) {
  if (what == "added" || what == "few") {
    const Index count = what == "few" ? 2 : MANY;
    View<1>(out, count).device(device) = View<1>(a, count) + View<1>(a + count, count);
    return count;
  }
  if (what == "sum") {
    View<0>(out).device(device) = View<1>(a, MANY).sum();
    return 1;
  }
  if (what == "contraction") {
    const Eigen::array<Eigen::IndexPair<Index>, 1> pairs = {Eigen::IndexPair<Index>(1, 0)};
    View<2>(out, SIDE, SIDE).device(device) =
        View<2>(a, SIDE, SIDE).contract(View<2>(a + SIDE * SIDE, SIDE, SIDE), pairs);
    return SIDE * SIDE;
  }
  std::exit(2);
}

}  // namespace

int main(int count, char** words) {
  if (count != 4) return 2;
  const std::string what = words[1];
  time_with(std::atoi(words[2]), 2 * MANY, std::atoi(words[3]),
            [&](std::int64_t* a, std::int64_t* out, const auto& device) {
              return evaluate(what, a, out, device);
            });
  return 0;
}
