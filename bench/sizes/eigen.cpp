// Times Eigen's evaluation of arrays of real size for bench/sizes/run: eigen WHAT POWER WORKERS ROUNDS,
// over 2^POWER values that lie in memory already, into an array that is kept: nothing is copied. WHAT
// is one of the names below.

#include "../arrays/views.h"

namespace {

constexpr Index ROWS = 1024, OUTER = 64, MIDDLE = 128;

// The same as of `evaluate`, along an axis: of one line, of rows, which lie one behind the other, or of
// columns.
template <typename Device>
Index evaluate_along(const std::string& what, std::int64_t* a, Index count, std::int64_t* out,
                     const Device& device) {
  const Index rows = count / ROWS;
  const View<2> matrix(a, ROWS, rows);
  if (what == "cumsum") {
    View<1>(out, count).device(device) = View<1>(a, count).cumsum(0);
    return count;
  }
  if (what == "cumsum-rows" || what == "cumsum-columns") {
    View<2>(out, ROWS, rows).device(device) = matrix.cumsum(what == "cumsum-rows" ? 0 : 1);
    return count;
  }
  if (what == "argmax-rows") {
    View<1>(out, rows).device(device) = matrix.argmax(0);
    return rows;
  }
  if (what == "argmax-columns") {
    View<1>(out, ROWS).device(device) = matrix.argmax(1);
    return ROWS;
  }
  std::exit(2);
}

// Evaluates what is asked of so many values, and gives how many the answer has.
template <typename Device>
Index evaluate(const std::string& what, std::int64_t* a, Index count, std::int64_t* out,
               const Device& device) {
  const View<1> many(a, count);
  const View<2> matrix(a, count / ROWS, ROWS);
  if (what == "chain") {
    View<1>(out, count).device(device) = ((many + many.constant(3)) * many - many.constant(5)) *
                                             many.constant(3) +
                                         (many - many.constant(7)) * many;
    return count;
  }
  if (what == "sum") {
    View<0>(out).device(device) = many.sum();
    return 1;
  }
  if (what == "axis") {
    const Eigen::array<Index, 1> axes = {0};
    View<1>(out, ROWS).device(device) = matrix.sum(axes);
    return ROWS;
  }
  if (what == "shuffle") {
    const Index inner = count / (OUTER * MIDDLE);
    const Eigen::array<Index, 3> axes = {1, 2, 0};
    View<3>(out, MIDDLE, OUTER, inner).device(device) =
        View<3>(a, inner, MIDDLE, OUTER).shuffle(axes);
    return count;
  }
  if (what == "convolution") {
    std::int64_t kernel[] = {1, -2, 3};
    const Eigen::array<Index, 1> axes = {0};
    View<2>(out, count / ROWS - 2, ROWS).device(device) =
        matrix.convolve(View<1>(kernel, 3), axes);
    return count - 2 * ROWS;
  }
  return evaluate_along(what, a, count, out, device);
}

}  // namespace

int main(int count, char** words) {
  if (count != 5) return 2;
  const std::string what = words[1];
  const Index size = Index(1) << std::atoi(words[2]);
  time_with(std::atoi(words[3]), size, std::atoi(words[4]),
            [&](std::int64_t* a, std::int64_t* out, const auto& device) {
              return evaluate(what, a, size, out, device);
            });
  return 0;
}
