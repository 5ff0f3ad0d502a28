/* What the programs over Eigen of bench/arrays and bench/sizes share: views of arrays that lie in memory,
   column-major, and rounds on so many workers. */

#pragma once

#define EIGEN_USE_THREADS
#include <string>
#include <unsupported/Eigen/CXX11/Tensor>
#include <unsupported/Eigen/CXX11/ThreadPool>
#include <vector>

#include "rounds.h"

using Index = Eigen::Index;
template <int RANK>
using Tensor = Eigen::Tensor<std::int64_t, RANK, Eigen::ColMajor, Index>;
template <int RANK>
using View = Eigen::TensorMap<Tensor<RANK>>;

// Times rounds over so many values, after one that isn't counted, into an array that is kept:
// `evaluate` has the values, the array and a device, and gives how many values the answer has.
template <typename Device, typename Evaluate>
void time_on(const Device& device, Index size, int rounds, Evaluate evaluate) {
  std::vector<std::int64_t> values(size), out(size);
  std::vector<double> times(rounds);
  fill(values.data(), values.size());
  Index count = 0;
  for (int round = -1; round < rounds; round++) {
    const std::int64_t start = now();
    count = evaluate(values.data(), out.data(), device);
    if (round >= 0) times[round] = static_cast<double>(now() - start);
  }
  report(times.data(), rounds, out.data(), count);
}

// The same on the default device, where there is one worker, and else on a pool.
template <typename Evaluate>
void time_with(int workers, Index size, int rounds, Evaluate evaluate) {
  if (workers == 1) {
    time_on(Eigen::DefaultDevice(), size, rounds, evaluate);
  } else {
    Eigen::ThreadPool pool(workers);
    time_on(Eigen::ThreadPoolDevice(&pool, workers), size, rounds, evaluate);
  }
}
