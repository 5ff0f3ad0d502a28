// The figures of bench/run pools and bench/run loops, of Eigen's non-blocking thread pool.
//
// Each is the shortest and the longest of ROUNDS rounds. As in those benches, a pool's workers
// have had time to park before its jobs are counted.

#define EIGEN_USE_THREADS
#include <unsupported/Eigen/CXX11/Tensor>
#include <unsupported/Eigen/CXX11/ThreadPool>

#include <algorithm>
#include <atomic>
#include <chrono>
#include <cstdio>
#include <memory>
#include <thread>

namespace {

constexpr int JOBS = 100000;
constexpr int ROUNDS = 10;
constexpr auto TO_PARK = std::chrono::milliseconds(2);

using Clock = std::chrono::steady_clock;

double nanoseconds(Clock::duration time) {
  return std::chrono::duration<double, std::nano>(time).count();
}

struct Span {
  double shortest = 1e300;
  double longest = 0;

  void take(double time) {
    shortest = std::min(shortest, time);
    longest = std::max(longest, time);
  }
};

template <typename Work>
Span rounds(Work work) {
  Span span;
  for (int round = 0; round < ROUNDS; ++round) span.take(work());
  return span;
}

// Eigen's pool spins before it parks; spinning is off here, as the pool beside it never spins.
std::unique_ptr<Eigen::ThreadPool> opened(int workers) {
  return std::unique_ptr<Eigen::ThreadPool>(new Eigen::ThreadPool(workers, false));
}

double open_run_close(int workers) {
  const auto begun = Clock::now();
  auto pool = opened(workers);
  Eigen::Barrier done(1);
  pool->Schedule([&done] { done.Notify(); });
  done.Wait();
  pool.reset();
  return nanoseconds(Clock::now() - begun) / 1e3;
}

// A job of so many leaves: it forks the upper half until it has one.
void fork_leaves(Eigen::ThreadPool& pool, Eigen::Barrier& done, int first, int last) {
  while (last - first > 1) {
    const int middle = first + (last - first) / 2;
    pool.Schedule([&pool, &done, middle, last] { fork_leaves(pool, done, middle, last); });
    last = middle;
  }
  done.Notify();
}

double forked(int workers) {
  const auto pool = opened(workers);
  std::this_thread::sleep_for(TO_PARK);
  Eigen::Barrier done(JOBS);
  const auto begun = Clock::now();
  pool->Schedule([&pool, &done] { fork_leaves(*pool, done, 0, JOBS); });
  done.Wait();
  return nanoseconds(Clock::now() - begun) / JOBS;
}

double scheduled(int workers) {
  const auto pool = opened(workers);
  std::this_thread::sleep_for(TO_PARK);
  Eigen::Barrier done(JOBS);
  const auto begun = Clock::now();
  for (int job = 0; job < JOBS; ++job) pool->Schedule([&done] { done.Notify(); });
  done.Wait();
  return nanoseconds(Clock::now() - begun) / JOBS;
}

// parallelFor over so many places in so many leaves, by the device's halving; nothing is worked out.
double halved(int workers, long places, long leaves) {
  Eigen::ThreadPool pool(workers, false);
  Eigen::ThreadPoolDevice device(&pool, workers);
  const long block = places / leaves;
  std::atomic<long> seen(0);
  const auto begun = Clock::now();
  device.parallelFor(
      places, Eigen::TensorOpCost(0, 0, 1e9), [block](long) { return block; },
      [&seen](long first, long last) { seen.fetch_add(last - first, std::memory_order_relaxed); });
  return nanoseconds(Clock::now() - begun) / 1e3;
}

void report(int workers, const char* what, Span span, const char* unit) {
  std::printf("%d workers, %s: %.1f to %.1f %s\n", workers, what, span.shortest, span.longest, unit);
  std::fflush(stdout);
}

}  // namespace

int main() {
  for (int workers : {1, 2, 4}) {
    report(workers, "opened, one job, closed", rounds([=] { return open_run_close(workers); }), "us");
    report(workers, "a job that a job forks", rounds([=] { return forked(workers); }), "ns");
    report(workers, "a job that the caller schedules", rounds([=] { return scheduled(workers); }), "ns");
    report(workers, "a million places in 256 leaves",
           rounds([=] { return halved(workers, 1 << 20, 256); }), "us");
    report(workers, "a million places in 16,384 leaves",
           rounds([=] { return halved(workers, 1 << 20, 1 << 14); }), "us");
  }
}
