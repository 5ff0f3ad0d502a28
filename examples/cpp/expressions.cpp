// Writes expressions with operators, and evaluates them over arrays: c++ -std=c++20 -pthread
// examples/cpp/expressions.cpp -Iinclude out/libtensor.a -o out/expressions (./build/library makes the
// library). Prints the squared distances of two points from each of three, and the nearest; then a fault.

#include <cstdint>
#include <iostream>
#include <vector>

#include "tensor.hpp"

// The values of an expression over two arrays, on two threads.
static std::vector<std::int64_t> values(const tensor::Expr &expr, tensor::Values points, tensor::Values others)
{
    const std::string header = expr.header();
    const tensor::Values arrays[] = {points, others};
    std::size_t count = 1;
    for (const std::uint64_t it : tensor::dims(header, points.size() + others.size()))
        count *= it;
    std::vector<std::int64_t> out(count);
    tensor::evaluate(header, arrays, out, 2);
    return out;
}

int main()
{
    tensor::check_version();
    // Two points and three others, each with two coordinates, which are the first axis.
    const std::vector<std::int64_t> points{0, 0, 3, 4}, others{1, 1, 3, 3, 6, 8};
    const auto p = tensor::input(0, {2, 2}), q = tensor::input(1, {2, 3});
    // Each point beside each of the others: dims {2, 2, 3}.
    const auto between = p.reshape({2, 2, 1}).broadcast({1, 1, 3}) - q.reshape({2, 1, 3}).broadcast({1, 2, 1});
    const auto distances = between.square().sum(0);
    for (const auto &expr : {distances, distances.argmin(1)}) {
        for (const std::int64_t it : values(expr, points, others))
            std::cout << it << " ";
        std::cout << "\n";
    }
    try {
        values(p + q, points, others);
    } catch (const tensor::Fault &fault) {
        std::cout << "fault " << fault.number() << " " << fault.what() << "\n";
    }
}
