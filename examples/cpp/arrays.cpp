// Adds two matrices of Eigen by the library, in four parts, into a third one, where they lie; sums it in
// four parts, each a quarter; and asks for what isn't there: c++ -std=c++20 -pthread
// examples/cpp/arrays.cpp -Iinclude -I/usr/include/eigen3 out/libtensor.a -o out/arrays
// (./build/library makes the library). Prints the sum by the library, the same by Eigen, and a fault.

#include <iostream>
#include <numeric>
#include <string>
#include <unsupported/Eigen/CXX11/Tensor>

#include "tensor.hpp"

using Matrix = Eigen::Tensor<std::int64_t, 2>;

// A request for two matrices of 1,000 rows and columns.
static std::string header(const std::string &expr)
{
    return R"({"version":1,"workers":1,"block":4096,"inputs":{"a":{"dims":[1000,1000]},)"
           R"("b":{"dims":[1000,1000]}},"expr":)" +
           expr + "}";
}

static tensor::Values values(const Matrix &it)
{
    return {it.data(), static_cast<std::size_t>(it.size())};
}

// The sum of all values. An answer of one value has one part: so the values are summed as four columns, a
// part each, and the four sums are added. The expression is read once.
static std::int64_t sum(tensor::Values all)
{
    const tensor::Values arrays[] = {all};
    const tensor::Prepared prepared(
        R"({"version":1,"workers":1,"block":4096,"inputs":{"a":{"dims":[250000,4]}},"expr":["sum","a",[0]]})",
        arrays);
    std::int64_t sums[4];
    prepared.run(arrays, sums, 4);
    return std::reduce(sums, sums + 4);
}

int main()
{
    Matrix a(1000, 1000), b(1000, 1000), both(1000, 1000);
    a.setConstant(2);
    b.setConstant(3);
    const tensor::Values arrays[] = {values(a), values(b)};
    const std::span<std::int64_t> out(both.data(), both.size());
    tensor::evaluate(header(R"(["add","a","b"])"), arrays, out, 4);
    std::cout << sum(out) << "\n";
    // Eigen goes on with it where it lies.
    const Eigen::Tensor<std::int64_t, 0> all = Eigen::TensorMap<Matrix>(both.data(), 1000, 1000).sum();
    std::cout << all() << "\n";
    try {
        tensor::evaluate(header(R"(["add","a","c"])"), arrays, out);
    } catch (const tensor::Fault &fault) {
        std::cout << "fault " << fault.number() << " " << fault.what() << "\n";
    }
}
