// Prints a header for each expression of tests/cases/built.cases, made by the builder of include/tensor.hpp.

#include <iostream>

#include "tensor.hpp"

using tensor::Expr;

// The sum of two inputs eight times, by sums of sums: too many nodes to be written twice.
static Expr eight(const Expr &a, const Expr &b)
{
    const auto once = a + b, twice = once + once, four = twice + twice;
    return four + four;
}

int main()
{
    const auto a = tensor::input(0, {2, 3}), b = tensor::input(1, {2, 3}), c = tensor::input(2, {3, 2});
    const auto sums = a.sum(1), product = a.matmul(c), less = product * product - product;
    const auto times = eight(a, b);
    const Expr all[] = {
        -a, !a, ~a, a.bit_count(), a.abs(), a.square(),
        a + b, a - b, a * b, a / b, a % b,
        a < b, a <= b, a == b, a != b, a > b, a >= b,
        a && b, a || b, a & b, a | b, a ^ b, a << b, a >> b,
        cwise_max(a, b), cwise_min(a, b),
        a * 3 + b, 7u - c, -9 >> b.abs(), b.constant(INT64_MIN), select(a < b, a, 0),
        a.broadcast({2, 1}), a.slice({0, 1}, {2, 2}), a.shuffle({1, 0}), a.reshape(6), a.stride({1, 2}),
        a.pad({{1, 0}, {0, 2}}), a.chip(1, 0), a.reverse({true, false}), a.concat(b, 1),
        a.sum(0), a.prod({0, 1}), a.maximum(1), a.minimum({1}), a.all({}), b.any(0),
        a.cumsum(1), a.cumprod(0), a.argmax(1), b.argmin(0),
        a.contract(b, {{0, 0}, {1, 1}}), product, a.convolve(c.slice({0, 0}, {2, 2}), {0, 1}),
        a.take(c.chip(0, 1) && 1, 0),
        sums + 1, less.contract(less, {{1, 0}}), times * times,
    };
    for (const Expr &it : all)
        std::cout << it.header() << "\n";
}
