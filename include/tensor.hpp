/* Tensor expressions over wrapping 64-bit integers, from C++20: the calls of tensor.h with spans,
   a pool of threads and exceptions, and expressions that make headers. tensor.h says what a caller
   must do.

   Link libtensor.a or libtensor.so: c++ -std=c++20 -pthread program.cpp -Iinclude out/libtensor.a */

#ifndef TENSOR_HPP
#define TENSOR_HPP

#include <algorithm>
#include <array>
#include <concepts>
#include <cstddef>
#include <cstdint>
#include <initializer_list>
#include <map>
#include <memory>
#include <span>
#include <stdexcept>
#include <string>
#include <string_view>
#include <thread>
#include <utility>
#include <vector>

#include "tensor.h"

namespace tensor {

/* The values of an array in the caller's memory, column-major. */
using Values = std::span<const std::int64_t>;

/* A fault of a frame: its number, and its name. If the header is known, what() also says the place of the
   fault in the header, and the reason. Other refusals of the library have the numbers 100 and 101 of
   TENSOR_NO_ROOM and TENSOR_NO_PLAN. */
class Fault : public std::runtime_error {
public:
    explicit Fault(int number) : std::runtime_error(name(number)), number_(number) {}
    Fault(int number, std::string_view header, std::uint64_t count)
        : std::runtime_error(name(number) + reason(number, header, count)), number_(number)
    {
    }
    int number() const { return number_; }

private:
    /* The place and the reason of the fault with this number, which a header with `count` values has. */
    static std::string reason(int number, std::string_view header, std::uint64_t count)
    {
        if (number >= -TENSOR_NO_MEMORY)
            return "";
        std::string text(TENSOR_TEXT_ROOM(header.size()), '\0');
        const std::int64_t length =
            tensor_explain(reinterpret_cast<const std::uint8_t *>(header.data()), header.size(), count,
                           reinterpret_cast<std::uint8_t *>(text.data()), text.size());
        text.resize(length < 0 ? 0 : static_cast<std::size_t>(length));
        const std::size_t end = text.find('\n');
        if (end == text.npos || !text.starts_with("error " + std::to_string(number) + " "))
            return "";
        text.pop_back();
        return " " + text.substr(end + 1);
    }

    static std::string name(int number)
    {
        if (number == -TENSOR_NO_ROOM)
            return "the list for the result is too short";
        if (number == -TENSOR_NO_PLAN)
            return "the numbers are not a plan";
        std::uint8_t text[TENSOR_NAME_ROOM] = {};
        tensor_fault_name(static_cast<std::uint32_t>(number), text, sizeof text);
        return reinterpret_cast<const char *>(text);
    }

    int number_;
};

namespace detail {

/* The addresses and lengths of arrays. */
inline std::vector<tensor_array> lying(std::span<const Values> arrays)
{
    std::vector<tensor_array> found(arrays.size());
    for (std::size_t i = 0; i < arrays.size(); i++)
        found[i] = {arrays[i].data(), arrays[i].size()};
    return found;
}

inline std::size_t answered(std::int64_t result)
{
    if (result < 0)
        throw Fault(static_cast<int>(-result));
    return static_cast<std::size_t>(result);
}

/* The result of a call for a header with `count` values. */
inline std::size_t answered(std::int64_t result, std::string_view header, std::uint64_t count)
{
    if (result < 0)
        throw Fault(static_cast<int>(-result), header, count);
    return static_cast<std::size_t>(result);
}

/* How many values arrays have together. */
inline std::uint64_t count(std::span<const Values> arrays)
{
    std::uint64_t count = 0;
    for (const Values &it : arrays)
        count += it.size();
    return count;
}

inline const std::uint8_t *bytes(std::string_view header)
{
    return reinterpret_cast<const std::uint8_t *>(header.data());
}

/* The pool of threads of this program, opened when it is first needed: as many as there are processors. */
class Pool {
public:
    static tensor_pool *shared()
    {
        static const Pool pool;
        return pool.opened_;
    }

private:
    Pool() : opened_(tensor_pool_open(std::thread::hardware_concurrency())) {}
    Pool(const Pool &) = delete;
    Pool &operator=(const Pool &) = delete;
    ~Pool() { tensor_pool_close(opened_); }

    tensor_pool *opened_;
};

/* The pool for calls in this number of parts: none for one part. */
inline tensor_pool *pool(std::size_t parts)
{
    return parts > 1 ? Pool::shared() : nullptr;
}

}  // namespace detail

/* Throws if the library that runs has another version than this header. */
inline void check_version()
{
    const std::int64_t found = tensor_version();
    if (found != TENSOR_VERSION_NUMBER)
        throw std::runtime_error("the library has version " + std::to_string(found / 1'000'000) + "."
                                 + std::to_string(found / 1'000 % 1'000) + "."
                                 + std::to_string(found % 1'000) + ", the header " TENSOR_VERSION);
}

/* The dimensions of the answer to a frame with `count` values. It computes no value of the answer. */
inline std::vector<std::uint64_t> dims(std::string_view header, std::uint64_t count)
{
    std::uint64_t room[TENSOR_DIMS_ROOM];
    detail::answered(tensor_dims(detail::bytes(header), header.size(), count, room, TENSOR_DIMS_ROOM),
                     header, count);
    return {room + 1, room + 1 + room[0]};
}

/* Writes the values of the answer from place `first` on, as many as there are and as fit. Returns how
   many it wrote. The arrays come in the order of their names. */
inline std::size_t evaluate_part(std::string_view header, std::span<const Values> arrays,
                                 std::uint64_t first, std::span<std::int64_t> out)
{
    const auto lying = detail::lying(arrays);
    return detail::answered(tensor_evaluate_arrays(detail::bytes(header), header.size(),
                                                   lying.data(), lying.size(), first, out.data(),
                                                   out.size()),
                            header, detail::count(arrays));
}

/* How many values each part of an answer computes again before its own first value. */
inline std::size_t shared(std::string_view header, std::span<const Values> arrays)
{
    const auto lying = detail::lying(arrays);
    return detail::answered(
        tensor_shared(detail::bytes(header), header.size(), lying.data(), lying.size()), header,
        detail::count(arrays));
}

/* Writes all values of the answer to `out`, which has room for exactly these, in `threads` parts, by the
   threads of a pool that the program keeps, and by the calling thread. `shared` tells whether parts pay. */
inline void evaluate(std::string_view header, std::span<const Values> arrays,
                     std::span<std::int64_t> out, unsigned threads = 1)
{
    const auto lying = detail::lying(arrays);
    const std::size_t parts = std::max(threads, 1u);
    detail::answered(tensor_pool_evaluate_arrays(detail::pool(parts), detail::bytes(header), header.size(),
                                                 lying.data(), lying.size(), 0, out.data(), out.size(),
                                                 parts),
                     header, detail::count(arrays));
}

/* An expression that is read and checked once, and evaluated over any arrays of its tensors' dims. */
class Prepared {
public:
    /* The plan of a header for arrays of these lengths. */
    Prepared(std::string_view header, std::span<const Values> arrays)
        : plan_(TENSOR_PLAN_ROOM(arrays.size()))
    {
        const std::uint64_t count = detail::count(arrays);
        plan_.resize(detail::answered(tensor_prepare(detail::bytes(header), header.size(), count,
                                                     plan_.data(), plan_.size()),
                                      header, count));
        plan_.shrink_to_fit();
    }

    /* These do what evaluate_part and evaluate do, and read no text. Any number of threads may call them. */
    std::size_t run_part(std::span<const Values> arrays, std::uint64_t first,
                         std::span<std::int64_t> out) const
    {
        const auto lying = detail::lying(arrays);
        return detail::answered(tensor_run(plan_.data(), plan_.size(), lying.data(), arrays.size(),
                                           first, out.data(), out.size()));
    }

    void run(std::span<const Values> arrays, std::span<std::int64_t> out, unsigned threads = 1) const
    {
        const auto lying = detail::lying(arrays);
        const std::size_t parts = std::max(threads, 1u);
        detail::answered(tensor_pool_run(detail::pool(parts), plan_.data(), plan_.size(), lying.data(),
                                         lying.size(), 0, out.data(), out.size(), parts));
    }

private:
    std::vector<std::uint64_t> plan_;
};

/* Sizes, axes or offsets of an operation: one number, or several in braces. */
class Sizes {
public:
    Sizes(std::integral auto one) : list_{static_cast<std::int64_t>(one)} {}
    Sizes(std::initializer_list<std::int64_t> list) : list_(list) {}
    Sizes(std::vector<std::int64_t> list) : list_(std::move(list)) {}

    std::string text() const
    {
        std::string text;
        for (const std::int64_t it : list_)
            text += (text.empty() ? "" : ",") + std::to_string(it);
        return "[" + text + "]";
    }

private:
    std::vector<std::int64_t> list_;
};

/* The numbers before and behind along each axis, or the axes that two operands share. */
using Pairs = std::vector<std::array<std::int64_t, 2>>;

namespace detail {

/* An operation, its operands, and the text of its arguments; or an input, without operands, and the text
   of its dims. */
struct Node {
    using Link = std::shared_ptr<const Node>;
    std::string name, arguments;
    std::vector<Link> operands;
    /* Whether it combines many values, or something below it does; and how many nodes it is written as. */
    bool combines;
    std::size_t nodes;
    /* An input of the same dims, if one is known. */
    Link input;
};
using Link = Node::Link;
constexpr std::size_t MANY = 16;

/* A header that is being written. What stands in several places is bound by `let`, and so computed once,
   if it combines values or has many nodes. */
class Writing {
public:
    std::string header(const Link &whole)
    {
        count(whole);
        std::string expr = text(whole), inputs;
        for (const auto &[name, dims] : inputs_)
            inputs += (inputs.empty() ? "\"" : ",\"") + name + R"(":{"dims":)" + dims + "}";
        return R"({"version":3,"workers":1,"block":4096,"inputs":{)" + inputs + R"(},"expr":)" + lets_ +
               expr + std::string(bound_.size(), ']') + "}";
    }

private:
    void count(const Link &it)
    {
        if (places_[it]++ > 0)
            return;
        if (it->operands.empty())
            inputs_[it->name] = it->arguments;
        for (const Link &operand : it->operands)
            count(operand);
    }

    std::string text(const Link &it)
    {
        if (const auto found = bound_.find(it); found != bound_.end())
            return found->second;
        const std::string name = '"' + it->name + '"';
        if (it->operands.empty())
            return name;
        std::string text = "[" + name;
        for (const Link &operand : it->operands)
            text += "," + this->text(operand);
        text += it->arguments + "]";
        if (places_[it] == 1 || !(it->combines || it->nodes >= MANY))
            return text;
        const std::string bound = "\"t" + std::to_string(bound_.size()) + '"';
        lets_ += R"(["let",)" + bound + "," + text + ",";
        return bound_[it] = bound;
    }

    std::map<Link, std::size_t> places_;
    std::map<Link, std::string> bound_;
    std::map<std::string, std::string> inputs_;
    std::string lets_;
};

}  // namespace detail

/* An expression, by the operations of docs/REQUEST.md and docs/FRAMES.md under their names. It makes the
   header that the calls take:

     const tensor::Expr x(0, {2, 3}), y(1, {2, 3});
     const std::string header = (x * 3 + y).sum(0).header();

   An operator takes two expressions of equal dims, or an expression and a number. `/` and `%` round down.
   The calls check dims and arguments, and throw the fault. A header nests up to 120 operations. */
class Expr {
public:
    /* The input of a number, of these dims. */
    Expr(unsigned number, const Sizes &dims)
    {
        constexpr std::uint64_t widest = 10'000'000'000;
        const std::string name = std::to_string(widest + number).substr(1);
        link_ = std::make_shared<detail::Node>(detail::Node{name, dims.text(), {}, false, 1, {}});
    }

    /* The arrays come in the order of the inputs' numbers. An input that the expression doesn't have has
       no array. */
    std::string header() const { return detail::Writing().header(link_); }

    /* An operation on operands of equal dims, place by place. */
    static Expr each(const char *name, const std::vector<Expr> &operands)
    {
        return Expr(name, operands, "", false, operands[0].input());
    }

    Expr abs() const { return each("abs", {*this}); }
    Expr square() const { return each("square", {*this}); }
    Expr bit_count() const { return each("bit_count", {*this}); }
    Expr constant(std::int64_t value) const
    {
        const Expr beside(input() ? input() : link_);
        return Expr("constant", {beside}, std::to_string(value), false, input());
    }

    Expr broadcast(const Sizes &counts) const { return moved("broadcast", counts.text()); }
    Expr slice(const Sizes &offsets, const Sizes &extents) const
    {
        return moved("slice", offsets.text() + "," + extents.text());
    }
    Expr shuffle(const Sizes &order) const { return moved("shuffle", order.text()); }
    Expr reshape(const Sizes &sizes) const { return moved("reshape", sizes.text()); }
    Expr stride(const Sizes &steps) const { return moved("stride", steps.text()); }
    Expr pad(const Pairs &pairs) const { return moved("pad", text(pairs)); }
    Expr chip(std::int64_t offset, std::int64_t axis) const
    {
        return moved("chip", std::to_string(offset) + "," + std::to_string(axis));
    }
    Expr reverse(std::initializer_list<bool> flags) const
    {
        std::string text;
        for (const bool it : flags)
            text += (text.empty() ? "" : ",") + std::string(it ? "true" : "false");
        return moved("reverse", "[" + text + "]");
    }
    Expr concat(const Expr &other, std::int64_t axis) const
    {
        return Expr("concat", {*this, other}, std::to_string(axis), false);
    }

    Expr sum(const Sizes &axes) const { return combined("sum", axes.text()); }
    Expr prod(const Sizes &axes) const { return combined("prod", axes.text()); }
    Expr maximum(const Sizes &axes) const { return combined("maximum", axes.text()); }
    Expr minimum(const Sizes &axes) const { return combined("minimum", axes.text()); }
    Expr all(const Sizes &axes) const { return combined("all", axes.text()); }
    Expr any(const Sizes &axes) const { return combined("any", axes.text()); }
    Expr cumsum(std::int64_t axis) const { return combined("cumsum", std::to_string(axis)); }
    Expr cumprod(std::int64_t axis) const { return combined("cumprod", std::to_string(axis)); }
    Expr argmax(std::int64_t axis) const { return combined("argmax", std::to_string(axis)); }
    Expr argmin(std::int64_t axis) const { return combined("argmin", std::to_string(axis)); }
    Expr contract(const Expr &other, const Pairs &axes) const
    {
        return Expr("contract", {*this, other}, text(axes), true);
    }
    /* The product of a matrix with a matrix or a list. */
    Expr matmul(const Expr &other) const { return contract(other, {{1, 0}}); }
    Expr convolve(const Expr &kernel, const Sizes &axes) const
    {
        return Expr("convolve", {*this, kernel}, axes.text(), true);
    }
    Expr take(const Expr &offsets, std::int64_t axis) const
    {
        return Expr("take", {*this, offsets}, std::to_string(axis), true);
    }

private:
    explicit Expr(detail::Link link) : link_(std::move(link)) {}

    Expr(const char *name, const std::vector<Expr> &operands, const std::string &arguments, bool combines,
         detail::Link input = {})
    {
        detail::Node node{name, arguments.empty() ? "" : "," + arguments, {}, combines, 1, input};
        for (const Expr &it : operands) {
            node.operands.push_back(it.link_);
            node.combines = node.combines || it.link_->combines;
            node.nodes = std::min(node.nodes + it.link_->nodes, detail::MANY);
        }
        link_ = std::make_shared<detail::Node>(std::move(node));
    }

    Expr moved(const char *name, const std::string &arguments) const
    {
        return Expr(name, {*this}, arguments, false);
    }
    Expr combined(const char *name, const std::string &arguments) const
    {
        return Expr(name, {*this}, arguments, true);
    }
    detail::Link input() const { return link_->operands.empty() ? link_ : link_->input; }
    static std::string text(const Pairs &pairs)
    {
        std::string text;
        for (const auto &[first, second] : pairs)
            text += (text.empty() ? "" : ",") + Sizes({first, second}).text();
        return "[" + text + "]";
    }

    detail::Link link_;
};

inline Expr input(unsigned number, const Sizes &dims) { return Expr(number, dims); }

/* What an operator takes: an expression, or a number that stands at each place. */
template <typename It>
concept Operand = std::same_as<It, Expr> || std::integral<It>;

namespace detail {

inline Expr beside(const Expr &, const Expr &it) { return it; }
inline Expr beside(const Expr &other, std::integral auto it)
{
    return other.constant(static_cast<std::int64_t>(it));
}

inline Expr two(const char *name, const Expr &x, const Operand auto &y)
{
    return Expr::each(name, {x, beside(x, y)});
}
inline Expr two(const char *name, std::integral auto x, const Expr &y)
{
    return Expr::each(name, {beside(y, x), y});
}

}  // namespace detail

inline Expr operator-(const Expr &x) { return Expr::each("neg", {x}); }
inline Expr operator!(const Expr &x) { return Expr::each("not", {x}); }
inline Expr operator~(const Expr &x) { return Expr::each("bit_not", {x}); }
inline Expr operator+(const Operand auto &x, const Operand auto &y) { return detail::two("add", x, y); }
inline Expr operator-(const Operand auto &x, const Operand auto &y) { return detail::two("sub", x, y); }
inline Expr operator*(const Operand auto &x, const Operand auto &y) { return detail::two("mul", x, y); }
inline Expr operator/(const Operand auto &x, const Operand auto &y) { return detail::two("floor_divide", x, y); }
inline Expr operator%(const Operand auto &x, const Operand auto &y) { return detail::two("remainder", x, y); }
inline Expr operator<(const Operand auto &x, const Operand auto &y) { return detail::two("lt", x, y); }
inline Expr operator<=(const Operand auto &x, const Operand auto &y) { return detail::two("le", x, y); }
inline Expr operator==(const Operand auto &x, const Operand auto &y) { return detail::two("eq", x, y); }
inline Expr operator!=(const Operand auto &x, const Operand auto &y) { return detail::two("ne", x, y); }
inline Expr operator>(const Operand auto &x, const Operand auto &y) { return detail::two("gt", x, y); }
inline Expr operator>=(const Operand auto &x, const Operand auto &y) { return detail::two("ge", x, y); }
inline Expr operator&&(const Operand auto &x, const Operand auto &y) { return detail::two("and", x, y); }
inline Expr operator||(const Operand auto &x, const Operand auto &y) { return detail::two("or", x, y); }
inline Expr operator&(const Operand auto &x, const Operand auto &y) { return detail::two("bit_and", x, y); }
inline Expr operator|(const Operand auto &x, const Operand auto &y) { return detail::two("bit_or", x, y); }
inline Expr operator^(const Operand auto &x, const Operand auto &y) { return detail::two("bit_xor", x, y); }
inline Expr operator<<(const Operand auto &x, const Operand auto &y) { return detail::two("shift_left", x, y); }
inline Expr operator>>(const Operand auto &x, const Operand auto &y) { return detail::two("shift_right", x, y); }
inline Expr cwise_max(const Expr &x, const Operand auto &y) { return detail::two("cwise_max", x, y); }
inline Expr cwise_min(const Expr &x, const Operand auto &y) { return detail::two("cwise_min", x, y); }
/* `x` where the condition isn't 0, else `y`. */
inline Expr select(const Expr &condition, const Operand auto &x, const Operand auto &y)
{
    return Expr::each("select", {condition, detail::beside(condition, x), detail::beside(condition, y)});
}

}  // namespace tensor

#endif
