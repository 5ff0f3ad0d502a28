// Answers the requests of bench/eigen/texts.py over Eigen: a text on standard input, the line
// that answers it on standard output, byte by byte as the program beside it writes it. With the word
// `lines` there is a text in each line, and each is answered before more is read.
//
// A text is read whole, by simdjson, and its expression is looked up among the FORMS below, each
// of which is one expression as it is written by hand in Eigen, where the compiler joins its
// operations; a program that went down the tree would do worse. The counts of a broadcast are
// taken from the text, where a form has `#`. So this answers those requests, and no others.

#define EIGEN_USE_THREADS
#include <simdjson.h>
#include <unistd.h>

#include <charconv>
#include <cstdint>
#include <cstdio>
#include <cstdlib>
#include <cstring>
#include <functional>
#include <map>
#include <string>
#include <unsupported/Eigen/CXX11/Tensor>
#include <unsupported/Eigen/CXX11/ThreadPool>
#include <vector>

namespace {

using Index = Eigen::Index;
using Dims = std::vector<Index>;
template <int RANK>
using Tensor = Eigen::Tensor<std::int64_t, RANK, Eigen::ColMajor, Index>;
template <int RANK>
using View = Eigen::TensorMap<const Tensor<RANK>>;
template <int RANK>
using Axes = Eigen::array<Index, RANK>;
using Pair = Eigen::IndexPair<Index>;

// As many places as our program works out without a worker.
constexpr Index BLOCK = 4096;

[[noreturn]] void stop(const std::string& why) {
  std::fprintf(stderr, "bench/eigen: %s\n", why.c_str());
  std::exit(2);
}

struct Input {
  Dims dims;
  std::vector<std::int64_t> values;
};

struct Request {
  int workers = 1;
  std::map<std::string, Input> inputs;
  std::string form;
  Dims counts;

  template <int RANK>
  View<RANK> view(const char* name) const {
    const Input& input = inputs.at(name);
    if (input.dims.size() != RANK) stop("an input of another rank");
    Axes<RANK> dims;
    std::copy(input.dims.begin(), input.dims.end(), dims.begin());
    return View<RANK>(input.values.data(), dims);
  }

  // Calls the work with a pool's device, or where there is one worker or little to do with none.
  template <class Work>
  void on_device(Index places, Work work) const {
    if (workers == 1 || places <= BLOCK) {
      work(Eigen::DefaultDevice());
      return;
    }
    Eigen::ThreadPool pool(workers);
    work(Eigen::ThreadPoolDevice(&pool, workers));
  }

  // An input, repeated as often along each axis as the text says.
  template <int RANK, class Device>
  Tensor<RANK> repeated(const char* name, const Device& device) const {
    const View<RANK> input = view<RANK>(name);
    Axes<RANK> times, dims;
    for (int axis = 0; axis < RANK; ++axis) {
      times[axis] = counts[axis];
      dims[axis] = input.dimension(axis) * counts[axis];
    }
    Tensor<RANK> whole(dims);
    whole.device(device) = input.broadcast(times);
    return whole;
  }

  // How many places an input has, repeated so.
  Index places(const char* name) const {
    Index product = 1;
    for (Index dim : inputs.at(name).dims) product *= dim;
    for (std::size_t axis = 0; axis < inputs.at(name).dims.size(); ++axis) product *= counts[axis];
    return product;
  }
};

class Line {
 public:
  template <int RANK>
  void print(const Tensor<RANK>& tensor) {
    room.resize(64 + 21 * (tensor.size() + RANK));
    end = room.data();
    put("{\"data\":");
    list(tensor.data(), tensor.size());
    put(",\"dims\":");
    list(tensor.dimensions().data(), RANK);
    put("}\n");
    write_all();
  }

 private:
  void put(const char* text) {
    while (*text) *end++ = *text++;
  }

  template <class Number>
  void list(const Number* numbers, Index count) {
    *end++ = '[';
    for (Index place = 0; place < count; ++place) {
      if (place) *end++ = ',';
      end = std::to_chars(end, end + 21, static_cast<std::int64_t>(numbers[place])).ptr;
    }
    *end++ = ']';
  }

  void write_all() {
    const char* from = room.data();
    while (from < end) {
      const ssize_t written = write(STDOUT_FILENO, from, end - from);
      if (written <= 0) stop("a write failed");
      from += written;
    }
  }

  std::vector<char> room;
  char* end = nullptr;
};

// The sum of all values of an expression over tensors.
template <class Device, class Expression>
void print_sum(const Device& device, const Expression& expression) {
  Tensor<0> sum;
  sum.device(device) = expression.sum();
  Line().print(sum);
}

// So many views of one tensor, whose addresses the compiler takes for different ones: it would make
// one product of 20 sums of a tensor with itself, and the work of 20 operations is what is timed.
template <int RANK, class Values>
std::vector<View<RANK>> kept_apart(const Values& tensor, int count) {
  std::vector<View<RANK>> views;
  for (int k = 0; k < count; ++k) {
    const std::int64_t* values = tensor.data();
    asm volatile("" : "+r"(values));
    views.emplace_back(values, tensor.dimensions());
  }
  return views;
}

template <int COUNT, class Operand>
auto sums(const Operand* operands) {
  if constexpr (COUNT == 1) {
    return operands[0] + operands[1];
  } else {
    return operands[0] + sums<COUNT - 1>(operands + 1);
  }
}

template <int COUNT, class Operand>
auto products(const Operand* operands) {
  if constexpr (COUNT == 1) {
    return operands[0] * operands[1];
  } else {
    return operands[0] * products<COUNT - 1>(operands + 1);
  }
}

void add(const Request& request) {
  const auto a = request.view<1>("a"), b = request.view<1>("b");
  Tensor<1> sum(a.dimension(0));
  request.on_device(a.size(), [&](const auto& device) { sum.device(device) = a + b; });
  Line().print(sum);
}

void nested(const Request& request) {
  const auto a = request.view<1>("a");
  const auto operands = kept_apart<1>(a, 125);
  Tensor<1> sum(a.dimension(0));
  request.on_device(a.size(), [&](const auto& device) {
    sum.device(device) = sums<124>(operands.data());
  });
  Line().print(sum);
}

// 50 sums over no axes: each step is a copy.
void steps(const Request& request) {
  Tensor<2> values = request.view<2>("a");
  Tensor<2> next(values.dimensions());
  request.on_device(values.size(), [&](const auto& device) {
    for (int step = 0; step < 50; ++step) {
      next.device(device) = values;
      std::swap(values, next);
    }
    print_sum(device, values);
  });
}

// A form over the input "a", repeated: the work gets the device and the repeated tensor.
template <int RANK, class Work>
std::function<void(const Request&)> over(Work work) {
  return [work](const Request& request) {
    request.on_device(request.places("a"), [&](const auto& device) {
      work(device, request.repeated<RANK>("a", device));
    });
  };
}

// The same over "a" and "b".
template <int RANK, class Work>
std::function<void(const Request&)> over_two(Work work) {
  return [work](const Request& request) {
    request.on_device(request.places("a"), [&](const auto& device) {
      work(device, request.repeated<RANK>("a", device), request.repeated<RANK>("b", device));
    });
  };
}

// The sums of a square expression along an axis, of so many places along each.
template <class Device, class Expression>
void sums_along(const Device& device, const Expression& expression, Index axis, Index places) {
  Tensor<1> sum(places);
  sum.device(device) = expression.sum(Axes<1>{axis});
  Line().print(sum);
}

// The sums of x*y+x along an axis of three, added up.
std::function<void(const Request&)> sums_of_three(Index axis) {
  return over_two<3>([axis](const auto& device, const auto& a, const auto& b) {
    const Index first = axis == 0 ? 1 : 0, second = axis == 2 ? 1 : 2;
    Tensor<2> sums(a.dimension(first), a.dimension(second));
    sums.device(device) = (a * b + a).sum(Axes<1>{axis});
    print_sum(device, sums);
  });
}

template <class Device>
void contraction(const Device& device, const Tensor<2>& a) {
  Tensor<2> product(a.dimension(0), a.dimension(1));
  product.device(device) = a.contract(a, Eigen::array<Pair, 1>{Pair(1, 0)});
  print_sum(device, product);
}

// The sum of a contraction of a + b with a * b along a pair of axes. Both are tensors first: Eigen
// would work a value out each time that it packs it, which takes longer.
std::function<void(const Request&)> contraction_of_operations(Pair pair) {
  return over_two<2>([pair](const auto& device, const auto& a, const auto& b) {
    Tensor<2> sums(a.dimensions()), products(a.dimensions());
    sums.device(device) = a + b;
    products.device(device) = a * b;
    Tensor<2> product(a.dimension(0), a.dimension(1));
    product.device(device) = sums.contract(products, Eigen::array<Pair, 1>{pair});
    print_sum(device, product);
  });
}

// The sum of a convolution of the input "a", repeated, under the input "k".
template <int RANK>
void convolution(const Request& request) {
  request.on_device(request.places("a"), [&](const auto& device) {
    const Tensor<RANK> a = request.repeated<RANK>("a", device);
    const View<RANK> kernel = request.view<RANK>("k");
    Axes<RANK> axes, dims;
    for (int axis = 0; axis < RANK; ++axis) {
      axes[axis] = axis;
      dims[axis] = a.dimension(axis) - kernel.dimension(axis) + 1;
    }
    Tensor<RANK> result(dims);
    result.device(device) = a.convolve(kernel, axes);
    print_sum(device, result);
  });
}

std::string nest(int count, const std::string& front, const std::string& inner,
                 const std::string& back) {
  std::string text;
  for (int k = 0; k < count; ++k) text += front;
  text += inner;
  for (int k = 0; k < count; ++k) text += back;
  return text;
}

using Forms = std::map<std::string, std::function<void(const Request&)>>;

Forms forms() {
  const std::string line = R"(["broadcast","a",[#]])", square = R"(["broadcast","a",[#,#]])";
  const std::string other = R"(["broadcast","b",[#,#]])", cube = R"(["broadcast","a",[#,#,#]])";
  const std::string product = R"(["mul",)" + square + "," + other + "]";
  const std::string operations = R"(["contract",["add",)" + square + "," + other + "]," + product;
  const std::string three =
      R"(["add",["mul",)" + cube + R"(,["broadcast","b",[#,#,#]]],)" + cube + "]";
  const std::string six = R"(["broadcast","a",[#,#,#,#,#,#]])";
  const auto whole = [](const std::string& text) { return R"(["sum",)" + text + ",[0,1]]"; };
  return {
      {R"(["add","a","b"])", add},
      {nest(124, R"(["add","a",)", "\"a\"", "]"), nested},
      {whole(nest(50, R"(["sum",)", "\"a\"", ",[]]")), steps},
      {whole(nest(20, R"(["add",)", square, "," + square + "]")),
       over<2>([](const auto& device, const auto& a) {
         print_sum(device, sums<20>(kept_apart<2>(a, 21).data()));
       })},
      {whole(nest(20, R"(["mul",)", square, "," + square + "]")),
       over<2>([](const auto& device, const auto& a) {
         print_sum(device, products<20>(kept_apart<2>(a, 21).data()));
       })},
      {whole(R"(["select",["lt",)" + square + "," + other + "]," + square + "," + other + "]"),
       over_two<2>([](const auto& device, const auto& a, const auto& b) {
         print_sum(device, (a < b).select(a, b));
       })},
      {whole(square), over<2>([](const auto& device, const auto& a) { print_sum(device, a); })},
      {R"(["sum",)" + square + ",[0]]",
       over<2>([](const auto& device, const auto& a) { sums_along(device, a, 0, a.dimension(1)); })},
      {R"(["sum",)" + square + ",[1]]",
       over<2>([](const auto& device, const auto& a) { sums_along(device, a, 1, a.dimension(0)); })},
      {whole(product), over_two<2>([](const auto& device, const auto& a, const auto& b) {
         print_sum(device, a * b);
       })},
      {R"(["maximum",)" + product + ",[0,1]]",
       over_two<2>([](const auto& device, const auto& a, const auto& b) {
         Tensor<0> greatest;
         greatest.device(device) = (a * b).maximum();
         Line().print(greatest);
       })},
      {R"(["sum",["add",)" + product + "," + square + "],[0]]",
       over_two<2>([](const auto& device, const auto& a, const auto& b) {
         sums_along(device, a * b + a, 0, a.dimension(1));
       })},
      {R"(["sum",["add",)" + product + "," + square + "],[1]]",
       over_two<2>([](const auto& device, const auto& a, const auto& b) {
         sums_along(device, a * b + a, 1, a.dimension(0));
       })},
      {whole(R"(["sum",)" + three + ",[0]]"), sums_of_three(0)},
      {whole(R"(["sum",)" + three + ",[1]]"), sums_of_three(1)},
      {whole(R"(["sum",)" + three + ",[2]]"), sums_of_three(2)},
      {R"(["prod",)" + square + ",[0,1]]", over<2>([](const auto& device, const auto& a) {
         Tensor<0> product;
         product.device(device) = a.prod();
         Line().print(product);
       })},
      {R"(["contract",)" + square + "," + other + ",[[0,0],[1,1]]]",
       over_two<2>([](const auto& device, const auto& a, const auto& b) {
         print_sum(device, a * b);
       })},
      {R"(["sum",["shuffle",)" + cube + ",[2,0,1]],[0,1,2]]",
       over<3>([](const auto& device, const auto& a) {
         Tensor<3> turned(a.dimension(2), a.dimension(0), a.dimension(1));
         turned.device(device) = a.shuffle(Axes<3>{2, 0, 1});
         print_sum(device, turned);
       })},
      {R"(["sum",["shuffle",)" + six + ",[5,1,4,3,0,2]],[0,1,2,3,4,5]]",
       over<6>([](const auto& device, const auto& a) {
         const Axes<6> order{5, 1, 4, 3, 0, 2};
         Axes<6> dims;
         for (int axis = 0; axis < 6; ++axis) dims[axis] = a.dimension(order[axis]);
         Tensor<6> turned(dims);
         turned.device(device) = a.shuffle(order);
         print_sum(device, turned);
       })},
      {whole(R"(["chip",["slice",["reverse",)" + cube +
             R"(,[true,true,false]],[1,1,0],[1023,511,2]],1,2])"),
       over<3>([](const auto& device, const auto& a) {
         const Eigen::array<bool, 3> flags{true, true, false};
         const Axes<3> offsets{1, 1, 0}, extents{1023, 511, 2};
         print_sum(device, a.reverse(flags).slice(offsets, extents).chip(1, 2));
       })},
      {whole(R"(["contract",)" + square + "," + square + ",[[1,0]]]"),
       over<2>([](const auto& device, const auto& a) { contraction(device, a); })},
      {whole(operations + ",[[1,0]]]"), contraction_of_operations(Pair(1, 0))},
      {whole(operations + ",[[0,1]]]"), contraction_of_operations(Pair(0, 1))},
      {whole(R"(["contract",)" + cube + "," + cube + ",[[1,1],[2,2]]]"),
       over<3>([](const auto& device, const auto& a) {
         Tensor<2> product(a.dimension(0), a.dimension(0));
         product.device(device) = a.contract(a, Eigen::array<Pair, 2>{Pair(1, 1), Pair(2, 2)});
         print_sum(device, product);
       })},
      {whole(R"(["convolve",)" + square + R"(,"k",[0,1]])"), convolution<2>},
      {R"(["sum",["convolve",)" + line + R"(,"k",[0]],[0]])", convolution<1>},
      {R"(["sum",["mul",["add",)" + line + "," + line + "]," + line + "],[0]]",
       over<1>([](const auto& device, const auto& a) { print_sum(device, (a + a) * a); })},
  };
}

void read_input(simdjson::dom::element tensor, Input& input) {
  for (std::int64_t dim : tensor["dims"].get_array()) input.dims.push_back(dim);
  const auto data = tensor["data"].get_array().value();
  input.values.reserve(data.size());
  for (std::int64_t value : data) input.values.push_back(value);
}

void read_form(simdjson::dom::element it, bool is_counts, Request& request) {
  std::string& form = request.form;
  if (it.is_string()) {
    form += '"' + std::string(it.get_string().value()) + '"';
  } else if (it.is_bool()) {
    form += it.get_bool().value() ? "true" : "false";
  } else if (it.is_array()) {
    const auto items = it.get_array().value();
    const bool is_broadcast = items.size() == 3 && items.at(0).is_string() &&
                              items.at(0).get_string().value() == "broadcast";
    form += '[';
    std::size_t place = 0;
    for (auto item : items) {
      if (place) form += ',';
      read_form(item, is_counts || (is_broadcast && place == 2), request);
      ++place;
    }
    form += ']';
  } else if (is_counts) {
    form += '#';
    request.counts.push_back(it.get_int64());
  } else {
    form += std::to_string(it.get_int64().value());
  }
}

// All of standard input, with the room behind it that simdjson asks for.
std::vector<char> read_text(std::size_t& length) {
  std::vector<char> text(1 << 16);
  length = 0;
  while (true) {
    if (text.size() < length + simdjson::SIMDJSON_PADDING + 1) text.resize(2 * text.size());
    const std::size_t room = text.size() - length - simdjson::SIMDJSON_PADDING;
    const ssize_t count = read(STDIN_FILENO, text.data() + length, room);
    if (count < 0) stop("a read failed");
    if (count == 0) return text;
    length += count;
  }
}

// The lines of standard input, each with the room behind it that simdjson asks for.
class Lines {
 public:
  // The next line, or nullptr where there is no more.
  char* next(std::size_t& length) {
    std::size_t looked = 0;
    while (true) {
      char* line = text.data() + start;
      if (void* feed = std::memchr(line + looked, '\n', end - start - looked)) {
        length = static_cast<char*>(feed) - line;
        start += length + 1;
        return line;
      }
      looked = end - start;
      if (!read_more()) {
        length = looked;
        start = end;
        return length ? text.data() + end - length : nullptr;
      }
    }
  }

 private:
  // What is left goes to the front, and more behind it.
  bool read_more() {
    std::memmove(text.data(), text.data() + start, end - start);
    end -= start;
    start = 0;
    if (text.size() < end + simdjson::SIMDJSON_PADDING + 1) text.resize(2 * text.size());
    const std::size_t room = text.size() - end - simdjson::SIMDJSON_PADDING;
    const ssize_t count = read(STDIN_FILENO, text.data() + end, room);
    if (count < 0) stop("a read failed");
    end += count;
    return count > 0;
  }

  std::vector<char> text = std::vector<char>(1 << 16);
  std::size_t start = 0, end = 0;
};

Request request_of(simdjson::dom::element read) {
  Request request;
  request.workers = static_cast<int>(read["workers"].get_int64());
  for (auto field : read["inputs"].get_object()) {
    read_input(field.value, request.inputs[std::string(field.key)]);
  }
  read_form(read["expr"], false, request);
  return request;
}

// The parser keeps its room from one text to the next.
class Server {
 public:
  void answer(const char* text, std::size_t length) {
    const Request request = request_of(parser.parse(text, length, false));
    const auto found = known.find(request.form);
    if (found == known.end()) stop("no form for " + request.form.substr(0, 200));
    found->second(request);
  }

 private:
  simdjson::dom::parser parser;
  const Forms known = forms();
};

void answer_text() {
  std::size_t length = 0;
  const std::vector<char> text = read_text(length);
  Server().answer(text.data(), length);
}

void answer_lines() {
  Lines lines;
  Server server;
  std::size_t length = 0;
  while (const char* line = lines.next(length)) server.answer(line, length);
}

}  // namespace

int main(int count, char** words) {
  try {
    if (count > 1 && words[1] == std::string("lines")) {
      answer_lines();
    } else {
      answer_text();
    }
  } catch (const simdjson::simdjson_error& error) {
    stop(error.what());
  }
}
