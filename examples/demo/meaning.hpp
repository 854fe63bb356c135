// A plain meaning of the operators that the leaf pipeline uses, so that the demo
// can run it. The library gives them no meaning: it need not know any.
//
// An image is ordered batch, channel, row, column; channels are red, green, blue.
//
// - mul(x, y): the product, value by value.
// - conv2d(x, w) {stride padding dilation groups}: the sum of products, with zeros
//   around the image. Only stride, dilation and groups of 1 are given a meaning.
// - batch_norm(x, gamma, beta, mean, variance) {epsilon axis}: for the channel
//   along the axis, gamma * (x - mean) / sqrt(variance + epsilon / 65536) + beta.
// - bias_add(x, b) {axis}: b added, the channel along the axis.
// - relu(x): what is below 0 becomes 0.
// - gain(x) {r g b}: the three channels multiplied.
// - vivid(x) {p}: green grows by p eighths of itself.
// - mean(x) {c}: the mean of channel c, counted from 1.
// - cast(x) {2}: to bytes; what is below 0 becomes 0, what is above 255 becomes 255.
//   (Fractions are kept: they change nothing of what is shown.)
// - A Const is its number. A dimension of 1 stretches where a longer one is asked.
#ifndef LEAFGRAPH_DEMO_MEANING_HPP
#define LEAFGRAPH_DEMO_MEANING_HPP

#include "graph.hpp"

#include <array>
#include <cstddef>
#include <map>
#include <vector>

namespace demo {

using Index = std::array<std::size_t, 4>;

// Numbers in four dimensions, the last one running fastest.
struct Tensor {
    Index shape;
    std::vector<double> values;

    // The value there; along a dimension of 1 every index is the first.
    double at(Index index) const;
};

bool operator==(const Tensor &left, const Tensor &right);
bool operator!=(const Tensor &left, const Tensor &right);

// The results of the Variables. A Variable's result belongs to its slot number.
using Variables = std::map<std::size_t, Tensor>;

// The result of a vertex of a sound graph. Throws std::runtime_error where the
// graph has something that is given no meaning here.
Tensor result_of(const Graph &graph, std::size_t slot, const Variables &variables);

} // namespace demo

#endif // LEAFGRAPH_DEMO_MEANING_HPP
