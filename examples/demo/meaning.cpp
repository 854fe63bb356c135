#include "meaning.hpp"

#include <algorithm>
#include <cmath>
#include <cstdint>
#include <stdexcept>
#include <string>

namespace demo {

namespace {

using Attributes = std::vector<std::int32_t>;

constexpr std::size_t channel_axis = 1, row_axis = 2, column_axis = 3, green = 1;
constexpr double epsilon_unit = 1.0 / 65536, vivid_unit = 1.0 / 8;
constexpr std::int32_t bytes = 2, largest_padding = 16;

void require(bool has_meaning, const std::string &what) {
    if (!has_meaning) {
        throw std::runtime_error("the demo gives no meaning to " + what);
    }
}

// The tensor of this shape whose value at each index the function gives.
template <class Function>
Tensor filled(const Index &shape, Function value_at) {
    Tensor tensor{shape, {}};
    Index i = {};
    for (i[0] = 0; i[0] < shape[0]; i[0]++) {
        for (i[1] = 0; i[1] < shape[1]; i[1]++) {
            for (i[2] = 0; i[2] < shape[2]; i[2]++) {
                for (i[3] = 0; i[3] < shape[3]; i[3]++) {
                    tensor.values.push_back(value_at(i));
                }
            }
        }
    }
    return tensor;
}

std::size_t axis_of(std::int32_t attribute) {
    require(attribute >= 0 && attribute < 4, "an axis that is not from 0 to 3");
    return static_cast<std::size_t>(attribute);
}

// A parameter's value for the channel that an index has along an axis.
double for_channel(const Tensor &parameter, const Index &index, std::size_t axis) {
    return parameter.at({index[axis], 0, 0, 0});
}

// The image's value where rows and columns count from the corner of the padding,
// in which all is zero.
double padded_value(const Tensor &image, Index index, std::size_t padding) {
    for (const std::size_t axis : {row_axis, column_axis}) {
        if (index[axis] < padding || index[axis] >= padding + image.shape[axis]) {
            return 0;
        }
        index[axis] -= padding;
    }
    return image.at(index);
}

double window_sum(const Tensor &image, const Tensor &kernel, const Index &at,
                  std::size_t padding) {
    double sum = 0;
    for (std::size_t channel = 0; channel < kernel.shape[1]; channel++) {
        for (std::size_t row = 0; row < kernel.shape[2]; row++) {
            for (std::size_t column = 0; column < kernel.shape[3]; column++) {
                const Index seen = {at[0], channel, at[2] + row, at[3] + column};
                sum += kernel.at({at[1], channel, row, column})
                       * padded_value(image, seen, padding);
            }
        }
    }
    return sum;
}

Tensor mul(const Tensor &x, const Tensor &y) {
    Index shape = x.shape;
    for (std::size_t axis = 0; axis < shape.size(); axis++) {
        shape[axis] = std::max(shape[axis], y.shape[axis]);
    }
    return filled(shape, [&](const Index &at) { return x.at(at) * y.at(at); });
}

Tensor conv2d(const Tensor &image, const Tensor &kernel, const Attributes &attributes) {
    require(attributes[0] == 1 && attributes[2] == 1 && attributes[3] == 1,
            "a conv2d whose stride, dilation or groups are not 1");
    require(attributes[1] >= 0 && attributes[1] <= largest_padding, "so much padding");
    require(kernel.shape[1] == image.shape[channel_axis], "a kernel of other channels");
    const auto padding = static_cast<std::size_t>(attributes[1]);
    Index shape = {image.shape[0], kernel.shape[0], 0, 0};
    for (const std::size_t axis : {row_axis, column_axis}) {
        const std::size_t length = image.shape[axis] + 2 * padding;
        require(kernel.shape[axis] <= length, "a kernel larger than the image");
        shape[axis] = length + 1 - kernel.shape[axis];
    }
    return filled(shape, [&](const Index &at) { return window_sum(image, kernel, at, padding); });
}

Tensor batch_norm(const std::vector<Tensor> &inputs, const Attributes &attributes) {
    const Tensor &x = inputs[0], &gamma = inputs[1], &beta = inputs[2];
    const Tensor &mean = inputs[3], &variance = inputs[4];
    const double epsilon = attributes[0] * epsilon_unit;
    const std::size_t axis = axis_of(attributes[1]);
    Index shape = x.shape;
    shape[axis] = std::max(shape[axis], gamma.shape[0]);
    return filled(shape, [&](const Index &at) {
        const double scale = for_channel(gamma, at, axis)
                             / std::sqrt(for_channel(variance, at, axis) + epsilon);
        return scale * (x.at(at) - for_channel(mean, at, axis)) + for_channel(beta, at, axis);
    });
}

Tensor bias_add(const Tensor &x, const Tensor &bias, const Attributes &attributes) {
    const std::size_t axis = axis_of(attributes[0]);
    return filled(x.shape,
                  [&](const Index &at) { return x.at(at) + for_channel(bias, at, axis); });
}

Tensor relu(const Tensor &x) {
    return filled(x.shape, [&](const Index &at) { return std::max(0.0, x.at(at)); });
}

Tensor gain(const Tensor &x, const Attributes &attributes) {
    require(x.shape[channel_axis] == attributes.size(), "a gain of other channels");
    return filled(x.shape,
                  [&](const Index &at) { return x.at(at) * attributes[at[channel_axis]]; });
}

Tensor vivid(const Tensor &x, const Attributes &attributes) {
    const double boost = 1 + attributes[0] * vivid_unit;
    return filled(x.shape, [&](const Index &at) {
        return at[channel_axis] == green ? x.at(at) * boost : x.at(at);
    });
}

Tensor mean(const Tensor &x, const Attributes &attributes) {
    double sum = 0, count = 0;
    filled(x.shape, [&](const Index &at) {
        if (static_cast<std::int64_t>(at[channel_axis]) + 1 == attributes[0]) {
            sum += x.at(at);
            count += 1;
        }
        return 0.0;
    });
    require(count > 0, "the mean of a channel that is not there");
    return Tensor{{1, 1, 1, 1}, {sum / count}};
}

Tensor cast(const Tensor &x, const Attributes &attributes) {
    require(attributes[0] == bytes, "a cast to anything but bytes");
    return filled(x.shape, [&](const Index &at) { return std::clamp(x.at(at), 0.0, 255.0); });
}

// A Variable's result, which has the four dimensions that its attributes say.
Tensor of_its_shape(const Tensor &result, const Attributes &attributes) {
    for (std::size_t axis = 0; axis < result.shape.size(); axis++) {
        require(static_cast<std::int64_t>(result.shape[axis]) == attributes[axis],
                "a Variable whose result has another shape");
    }
    return result;
}

Tensor result_of_call(const Slot &slot, const std::vector<Tensor> &inputs) {
    switch (static_cast<Operator>(slot.op)) {
    case Operator::mul:
        return mul(inputs[0], inputs[1]);
    case Operator::conv2d:
        return conv2d(inputs[0], inputs[1], slot.attributes);
    case Operator::bias_add:
        return bias_add(inputs[0], inputs[1], slot.attributes);
    case Operator::batch_norm:
        return batch_norm(inputs, slot.attributes);
    case Operator::relu:
        return relu(inputs[0]);
    case Operator::gain:
        return gain(inputs[0], slot.attributes);
    case Operator::vivid:
        return vivid(inputs[0], slot.attributes);
    case Operator::mean:
        return mean(inputs[0], slot.attributes);
    case Operator::cast:
        return cast(inputs[0], slot.attributes);
    }
    throw std::runtime_error("the demo gives no meaning to " + in_words(slot));
}

} // namespace

double Tensor::at(Index index) const {
    std::size_t place = 0;
    for (std::size_t axis = 0; axis < shape.size(); axis++) {
        const std::size_t along = shape[axis] == 1 ? 0 : index[axis];
        require(along < shape[axis], "shapes that do not fit");
        place = place * shape[axis] + along;
    }
    return values.at(place);
}

bool operator==(const Tensor &left, const Tensor &right) {
    return left.shape == right.shape && left.values == right.values;
}

bool operator!=(const Tensor &left, const Tensor &right) {
    return !(left == right);
}

// A vertex that is read twice is worked out twice; the demo's graph is small.
Tensor result_of(const Graph &graph, std::size_t slot, const Variables &variables) {
    const Slot &vertex = graph.slots.at(slot);
    if (vertex.kind == Kind::variable) {
        return of_its_shape(variables.at(slot), vertex.attributes);
    }
    if (vertex.kind == Kind::constant) {
        return Tensor{{1, 1, 1, 1}, {static_cast<double>(vertex.attributes[0])}};
    }
    require(vertex.kind == Kind::call, in_words(vertex));
    std::vector<Tensor> inputs;
    for (const std::size_t input : vertex.inputs) {
        inputs.push_back(result_of(graph, input, variables));
    }
    return result_of_call(vertex, inputs);
}

} // namespace demo
