// What the slots and outputs of leaf_pipeline stand for, and results for its
// Variables: a made-up photograph of a leaf and made-up parameters.
//
// Every number is a multiple of a power of two, and variance plus epsilon is a
// power of four, so that no operation on them has to round.
#ifndef LEAFGRAPH_DEMO_LEAF_HPP
#define LEAFGRAPH_DEMO_LEAF_HPP

#include "meaning.hpp"

#include <array>
#include <cstddef>
#include <map>
#include <string>

namespace demo {

constexpr std::size_t photograph_slot = 0, old_unit_slot = 24, brightness_slot = 27;

// What the Variables are, by their slots.
using Names = std::map<std::size_t, std::string>;

inline Names variable_names() {
    return {{photograph_slot, "photograph"}, {1, "kernel"},   {2, "gamma"},
            {3, "beta"},                     {4, "mean"},     {5, "variance"},
            {old_unit_slot, "old unit"},     {brightness_slot, "brightness"}};
}

// The outputs.
constexpr std::size_t screen = 0, number = 1;

// A pale leaf: 4 by 4 pixels of red, then green, then blue.
inline Tensor photograph() {
    return {{1, 3, 4, 4}, {80,  96,  96,  80,  96,  112, 112, 96,  //
                           96,  112, 128, 96,  80,  96,  96,  80,  //
                           112, 128, 128, 112, 128, 144, 160, 128, //
                           128, 160, 176, 128, 112, 128, 144, 112, //
                           32,  48,  48,  32,  48,  64,  64,  48,  //
                           48,  64,  80,  48,  32,  48,  48,  32}};
}

// Smooths each channel over 3 by 3 pixels and takes a little of the channel
// before it away.
inline Tensor kernel() {
    const std::array<double, 9> smoothing = {1, 2, 1, 2, 4, 2, 1, 2, 1};
    Tensor tensor{{3, 3, 3, 3}, {}};
    for (std::size_t out = 0; out < 3; out++) {
        for (std::size_t in = 0; in < 3; in++) {
            for (std::size_t place = 0; place < 9; place++) {
                const bool before = in + 1 == out && place == 4;
                tensor.values.push_back(in == out ? smoothing[place] / 16 : before ? -0.125 : 0);
            }
        }
    }
    return tensor;
}

inline Tensor for_each_channel(double red, double green, double blue) {
    return {{3, 1, 1, 1}, {red, green, blue}};
}

inline Tensor one_value(double value) {
    return {{1, 1, 1, 1}, {value}};
}

inline Variables leaf_variables() {
    const double epsilon = 64.0 / 65536;
    return {{photograph_slot, photograph()},
            {1, kernel()},
            {2, for_each_channel(1, 4, 0.5)},
            {3, for_each_channel(4, -2, 2)},
            {4, for_each_channel(64, 72, 24)},
            {5, for_each_channel(4 - epsilon, 16 - epsilon, 1 - epsilon)},
            {old_unit_slot, one_value(2)},
            {brightness_slot, one_value(0.5)}};
}

} // namespace demo

#endif // LEAFGRAPH_DEMO_LEAF_HPP
