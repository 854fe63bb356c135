// Imports the leaf pipeline, rewrites it by six rules, sweeps and squeezes it, and shows that
// the number, which is measured in one of its branches, stays what it was.
//
// Usage: leaf_demo FOLDER, with the folder of the blocks. The exit status is 1 if
// anything is not as expected.

#include "demo/graph.hpp"
#include "demo/leaf.hpp"
#include "demo/listing.hpp"
#include "demo/meaning.hpp"
#include "leafgraph.hpp"

#include <array>
#include <cfenv>
#include <cstddef>
#include <cstdio>
#include <exception>
#include <stdexcept>
#include <string>
#include <utility>
#include <vector>

namespace {

using namespace demo;

struct Plan {
    const char *rule;
    std::size_t times; // that it applies
};

// An order in which each rule applies: mul_by_one comes before the merge, since the two
// stages that look alike read the same vertex only when the stages before them have gone;
// gain_over_gain comes after it, since it would change one of the two.
constexpr std::array<Plan, 6> plans = {{{"mul_by_one", 3},
                                        {"conv2d_batch_norm", 1},
                                        {"relu_over_relu", 1},
                                        {"shared_stage_merge", 1},
                                        {"gain_over_gain", 1},
                                        {"identity_removal", 1}}};
constexpr std::size_t times_at_most = 100;

// Counts what was tested, and says what is not as expected.
class Expectations {
public:
    void expect(bool holds, const std::string &what) {
        tested_++;
        if (!holds) {
            failed_++;
            std::printf("NOT AS EXPECTED: %s\n", what.c_str());
        }
    }

    bool summed_up() const {
        if (failed_ == 0) {
            std::printf("All %zu things that were tested on the way are as expected.\n", tested_);
        } else {
            std::printf("%zu of %zu things tested are NOT as expected.\n", failed_, tested_);
        }
        return failed_ == 0;
    }

private:
    std::size_t tested_ = 0, failed_ = 0;
};

// A pipeline and what comes out of it for the made-up photograph.
struct Pipeline {
    Block block;
    Graph graph;
    Tensor picture;
    Tensor measured;
    bool rounded; // whether some operation had to round
};

Pipeline run(Block block, const Variables &variables = leaf_variables()) {
    const leafgraph::Reply reply = leafgraph::check_graph(block);
    if (!reply) {
        throw std::runtime_error("the pipeline is refused: " + in_words(reply, block));
    }
    Graph graph = leafgraph::tool::read_graph(block);
    if (graph.outputs.size() != 2) {
        throw std::runtime_error("the pipeline has not two outputs");
    }
    std::feclearexcept(FE_INEXACT);
    Tensor picture = result_of(graph, graph.outputs[screen], variables);
    Tensor measured = result_of(graph, graph.outputs[number], variables);
    const bool rounded = std::fetestexcept(FE_INEXACT) != 0;
    return {std::move(block), std::move(graph), std::move(picture), std::move(measured), rounded};
}

bool same_results(const Pipeline &one, const Pipeline &other) {
    return one.picture == other.picture && one.measured == other.measured;
}

double number_of(const Pipeline &pipeline) {
    return pipeline.measured.values.at(0);
}

void want_done(leafgraph::Reply reply, const Block &block, const char *what) {
    if (!reply) {
        throw std::runtime_error(std::string("the pipeline can't be ") + what + ": "
                                 + in_words(reply, block));
    }
}

// ---- the import

// The pipeline as an older converter has stored it, as a block of version 1, imported.
Pipeline imported(const std::string &folder, Expectations &expectations) {
    Block block = read_file(folder + "/leaf_pipeline_version_1.lgt");
    const leafgraph::Reply refused = leafgraph::check_graph(block);
    std::printf("An older converter stored it as a block of version 1. All but an import refuse "
                "it:\n\n  %s.\n\n",
                in_words(refused, block).c_str());
    expectations.expect(!refused && leafgraph::wants_import(block),
                        "the old pipeline is no block of version 1");
    want_done(leafgraph::import_graph(block), block, "imported");
    std::printf("Imported, it is one of version 2. There each slot has its count: how many input "
                "places and\noutputs name it.\n\n");
    expectations.expect(block == read_file(folder + "/leaf_pipeline.lgt"),
                        "the imported pipeline is not the one that is there as version 2");
    return run(std::move(block));
}

// ---- the rules

struct Rule {
    std::string name;
    Block block;
};

Rule read_rule(const std::string &folder, const std::string &name) {
    Rule rule{name, read_file(folder + "/" + name + ".lgr")};
    const leafgraph::Reply reply = leafgraph::check_rule(rule.block);
    if (!reply) {
        throw std::runtime_error(name + " is refused: " + in_words(reply, rule.block));
    }
    return rule;
}

std::vector<std::size_t> slots_of(const leafgraph::Map &map) {
    std::vector<std::size_t> slots;
    for (std::size_t vertex = 0; map[vertex] != leafgraph::Map::no_slot; vertex++) {
        slots.push_back(map[vertex]);
    }
    return slots;
}

std::string times(std::size_t count) {
    return std::to_string(count) + (count == 1 ? " time" : " times");
}

// One application of a rule: the blocks around it, and its match in the one before.
struct Application {
    Block before, after;
    leafgraph::Map map;
};

// Rewrites by a rule until that is refused; the reply is the last one.
std::vector<Application> applications(Block &block, const Rule &rule, leafgraph::Reply &reply) {
    std::vector<Application> done;
    leafgraph::Map map;
    while (done.size() < times_at_most) {
        Block before = block;
        reply = leafgraph::rewrite(block, rule.block, 0, map);
        if (!reply) {
            break;
        }
        done.push_back({std::move(before), block, map});
    }
    return done;
}

// What the library says of a constant that the rule matches, and what became of it. It must
// stay as it was while something else reads it, and go with its last reader, which the last
// application takes.
void show_constant(const Application &application, const Rule &rule, std::size_t vertex,
                   bool is_last, Expectations &expectations) {
    const std::size_t slot = application.map[vertex];
    const Graph graph_after = leafgraph::tool::read_graph(application.after);
    const Slot before = leafgraph::tool::read_graph(application.before).slots[slot];
    const Slot &after = graph_after.slots[slot];
    const leafgraph::Answer answer = leafgraph::is_read_elsewhere(application.before, rule.block,
                                                                  application.map, vertex);
    want_done(answer.reply, application.before, "asked about");
    const bool stays = after.kind == Kind::constant;
    const std::string others = listed(readers(graph_after, slot));
    std::printf("    Is %s in slot %zu read elsewhere? %s: it %s.\n", in_words(before).c_str(),
                slot, answer.yes() ? "Yes" : "No",
                stays ? ("stays, still read by" + others).c_str() : "goes with its last reader");
    expectations.expect(answer.yes() == stays && answer.no() == !stays,
                        "a constant does not stay just where the library says yes");
    expectations.expect(stays == (before.count > 1),
                        "a constant does not stay just where something else reads it");
    expectations.expect(!stays || before.attributes == after.attributes, "a constant changed");
    expectations.expect(stays != is_last, "a constant is not shared, or outlives its readers");
}

void show_constants(const std::vector<Application> &done, const Rule &rule,
                    Expectations &expectations) {
    const auto source = leafgraph::tool::read_rule(rule.block).source;
    for (std::size_t vertex = 0; vertex < source.size(); vertex++) {
        if (source[vertex].kind == Kind::constant) {
            for (const Application &application : done) {
                show_constant(application, rule, vertex, &application == &done.back(),
                              expectations);
            }
        }
    }
}

// Rewrites by a rule until it matches no more, and says where it did.
Pipeline rewritten(const Pipeline &before, const Rule &rule, std::size_t times_expected,
                   Expectations &expectations) {
    Block block = before.block;
    leafgraph::Reply reply(leafgraph::Code::done);
    const std::vector<Application> done = applications(block, rule, reply);
    std::string matched;
    for (const Application &application : done) {
        matched += (matched.empty() ? ", at slots" : ", then") + listed(slots_of(application.map));
    }
    Pipeline after = run(std::move(block));
    const bool kept = same_results(before, after);
    std::printf("  %-18s  applied %s%s; the results %s.\n", rule.name.c_str(),
                times(done.size()).c_str(), matched.c_str(), kept ? "are the same" : "CHANGED");
    show_constants(done, rule, expectations);
    expectations.expect(done.size() == times_expected,
                        rule.name + " does not apply " + times(times_expected));
    expectations.expect(reply.code() == leafgraph::Code::no_match,
                        rule.name + " ends with: " + reply.what());
    expectations.expect(kept, rule.name + " changes a result");
    expectations.expect(!after.rounded, "an operation had to round");
    expectations.expect(has_true_counts(after.graph), "a count is not kept true");
    return after;
}

// One gain over another is left: the one below it has a second reader.
void show_gain_that_stays(const Graph &graph, const Rule &gain_over_gain, const Block &block,
                          Expectations &expectations) {
    leafgraph::Map map;
    const leafgraph::Reply reply = leafgraph::find_match(block, gain_over_gain.block, 0, map);
    std::size_t pairs = 0;
    for (const std::size_t upper : calls(graph, Operator::gain)) {
        const std::size_t lower = graph.slots[upper].inputs[0];
        if (is_call(graph.slots[lower], Operator::gain)) {
            pairs++;
            expectations.expect(graph.slots[lower].count > 1, "a gain that could go is left");
            expectations.expect(leading_to(graph, graph.outputs[number])[lower],
                                "the number does not read the gain that is left");
            std::printf("\n  Slot %zu is a gain over the gain in slot %zu, too. But the number "
                        "reads slot %zu as well,\n  so %s does not match there: %s.\n\n",
                        upper, lower, lower, gain_over_gain.name.c_str(), reply.what());
        }
    }
    expectations.expect(pairs == 1, "not one gain over a shared gain is left");
    expectations.expect(reply.code() == leafgraph::Code::no_match, "a shared gain would be taken");
}

Pipeline rewritten_by_all(const std::string &folder, const Pipeline &before,
                          Expectations &expectations) {
    std::printf("Six rules, each applied until it matches no more. The slots are those that its "
                "source\nvertices matched, in order. A constant that the converter stored once for "
                "several stages\nstays until the last of them goes. Whether anything else reads "
                "it, the library says of the\npipeline before each rewriting.\n\n");
    Pipeline now = before;
    for (const Plan &plan : plans) {
        now = rewritten(now, read_rule(folder, plan.rule), plan.times, expectations);
    }
    show_gain_that_stays(now.graph, read_rule(folder, "gain_over_gain"), now.block, expectations);
    return now;
}

// ---- what came of it

void show_results(const Pipeline &before, const Pipeline &after, Expectations &expectations) {
    const bool same_number = before.measured == after.measured;
    const bool same_picture = before.picture == after.picture;
    const bool exact = !before.rounded && !after.rounded;
    std::printf("Both pipelines, run on a made-up photograph of a pale leaf (%s operation had to "
                "round):\n\n",
                exact ? "no" : "SOME");
    std::printf("  The number, the mean green: %.10g before, %.10g after: %s.\n", number_of(before),
                number_of(after), same_number ? "equal" : "NOT equal");
    std::printf("  The picture for the screen: %zu values, each of them %s.\n\n",
                before.picture.values.size(), same_picture ? "equal" : "NOT equal");
    expectations.expect(exact, "an operation had to round");
    expectations.expect(same_number, "the number changed");
    expectations.expect(same_picture, "the picture changed");
    expectations.expect(stages(after.graph, true).size() < stages(before.graph, true).size(),
                        "there are no fewer stages to run");
}

// How many stages that boost greens have a path to the number.
std::size_t boosts_above_number(const Graph &graph) {
    const std::vector<bool> leads = leading_to(graph, graph.outputs[number]);
    std::size_t count = 0;
    for (const std::size_t slot : calls(graph, Operator::vivid)) {
        count += leads[slot] ? 1 : 0;
    }
    return count;
}

void show_boosts(const Pipeline &before, const Pipeline &after, Expectations &expectations) {
    const std::size_t there_before = calls(before.graph, Operator::vivid).size();
    const std::size_t there_after = calls(after.graph, Operator::vivid).size();
    const std::size_t above_before = boosts_above_number(before.graph);
    const std::size_t above_after = boosts_above_number(after.graph);
    std::printf("Vivid stages in the pipeline: %zu before, %zu after.\n"
                "Of them on a path to the number: %zu before, %zu after.\n\n",
                there_before, there_after, above_before, above_after);
    expectations.expect(there_before == 1 && there_after == 1, "not one vivid stage is there");
    expectations.expect(above_before == 0 && above_after == 0,
                        "the number is taken after a boost");
}

// The predecessor's fault: one reader too many is moved, and the number is read after the
// boost. While the counts are those of before, the check tells.
Block with_fault(const Pipeline &after, std::size_t mean, std::size_t boost,
                 Expectations &expectations) {
    const std::size_t was_read = after.graph.slots[mean].inputs.at(0);
    Block block = after.block;
    put_input(block, mean, 0, boost);
    const leafgraph::Reply told = leafgraph::check_graph(block);
    std::printf("What the predecessor did: it merged two stages and moved one reader too many. "
                "Were slot %zu\nto read slot %zu, and nothing else changed, the counts would "
                "tell:\n\n  %s.\n\n",
                mean, boost, in_words(told, block).c_str());
    expectations.expect(told.code() == leafgraph::Code::bad_graph_count, "no count tells");
    put_count(block, was_read, leafgraph::stored_count(block, was_read) - 1U);
    put_count(block, boost, leafgraph::stored_count(block, boost) + 1U);
    return block;
}

void show_fault(const Pipeline &after, Expectations &expectations) {
    const std::size_t boost = calls(after.graph, Operator::vivid).at(0);
    const std::size_t mean = after.graph.outputs[number];
    const Pipeline faulty = run(with_fault(after, mean, boost, expectations));
    const double right = number_of(after), wrong = number_of(faulty);
    std::printf("With the counts moved along, the graph block is sound: no check of the block "
                "alone could tell.\n\n");
    std::printf("  Vivid stages on a path to the number: %zu.\n",
                boosts_above_number(faulty.graph));
    std::printf("  The number: %.10g instead of %.10g, so the pale leaf reads %.10g %% greener "
                "than it is.\n\n",
                wrong, right, 100 * (wrong - right) / right);
    expectations.expect(boosts_above_number(faulty.graph) == 1, "the fault shows no boost");
    expectations.expect(wrong > right, "the fault makes no leaf greener");
}

// ---- the end

// Sweeps the block, and says what went and which Variables stayed that nobody reads.
Block swept(const Pipeline &before, Expectations &expectations) {
    Block block = before.block;
    want_done(leafgraph::sweep(block), block, "swept");
    const Graph after = leafgraph::tool::read_graph(block);
    expectations.expect(has_true_counts(after), "a sweep does not keep a count true");
    std::vector<std::size_t> gone, unread;
    for (std::size_t slot = 0; slot < after.slots.size(); slot++) {
        const Kind kind = before.graph.slots[slot].kind;
        const bool stays = after.slots[slot].kind != Kind::empty;
        const bool needed = leading_to(before.graph, before.graph.outputs[screen])[slot]
                            || leading_to(before.graph, before.graph.outputs[number])[slot];
        if (kind != Kind::empty && !needed) {
            (stays ? unread : gone).push_back(slot);
            expectations.expect(stays == (kind == Kind::variable), "a sweep is wrong in a slot");
        }
        expectations.expect(!needed || stays, "a sweep takes what is needed");
    }
    std::printf("Last, a sweep empties the slots of what no output needs:%s. The Variable in "
                "slot%s stays,\nthough nobody needs it any more: the phone feeds Variables by "
                "number.\n",
                listed(gone).c_str(), listed(unread).c_str());
    expectations.expect(!gone.empty(), "there is no stage to sweep");
    expectations.expect(unread.size() == 1, "not one Variable is there that nobody reads");
    return block;
}

// What belongs to the Variables, each by its new number.
template <class OfSlots>
OfSlots moved(const OfSlots &of_old_slots, leafgraph::Moves moves) {
    OfSlots result;
    for (const auto &[slot, belongs] : of_old_slots) {
        result.emplace(moves[slot], belongs);
    }
    return result;
}

// Squeezes a swept block, and shows what moved and what is there then. The results of
// the Variables go with them.
Pipeline squeezed(Block block, Expectations &expectations) {
    const Graph before = leafgraph::tool::read_graph(block);
    Block list(leafgraph::moves_length(block));
    const auto [reply, moves] = leafgraph::squeeze(block, list);
    want_done(reply, block, "squeezed");
    Pipeline after = run(std::move(block), moved(leaf_variables(), moves));
    std::string said;
    std::size_t next = 0; // the slot to which the next vertex must go
    for (std::size_t slot = 0; slot < moves.size(); slot++) {
        if (before.slots[slot].kind == Kind::empty) {
            expectations.expect(moves.was_empty(slot), "an Empty slot moves");
            continue;
        }
        expectations.expect(moves[slot] == next && after.graph.slots[next].kind
                                == before.slots[slot].kind, "a vertex is not in its place");
        expectations.expect(after.graph.slots[next].count == before.slots[slot].count,
                            "a count does not go with its vertex");
        if (slot != next) {
            said += (said.empty() ? "" : ", ") + std::to_string(slot) + " to "
                    + std::to_string(next);
        }
        next++;
    }
    std::printf("A squeeze moves the others to the lowest slots, in their old order, and says "
                "where each\nwent: %s.\n\n",
                said.c_str());
    show_graph("at the end", after.graph, moved(variable_names(), moves));
    expectations.expect(moves[brightness_slot] != brightness_slot, "no needed Variable moves");
    return after;
}

void show_end(const Pipeline &before, Expectations &expectations) {
    const Pipeline end = squeezed(swept(before, expectations), expectations);
    const bool kept = same_results(before, end);
    std::printf("With each Variable's result in its new slot, number and picture %s.\n\n",
                kept ? "are the same" : "CHANGED");
    expectations.expect(kept, "sweep or squeeze changes a result");
    expectations.expect(boosts_above_number(end.graph) == 0, "the number is taken after a boost");
}

void show_proof() {
    std::printf("What is shown here of the rules on one photograph is proved for every graph, rule "
                "and start,\nwhatever the operators mean, where the rule itself keeps its outputs' "
                "results: Demand3 in\ncrates/answers/specs/Statements.antt. So it is of the sweep, "
                "SweepKeeps: every vertex that stays\nand every output has its result; and of the "
                "squeeze, SqueezeKeeps: every vertex has it in its\nnew slot, and every output has "
                "its own, where each Variable's result follows it.\n");
}

bool demonstrated(const std::string &folder) {
    Expectations expectations;
    std::printf("The leaf pipeline in small: the photograph of a leaf goes in, a picture for the "
                "screen and a\nnumber come out. The number, the mean green, decides how much "
                "nitrogen is ordered. It must\nnever be taken after the stage vivid, which boosts "
                "greens for the screen.\n\n");
    const Pipeline before = imported(folder, expectations);
    show_graph("before", before.graph, variable_names());
    const Pipeline after = rewritten_by_all(folder, before, expectations);
    show_graph("after", after.graph, variable_names());
    show_results(before, after, expectations);
    show_boosts(before, after, expectations);
    show_fault(after, expectations);
    show_end(after, expectations);
    show_proof();
    return expectations.summed_up();
}

} // namespace

int main(int count, char **arguments) {
    if (count != 2) {
        std::fprintf(stderr, "usage: leaf_demo FOLDER\n");
        return 1;
    }
    try {
        return demonstrated(arguments[1]) ? 0 : 1;
    } catch (const std::exception &fault) {
        std::printf("NOT AS EXPECTED: %s\n", fault.what());
        return 1;
    }
}
