//! The comparison notices programs that get request 8/13 wrong. The library has no request
//! 8/13 yet: each program here is the proved library for version 1, called with each fixed
//! rule that a variadic one stands for, with one thing spoilt. The one with nothing spoilt
//! is a second telling of the expansion, and agrees with the second program.

use leafgraph_fuzz::comparison::{compare_programs, Difference, Programs};
use leafgraph_fuzz::input::{Control, CUT_AT_MARK};
use leafgraph_fuzz::layered::{fixed_rules, layered, Slip, SLIPS};
use leafgraph_fuzz::library::{Library, Operation, SECOND_WITH_VARIADIC};
use leafgraph_fuzz::tally::Tally;
use leafgraph_fuzz::variadic_examples::{variadic_examples, VariadicExample};
use leafgraph_reference::generate::{
    damaged_variadic_rule_of, rule_with_unsound_expansion, variadic_case,
};
use leafgraph_reference::random::Random;

fn compare(library: &Library, bytes: &[u8], tally: &mut Tally) -> Result<(), Difference> {
    compare_programs(Programs { library, second: &SECOND_WITH_VARIADIC }, bytes, tally)
}

fn input(example: &VariadicExample) -> Vec<u8> {
    let map_length = example.map_length;
    let control = Control { repairs: CUT_AT_MARK, map_length, ..Control::default() };
    control.input_bytes(&example.graph.block(), &example.rule.block())
}

/// The examples on which a difference is seen, with the operation.
fn noticed(library: &Library) -> Vec<(&'static str, Operation)> {
    let difference = |example: &VariadicExample| {
        let outcome = compare(library, &input(example), &mut Tally::new());
        outcome.err().map(|difference| (example.name, difference.operation))
    };
    variadic_examples().iter().filter_map(difference).collect()
}

fn names(library: &Library) -> Vec<&'static str> {
    noticed(library).into_iter().map(|(name, _)| name).collect()
}

#[test]
fn right_programs_pass() {
    assert_eq!(noticed(&SECOND_WITH_VARIADIC), []);
    assert_eq!(noticed(&layered::<0>()), []);
}

/// Every example is one that the layered program expands by itself, but for those that are
/// refused.
#[test]
fn examples_fit_into_version_1() {
    for example in variadic_examples() {
        let fits = fixed_rules(Slip::None, &example.rule.block()).is_some();
        assert_eq!(fits, example.name != "copy-2-not-below", "{}", example.name);
    }
}

/// The second telling of the expansion, on random rules: all that fit into version 1.
#[test]
fn the_second_program_agrees_with_version_1() {
    let (mut random, mut fitting, mut tally) = (Random::new(8), 0, Tally::new());
    for case in 0..2000 {
        let (_, made) = variadic_case(&mut random);
        let block = match case % 8 {
            0 => damaged_variadic_rule_of(&mut random, made.rule),
            _ => made.rule.block(),
        };
        fitting += usize::from(fixed_rules(Slip::None, &block).is_some());
        let (repairs, start) = (CUT_AT_MARK, made.start as u64);
        let control = Control { repairs, start, map_length: 128, ..Control::default() };
        let bytes = control.input_bytes(&made.graph.block(), &block);
        if let Err(difference) = compare(&layered::<0>(), &bytes, &mut tally) {
            panic!("case {case}: {difference}");
        }
    }
    assert!(fitting > 400, "{fitting}");
}

/// Random cases show each slip, too, and not only the examples that were made for it.
#[test]
fn random_cases_show_every_slip() {
    let programs = [
        layered::<1>(),
        layered::<2>(),
        layered::<3>(),
        layered::<4>(),
        layered::<5>(),
        layered::<6>(),
        layered::<7>(),
    ];
    for (slip, program) in SLIPS[1..].iter().zip(&programs) {
        let mut random = Random::new(1);
        let shows = (0..2000).any(|_| {
            let (_, case) = variadic_case(&mut random);
            let rule = match *slip == Slip::SizeOnly {
                true => rule_with_unsound_expansion(&mut random).block(),
                false => case.rule.block(),
            };
            let map_length = if *slip == Slip::ShortMap { 32 } else { 128 };
            let control = Control { repairs: CUT_AT_MARK, map_length, ..Control::default() };
            let bytes = control.input_bytes(&case.graph.block(), &rule);
            compare(program, &bytes, &mut Tally::new()).is_err()
        });
        assert!(shows, "{slip:?}");
    }
}

#[test]
fn a_template_copied_once_is_noticed() {
    let names = names(&layered::<1>());
    for name in ["six-gains", "copies-in-order", "shared-input", "sum-over-copies"] {
        assert!(names.contains(&name), "{names:?}");
    }
    assert!(!names.contains(&"one-gain") && !names.contains(&"map-of-32"), "{names:?}");
}

#[test]
fn a_copied_shared_vertex_is_noticed() {
    assert_eq!(names(&layered::<2>()), ["shared-input"]);
}

#[test]
fn an_outer_index_is_noticed() {
    let examples = ["index-under-sum", "sum-in-template", "sum-over-copies"];
    assert_eq!(noticed(&layered::<3>()), examples.map(|name| (name, Operation::Rewrite)));
}

#[test]
fn a_target_in_the_order_of_the_block_is_noticed() {
    let noticed = noticed(&layered::<4>());
    assert!(noticed.contains(&("copies-in-order", Operation::Rewrite)), "{noticed:?}");
    assert!(noticed.iter().all(|(name, _)| *name != "one-gain"), "{noticed:?}");
}

#[test]
fn a_check_of_sizes_only_is_noticed() {
    assert_eq!(noticed(&layered::<5>()), [("copy-2-not-below", Operation::CheckRule)]);
}

#[test]
fn the_match_of_the_least_n_is_noticed() {
    // Once it is rewritten, the lesser one stands behind the greater one in the other, too.
    let examples =
        [("lesser-n-first", Operation::Rewrite), ("lesser-n-later", Operation::FindMatch)];
    assert_eq!(noticed(&layered::<6>()), examples);
}

#[test]
fn a_map_of_32_bytes_is_noticed() {
    assert_eq!(noticed(&layered::<7>()), [("map-of-32", Operation::FindMatch)]);
}
