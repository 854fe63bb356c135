//! The comparison notices programs that get request 7/13 wrong: each one here is the
//! proved library with one thing spoilt.

use leafgraph_fuzz::comparison::compare;
use leafgraph_fuzz::input::{Control, Input, CUT_AT_MARK, MAP};
use leafgraph_fuzz::library::{Library, Operation, PROVED, SECOND};
use leafgraph_fuzz::listing_examples::{
    reading_examples, writing_examples, ReadingExample, WritingExample,
};
use leafgraph_fuzz::tally::Tally;
use leafgraph_reference::blocks::{e1, rr};
use leafgraph_reference::graph::HEADER;
use leafgraph_reference::reply::{number_of, place_of, value_of};

const NO_LISTING: u64 = 44;
const UNSOUND: u64 = 45;
const BLOCK_LENGTH: u64 = 46;

fn control(spare: i8) -> Control {
    let map_length = 32_u8.checked_add_signed(spare).expect("a length");
    Control { repairs: CUT_AT_MARK, map_length, ..Control::default() }
}

fn reading_input(example: &ReadingExample) -> Vec<u8> {
    control(example.spare).input_bytes_with_text(example.text.as_bytes())
}

fn writing_input(example: &WritingExample) -> Vec<u8> {
    control(example.spare).input_bytes(&example.graph.block(), &rr().block())
}

/// Whether there is a difference, which is then in this operation.
fn differs(library: &Library, bytes: &[u8], operation: Operation) -> bool {
    compare(library, bytes, &mut Tally::new()).is_err_and(|difference| {
        assert_eq!(difference.operation, operation, "{difference}");
        true
    })
}

/// The names of the texts on which a difference is seen.
fn noticed_in_texts(library: &Library) -> Vec<&'static str> {
    let differs = |example: &ReadingExample| {
        differs(library, &reading_input(example), Operation::ReadListing)
    };
    let examples = reading_examples();
    examples.iter().filter(|example| differs(example)).map(|example| example.name).collect()
}

/// The same of the graphs.
fn noticed_in_graphs(library: &Library) -> Vec<&'static str> {
    let differs = |example: &WritingExample| {
        differs(library, &writing_input(example), Operation::WriteListing)
    };
    let examples = writing_examples();
    examples.iter().filter(|example| differs(example)).map(|example| example.name).collect()
}

type Program = fn(&[u8], &mut [u8]) -> u64;

fn noticed_of_reading(read_listing: Program) -> Vec<&'static str> {
    noticed_in_texts(&Library { read_listing, ..PROVED })
}

fn noticed_of_writing(write_listing: Program) -> Vec<&'static str> {
    noticed_in_graphs(&Library { write_listing, ..PROVED })
}

fn read(text: &[u8], graph: &mut [u8]) -> u64 {
    (PROVED.read_listing)(text, graph)
}

/// The reply with another place.
fn at(reply: u64, place: usize) -> u64 {
    u64::from(number_of(reply)) | (place as u64) << 8
}

fn place_in(reply: u64) -> usize {
    place_of(reply) as usize
}

fn is_in_number(byte: u8) -> bool {
    byte.is_ascii_digit() || byte == b'-'
}

#[test]
fn right_programs_pass() {
    for library in [PROVED, SECOND] {
        assert!(noticed_in_texts(&library).is_empty() && noticed_in_graphs(&library).is_empty());
    }
}

#[test]
fn examples_are_answered_as_they_say() {
    for program in [PROVED, SECOND] {
        for example in reading_examples() {
            let mut graph = Input::cut(&reading_input(&example)).graph_buffer();
            let reply = (program.read_listing)(example.text.as_bytes(), &mut graph);
            assert_eq!(reply, example.reply, "{}", example.name);
        }
        for example in writing_examples() {
            let mut text = Input::cut(&writing_input(&example)).text_buffer();
            let reply = (program.write_listing)(&example.graph.block(), &mut text);
            assert_eq!(reply, example.reply, "{}", example.name);
        }
    }
}

/// Each text that one byte more, less or other makes of some listings, and each cut.
#[test]
fn single_bytes_changed_are_answered_alike() {
    let mut tally = Tally::new();
    for example in reading_examples().into_iter().filter(|example| example.reply == 0) {
        let text = example.text.as_bytes();
        for at in 0..=text.len() {
            let (before, behind) = text.split_at(at);
            let rest = behind.get(1..).unwrap_or(&[]);
            let mut changed = vec![before.to_vec(), [before, rest].concat()];
            for byte in
                (0..=255).filter(|byte: &u8| byte.is_multiple_of(3) || byte.is_ascii_graphic())
            {
                changed
                    .extend([[before, &[byte], rest].concat(), [before, &[byte], behind].concat()]);
            }
            for text in changed {
                let bytes = control(0).input_bytes_with_text(&text);
                compare(&PROVED, &bytes, &mut tally).expect("no difference");
            }
        }
    }
    assert!(tally.calls() > 100_000);
}

/// The text without zeros before other digits of a number.
fn without_leading_zeros(text: &[u8]) -> Vec<u8> {
    let leads = |at: usize| {
        let before = at.checked_sub(1).map_or(b' ', |before| text[before]);
        let next = text.get(at + 1).copied().unwrap_or(b' ');
        text[at] == b'0' && !before.is_ascii_digit() && next.is_ascii_digit()
    };
    (0..text.len()).filter(|&at| !leads(at)).map(|at| text[at]).collect()
}

#[test]
fn a_leading_zero_accepted_is_noticed() {
    let names = noticed_of_reading(|text, graph| read(&without_leading_zeros(text), graph));
    let expected = [
        "n-leading-zero",
        "slot-leading-zero",
        "operator-leading-zero",
        "input-leading-zero",
        "attribute-leading-zero",
        "attribute-minus-leading-zero",
    ];
    assert_eq!(names, expected);
}

#[test]
fn minus_zero_accepted_is_noticed() {
    let names = noticed_of_reading(|text, graph| {
        let text = String::from_utf8_lossy(text).replace("-0}", "0}").replace("-0 ", "0 ");
        read(text.as_bytes(), graph)
    });
    assert_eq!(names, ["attribute-minus-zero"]);
}

/// The place of a number's first byte, where its end or a later one is the right one.
#[test]
fn the_place_of_a_whole_number_is_noticed() {
    let names = noticed_of_reading(|text, graph| {
        let reply = read(text, graph);
        if u64::from(number_of(reply)) != NO_LISTING {
            return reply;
        }
        let place = place_in(reply);
        let digits = text[..place].iter().rev().take_while(|&&byte| is_in_number(byte)).count();
        let goes_on = text.get(place).is_some_and(|&byte| is_in_number(byte));
        at(reply, if goes_on { place - digits } else { place })
    });
    let expected = [
        "n-513",
        "operator-15",
        "input-leading-zero",
        "input-65536",
        "attribute-leading-zero",
        "attribute-minus-zero",
        "attribute-minus-leading-zero",
        "attribute-too-large",
        "attribute-too-small",
        "output-65536",
        "slot-n",
    ];
    assert_eq!(names, expected);
}

/// A slot's number that is complete and does not fit: a longer one would.
#[test]
fn a_number_given_up_too_early_is_noticed() {
    let names = noticed_of_reading(|text, graph| {
        let reply = read(text, graph);
        let place = place_in(reply);
        match number_of(reply) == NO_LISTING as u8 && text.get(place) == Some(&b' ') {
            true if text[place - 1] == b'1' => at(reply, place - 1),
            _ => reply,
        }
    });
    assert!(names.contains(&"slot-might-go-on"), "{names:?}");
    assert!(!names.contains(&"slot-n") && !names.contains(&"slots-swapped"), "{names:?}");
}

#[test]
fn an_early_end_at_the_last_byte_is_noticed() {
    let names = noticed_of_reading(|text, graph| {
        let reply = read(text, graph);
        let ends = number_of(reply) == NO_LISTING as u8 && place_in(reply) == text.len();
        at(reply, place_in(reply) - usize::from(ends && !text.is_empty()))
    });
    let expected = [
        "ends-in-opening",
        "ends-in-n",
        "ends-in-word",
        "ends-in-number",
        "ends-before-out",
        "no-last-line-end",
        "no-listing-and-long",
    ];
    assert_eq!(names, expected);
}

#[test]
fn a_missing_last_line_end_accepted_is_noticed() {
    let names = noticed_of_reading(|text, graph| match text.last() {
        None | Some(b'\n') => read(text, graph),
        Some(_) => match read(&[text, b"\n"].concat(), graph) {
            0 => 0,
            _ => read(text, graph),
        },
    });
    assert_eq!(names, ["no-last-line-end"]);
}

/// The lines between the first and the last, in the order of their numbers.
fn sorted(text: &[u8]) -> Vec<u8> {
    let text = String::from_utf8_lossy(text);
    let mut lines: Vec<&str> = text.split_inclusive('\n').collect();
    let last = lines.len().saturating_sub(1);
    if last > 1 {
        let number =
            |line: &&str| line.split(' ').next().map_or(0, |word| word.parse().unwrap_or(0));
        lines[1..last].sort_by_key(|line| -> u32 { number(line) });
    }
    lines.concat().into_bytes()
}

#[test]
fn slots_in_any_order_accepted_are_noticed() {
    let names = noticed_of_reading(|text, graph| match read(&sorted(text), graph) {
        0 => 0,
        _ => read(text, graph),
    });
    assert_eq!(names, ["slots-swapped", "slot-might-go-on", "slot-behind-last"]);
}

#[test]
fn more_behind_a_listing_accepted_is_noticed() {
    let names = noticed_of_reading(|text, graph| {
        let reply = read(text, graph);
        match number_of(reply) == NO_LISTING as u8 && place_in(reply) < text.len() {
            true if read(&text[..place_in(reply)], graph) == 0 => 0,
            _ => reply,
        }
    });
    assert_eq!(names, ["line-behind", "zero-behind", "listing-behind"]);
}

/// "45 unsound graph, 46 graph buffer not exactly 24 + 48N bytes, in that order"
#[test]
fn the_buffer_before_the_graph_is_noticed() {
    let names = noticed_of_reading(|text, graph| match read(text, graph) {
        UNSOUND if graph.len() % 48 != HEADER => BLOCK_LENGTH,
        reply => reply,
    });
    assert_eq!(names, ["unsound-and-short", "unsound-and-long"]);
}

/// A program that judges a graph while it reads.
#[test]
fn an_unsound_graph_told_as_no_listing_is_noticed() {
    let names = noticed_of_reading(|text, graph| match read(text, graph) {
        UNSOUND => NO_LISTING | (text.len() as u64) << 8,
        reply => reply,
    });
    let expected = [
        "no-vertex",
        "index-0",
        "index-below-0",
        "input-empty",
        "input-n",
        "input-65535",
        "reads-itself",
        "cycle",
        "output-65535",
        "unsound-and-short",
        "unsound-and-long",
    ];
    assert_eq!(names, expected);
}

#[test]
fn a_longer_buffer_taken_is_noticed() {
    let names = noticed_of_reading(|text, graph| match read(text, graph) {
        BLOCK_LENGTH if graph.len() > 168 => read(text, &mut graph[..168]),
        reply => reply,
    });
    assert_eq!(names, ["block-long", "block-long-by-half-a-record"]);
}

/// Programs that write while they read or count, and refuse then.
#[test]
fn a_refusal_that_writes_is_noticed() {
    let unsound = noticed_of_reading(|text, graph| {
        let reply = read(text, graph);
        if reply == UNSOUND && graph.len() > 2 {
            graph[..3].copy_from_slice(b"LGT");
        }
        reply
    });
    assert!(unsound.contains(&"index-0") && unsound.contains(&"unsound-and-long"), "{unsound:?}");
    let short = noticed_of_writing(|graph, text| {
        let mut whole = vec![0; 1000];
        let length = value_of((PROVED.write_listing)(graph, &mut whole)) as usize;
        let fits = length.min(text.len());
        text[..fits].copy_from_slice(&whole[..fits]);
        (PROVED.write_listing)(graph, text)
    });
    assert_eq!(short, ["written-one-short", "written-half"]);
}

#[test]
fn false_counts_are_noticed() {
    let names = noticed_of_reading(|text, graph| {
        let reply = read(text, graph);
        if reply == 0 {
            graph[HEADER + 40] = 0;
        }
        reply
    });
    // Slot 0 is Empty in the others that are read.
    assert_eq!(names, ["papers"]);
}

#[test]
fn a_cleared_rest_is_noticed() {
    let names = noticed_of_writing(|graph, text| {
        let reply = (PROVED.write_listing)(graph, text);
        if number_of(reply) == 0 {
            text[value_of(reply) as usize..].fill(0);
        }
        reply
    });
    assert_eq!(names, ["written-one-more", "written-many-more"]);
}

#[test]
fn another_value_is_noticed() {
    let none = noticed_of_writing(|graph, text| (PROVED.write_listing)(graph, text) & 0xff);
    let written = [
        "written",
        "written-one-more",
        "written-many-more",
        "written-extremes",
        "written-empty-first",
    ];
    assert_eq!(none, written);
    let with_refusal = noticed_of_writing(|graph, text| {
        let reply = (PROVED.write_listing)(graph, text);
        let mut whole = vec![0; 1000];
        reply | (PROVED.write_listing)(graph, &mut whole) & !0xff
    });
    assert_eq!(with_refusal, ["written-one-short", "written-half"]);
}

/// Where the text's bytes begin, and how long the buffers are.
#[test]
fn texts_are_cut() {
    let cut = |repairs: u8, text: &[u8]| {
        let control = Control { repairs, map_length: 35, ..Control::default() };
        Input::cut(&control.input_bytes_with_text(text))
    };
    let texts: [(&[u8], usize); 5] =
        [(b"", 0), (b"graph 2\nout 0\n", 2), (b"graph 12", 12), (b"LGL", 0), (b"graph 513\n", 512)];
    for (text, slots) in texts {
        let input = cut(CUT_AT_MARK, text);
        assert_eq!((&input.text[..], input.graph.len(), input.rule.len()), (text, 0, 0));
        assert_eq!(input.graph_buffer().len(), 24 + 48 * slots + 3);
        let input = cut(CUT_AT_MARK | MAP, text);
        assert_eq!(input.graph_buffer().len(), 24 + 48 * slots);
        assert!(cut(0, text).text.is_empty());
    }
}

/// Without a text of its own, an input has its graph's listing.
#[test]
fn a_graphs_own_listing_is_the_text() {
    let control = Control { repairs: MAP, ..Control::default() };
    let input = Input::cut(&control.input_bytes(&e1().block(), &rr().block()));
    assert!(input.text.starts_with(b"graph 6\n0 variable") && input.text.ends_with(b"out 4\n"));
    assert_eq!(input.text_buffer().len(), input.text.len());
    let old = Input::cut(&control.input_bytes(&e1().version_1_block(), &rr().block()));
    assert!(old.text.is_empty());
    assert_eq!(old.in_other_version().map(|other| other.text), Some(input.text));
}
