//! Where a text is refused, against the definition: "the place of the first byte at
//! which no listing can go on, or the text's length where it ends early". Of each text
//! the bytes before the place are shown to begin a listing, by one that begins so, and
//! each beginning of a listing is shown not to be refused earlier.

use std::collections::BTreeSet;

use leafgraph_reference::blocks::GraphParts;
use leafgraph_reference::generate::{any_text, damaged_parts};
use leafgraph_reference::listing::{begins_number, listing_of, number_in, parts_of};
use leafgraph_reference::operators::counts_fit;
use leafgraph_reference::random::Random;

/// Longer texts would take long, since every beginning is read anew.
const LONGEST: usize = 300;

/// Where a text stops being the beginning of a listing; its length, if it does not.
fn stop(text: &[u8]) -> usize {
    parts_of(text).map_or_else(|stop| stop.place, |_| text.len())
}

/// "N from 1 to 512, [...] counts by document 01's tables, 1 to 4 outputs". Parts have
/// ascending slots below N, and no number that is outside its field but an operator's.
fn is_of_the_shape(parts: &GraphParts) -> bool {
    (1..=512).contains(&parts.slots.len())
        && (1..=4).contains(&parts.outputs.len())
        && parts.slots.iter().all(|vertex| {
            let counts = [vertex.inputs.len(), vertex.attributes.len()].map(|count| count as u8);
            counts_fit(vertex.kind, vertex.operator, counts[0], counts[1])
        })
}

/// A listing that begins so, found byte by byte: what closes comes first.
fn completed(beginning: &[u8]) -> Option<Vec<u8>> {
    let mut text = beginning.to_vec();
    while parts_of(&text).is_err() {
        let bytes = b"\n]}outgraphcnsvibleupj[{0123456789 ".iter();
        let next =
            bytes.copied().find(|&byte| stop(&[&text[..], &[byte]].concat()) > text.len())?;
        text.push(next);
    }
    Some(text)
}

/// A text is accepted where it is the listing of what it is said to list.
fn is_listing(text: &[u8]) -> bool {
    parts_of(text)
        .is_ok_and(|parts| is_of_the_shape(&parts) && listing_of(&parts).as_bytes() == text)
}

#[test]
fn what_stands_before_the_place_begins_a_listing() {
    let mut random = Random::new(72);
    let mut refused = 0;
    while refused < 1500 {
        let (_, text) = any_text(&mut random);
        match parts_of(&text) {
            _ if text.len() > LONGEST => {}
            Ok(_) => assert!(is_listing(&text), "{}", String::from_utf8_lossy(&text)),
            Err(stop) => {
                refused += 1;
                let before = &text[..stop.place];
                let listing = completed(before);
                assert!(
                    listing.is_some_and(|listing| is_listing(&listing)),
                    "{}",
                    String::from_utf8_lossy(before)
                );
            }
        }
    }
}

/// So no beginning of a listing is refused before its end.
#[test]
fn every_beginning_of_a_listing_can_go_on() {
    let mut random = Random::new(73);
    let mut looked_at = 0;
    while looked_at < 500 {
        let parts = damaged_parts(&mut random);
        let text = listing_of(&parts).into_bytes();
        assert!(is_of_the_shape(&parts) && parts_of(&text) == Ok(parts));
        if text.len() > LONGEST {
            continue;
        }
        looked_at += 1;
        for length in 0..text.len() {
            let beginning = parts_of(&text[..length]);
            assert_eq!(beginning.map_err(|stop| stop.place), Err(length));
        }
    }
}

/// What is refused stays refused there, whatever follows.
#[test]
fn the_bytes_behind_the_place_do_not_count() {
    let mut random = Random::new(74);
    for _ in 0..5000 {
        let (_, text) = any_text(&mut random);
        let place = stop(&text);
        if place == text.len() {
            continue;
        }
        let length = random.below(20);
        let other = [&text[..=place], &random.bytes(length)].concat();
        assert_eq!((stop(&text[..=place]), stop(&other)), (place, place));
    }
}

/// The texts of all numbers from the one to the other, counted.
fn texts(least: i64, most: i64) -> BTreeSet<Vec<u8>> {
    (least..=most).map(|number| number.to_string().into_bytes()).collect()
}

fn beginnings(texts: &BTreeSet<Vec<u8>>) -> BTreeSet<Vec<u8>> {
    let of = |text: &Vec<u8>| (0..=text.len()).map(|length| text[..length].to_vec()).collect();
    texts.iter().flat_map(|text| -> Vec<Vec<u8>> { of(text) }).collect()
}

/// All texts of up to four bytes that a number may have.
fn short_texts() -> Vec<Vec<u8>> {
    let mut texts = vec![vec![]];
    let mut from = 0;
    for _ in 0..4 {
        let until = texts.len();
        for at in from..until {
            let longer = b"-0123456789".iter().map(|&byte| [&texts[at][..], &[byte]].concat());
            texts.extend(longer.collect::<Vec<_>>());
        }
        from = until;
    }
    texts
}

#[test]
fn numbers_go_on_as_counting_says() {
    let short = short_texts();
    let ranges = [
        (0, 0),
        (1, 14),
        (1, 512),
        (6, 11),
        (5, 9),
        (9, 10),
        (42, 511),
        (99, 101),
        (-3, 2),
        (-120, -9),
        (-1, 0),
        (0, 65535),
        (-1500, 2500),
    ];
    for (least, most) in ranges {
        let whole = texts(least, most);
        let beginnings = beginnings(&whole);
        for text in &short {
            let (begins, number) =
                (begins_number(text, &(least..=most)), number_in(text, &(least..=most)));
            assert_eq!(begins, beginnings.contains(text), "{least} {most} {text:?}");
            let text_of = number.map(|number| number.to_string().into_bytes());
            assert_eq!(text_of.as_ref(), whole.get(text), "{least} {most} {text:?}");
        }
    }
}

/// All of these have five digits, where the short texts have four bytes.
#[test]
fn long_numbers_go_on_as_counting_says() {
    let names = beginnings(&texts(0, 65535));
    for number in 10_000..=99_999 {
        let text = number.to_string().into_bytes();
        assert_eq!(begins_number(&text, &(0..=65535)), names.contains(&text));
        assert_eq!(number_in(&text, &(0..=65535)), Some(number).filter(|&one| one <= 65535));
        assert!(!begins_number(&[&text[..], b"0"].concat(), &(0..=65535)));
    }
}
