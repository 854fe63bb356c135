//! Searches that fail by one place: what would be found if it named something
//! of its own.

use leafgraph_reference::blocks::variable;
use leafgraph_reference::counts::write_true_counts;
use leafgraph_reference::graph::{Graph, HEADER, RECORD};
use leafgraph_reference::matching::{least_match, Images};
use leafgraph_reference::operators::CONST;
use leafgraph_reference::rule::Rule;

/// Larger graphs are not looked at, since each change costs a search.
pub const MOST_SLOTS: usize = 24;

/// Why a search fails.
#[derive(Clone, Copy, PartialEq, Eq)]
pub enum Reason {
    /// Two Consts of the rule would be matched to one slot.
    OneConstForTwo,
    /// A Const and a wildcard of the rule would.
    OneConstForWildcard,
    /// Something outside reads an interior image that is no Const.
    SharedInterior,
    /// A graph output names such an image.
    InteriorAsOutput,
}

/// An input place or an output place of a graph.
struct Place {
    /// Where its number stands in the block.
    at: usize,
    /// None for an output place.
    reader: Option<u16>,
    named: u16,
}

/// The reasons why there is no match from this start, one for each place that
/// alone stands in the way.
pub fn reasons(graph: Graph, rule: Rule, start: usize) -> Vec<Reason> {
    if graph.slot_count() > MOST_SLOTS {
        return vec![];
    }
    let reason = |place: &Place| {
        let changed = with_place_of_its_own(graph, place);
        let images = least_match(Graph::parse(&changed).ok()?, rule, start)?;
        let looked_at = Changed { graph, rule, images };
        looked_at.reason(place)
    };
    places(graph).iter().filter_map(reason).collect()
}

fn places(graph: Graph) -> Vec<Place> {
    let mut places = vec![];
    for (reader, slot) in graph.slots().enumerate() {
        for (place, named) in slot.inputs().enumerate() {
            let at = HEADER + RECORD * reader + 4 + 2 * place;
            places.push(Place { at, reader: Some(reader as u16), named });
        }
    }
    for (place, named) in graph.outputs().enumerate() {
        places.push(Place { at: 10 + 2 * place, reader: None, named });
    }
    places
}

/// The same graph with one slot more, which this place names: a copy of the
/// Const that it named, or else a Variable. Either reads nothing, so that
/// nothing else is shared by it.
fn with_place_of_its_own(graph: Graph, place: &Place) -> Vec<u8> {
    let slots = graph.slot_count();
    let mut bytes = graph.bytes().to_vec();
    let named = usize::from(place.named);
    match graph.slot(named).kind() {
        CONST => bytes.extend_from_within(HEADER + RECORD * named..HEADER + RECORD * (named + 1)),
        _ => bytes.extend(variable().record()),
    }
    bytes[6..8].copy_from_slice(&(slots as u16 + 1).to_le_bytes());
    bytes[place.at..place.at + 2].copy_from_slice(&(slots as u16).to_le_bytes());
    write_true_counts(&mut bytes);
    bytes
}

/// A match that there would be.
struct Changed<'a> {
    /// The graph as it is.
    graph: Graph<'a>,
    rule: Rule<'a>,
    images: Images,
}

impl Changed<'_> {
    /// Whether this slot is the image of a source vertex of which this holds.
    fn is_image(&self, slot: u16, holds: impl Fn(u8) -> bool) -> bool {
        (0..self.rule.source_count())
            .any(|vertex| self.images[vertex] == slot && holds(vertex as u8))
    }

    fn is_inside(&self, slot: u16) -> bool {
        self.is_image(slot, |vertex| !self.rule.is_rule_input(vertex))
    }

    /// None where the change has made another match.
    fn reason(&self, place: &Place) -> Option<Reason> {
        let added = self.graph.slot_count() as u16;
        if self.graph.slot(place.named.into()).kind() == CONST {
            return match [place.named, added].map(|slot| self.is_inside(slot)) {
                [true, true] => Some(Reason::OneConstForTwo),
                [false, false] => None,
                _ => Some(Reason::OneConstForWildcard),
            };
        }
        let is_output = |vertex: u8| self.rule.source_outputs().any(|output| output == vertex);
        let interior = self.is_inside(place.named) && !self.is_image(place.named, is_output);
        match place.reader {
            _ if !interior => None,
            Some(reader) => (!self.is_inside(reader)).then_some(Reason::SharedInterior),
            None => Some(Reason::InteriorAsOutput),
        }
    }
}
