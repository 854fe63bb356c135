//! "What a match is", asked of a whole map clause by clause, as request 1/13 amends
//! it. Nothing is searched for here.

use crate::attributes::{agrees, results};
use crate::graph::{Slot, UNUSED};
use crate::operators::CONST;
use crate::readers::Mapped;
use crate::rule::Pattern;

/// What is asked of a map. Each clause is asked by itself: those after `Slots` are
/// about the places that name a slot.
#[derive(Clone, Copy, Debug, PartialEq, Eq)]
pub enum Clause {
    /// "sixteen 16-bit numbers, 65535 from S on", where of a variadic rule there are 64
    Behind,
    /// "a map from source vertices to slots that aren't Empty"
    Slots,
    /// "no two to the same slot"
    Distinct,
    /// "a wildcard takes any vertex; another kind takes a vertex of its kind,
    /// operator and counts"
    Heads,
    /// "whose attributes agree"
    Attributes,
    /// "the image's inputs are, in order, the images of the pattern's inputs"
    Inputs,
    /// "no interior image (neither rule input nor source output [...]) is a graph
    /// output or is read by anything but the image of a non-input source vertex";
    /// but "a matched Const may have other readers and may be a graph output"
    Interior,
}

const CLAUSES: [Clause; 7] = [
    Clause::Behind,
    Clause::Slots,
    Clause::Distinct,
    Clause::Heads,
    Clause::Attributes,
    Clause::Inputs,
    Clause::Interior,
];

impl<'a> Mapped<'a> {
    pub fn is_match(self) -> bool {
        self.broken_clauses().next().is_none()
    }

    /// What keeps the map from being a match.
    pub fn broken_clauses(self) -> impl Iterator<Item = Clause> + 'a {
        CLAUSES.into_iter().filter(move |&clause| !self.holds(clause))
    }

    fn holds(self, clause: Clause) -> bool {
        let (own, behind) = self.images.split_at(self.rule.source_count());
        match clause {
            Clause::Behind => behind.iter().all(|&place| place == UNUSED),
            Clause::Slots => own.iter().all(|&image| self.graph.names_vertex(image)),
            Clause::Distinct => (1..own.len()).all(|vertex| !own[..vertex].contains(&own[vertex])),
            Clause::Heads => self
                .mapped()
                .all(|(pattern, slot)| pattern.is_wildcard() || pattern.head() == slot.head()),
            Clause::Attributes => self.attributes_agree(),
            Clause::Inputs => self.mapped().all(|(pattern, slot)| self.reads_images(pattern, slot)),
            Clause::Interior => self.interior_images().all(|image| !self.is_read_elsewhere(image)),
        }
    }

    fn names_slot(self, image: u16) -> bool {
        usize::from(image) < self.graph.slot_count()
    }

    /// The source vertices whose place names a slot.
    fn mapped_vertices(self) -> impl Iterator<Item = usize> + 'a {
        (0..self.rule.source_count()).filter(move |&vertex| self.names_slot(self.images[vertex]))
    }

    /// They with that slot.
    fn mapped(self) -> impl Iterator<Item = (Pattern<'a>, Slot<'a>)> {
        self.mapped_vertices().map(move |vertex| self.pair(vertex))
    }

    fn pair(self, vertex: usize) -> (Pattern<'a>, Slot<'a>) {
        (self.rule.source(vertex), self.graph.slot(self.images[vertex].into()))
    }

    fn attributes_agree(self) -> bool {
        let known = self.images.map(|image| if self.names_slot(image) { image } else { UNUSED });
        let results = results(self.graph, self.rule, &known);
        self.mapped_vertices().all(|vertex| {
            let ((pattern, slot), index) = (self.pair(vertex), self.rule.source_index(vertex));
            let mut pairs = pattern.attributes().zip(slot.attributes());
            pairs.all(|(node, number)| agrees(self.rule, &results, index, node, number))
        })
    }

    /// Of a wildcard nothing is asked.
    fn reads_images(self, pattern: Pattern, slot: Slot) -> bool {
        let images = pattern.inputs().map(|input| self.images[usize::from(input)]);
        pattern.is_wildcard() || slot.inputs().eq(images)
    }

    /// The interior images that must be private: those of "neither rule input nor source
    /// output", and of no Const.
    pub fn interior_images(self) -> impl Iterator<Item = u16> + 'a {
        let is_output = move |vertex: u8| self.rule.source_outputs().any(|output| output == vertex);
        let vertices = (0..).zip(self.rule.sources().zip(self.images));
        let interior = vertices.filter(move |&(vertex, (pattern, _))| {
            !pattern.is_input_kind() && !is_output(vertex) && pattern.kind() != CONST
        });
        interior.map(|(_, (_, &image))| image)
    }
}
