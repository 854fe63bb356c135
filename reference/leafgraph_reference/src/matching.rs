//! "What a match is", and the search for the least one.

use std::ops::Range;

use crate::attributes::{agrees, results};
use crate::fields::{put_u16, u16_at};
use crate::graph::{Graph, UNUSED};
use crate::operators::CONST;
use crate::rule::{Rule, MAX_FIXED};

/// The slot of each source vertex; 65535 where there is none.
pub type Images = [u16; MAX_FIXED];

/// What a search knows before it starts.
struct Search<'a> {
    graph: Graph<'a>,
    rule: Rule<'a>,
    /// For a source vertex whose image must not be named from outside, how
    /// many input places of the source name it; `None` for rule inputs, source
    /// outputs and Consts.
    inner_reads: [Option<u16>; MAX_FIXED],
}

/// "A search takes a start number s and takes the match whose first output's
/// image is at least s and least, then whose second is least. s at or above N
/// finds none."
pub fn least_match(graph: Graph, rule: Rule, start: usize) -> Option<Images> {
    let search = Search { graph, rule, inner_reads: count_inner_reads(rule) };
    // Vertices stand in visiting order: those up to the first output are what
    // it reaches from, the rest belong to the second output alone.
    let first_output = usize::from(rule.source_output(0));
    for first in start..graph.slot_count() {
        let mut images = [UNUSED; MAX_FIXED];
        if !search.extend(&mut images, 0..first_output + 1, first as u16) {
            continue;
        }
        if rule.output_count() == 1 {
            return Some(images);
        }
        if let Some(images) = search.least_second(&images, first_output + 1) {
            return Some(images);
        }
    }
    None
}

/// "sixteen 16-bit numbers, 65535 from S on", or with request 8/13 the 64 of a map of 128
/// bytes.
pub fn write_map(map: &mut [u8], images: &Images) {
    for (place, &image) in map.chunks_exact_mut(2).zip(images) {
        put_u16(place, 0, image);
    }
}

/// The images that a whole map holds.
pub fn read_map(map: &[u8]) -> Images {
    let mut images = [UNUSED; MAX_FIXED];
    for (image, place) in images.iter_mut().zip(map.chunks_exact(2)) {
        *image = u16_at(place, 0);
    }
    images
}

/// Rule inputs have no inputs of their own, so every input place of the
/// source belongs to a non-input source vertex. By request 1/13 "a matched
/// Const may have other readers and may be a graph output".
fn count_inner_reads(rule: Rule) -> [Option<u16>; MAX_FIXED] {
    let mut counts = [None; MAX_FIXED];
    let is_private = |number: u8| {
        !rule.is_rule_input(number)
            && rule.source_outputs().all(|output| output != number)
            && rule.source(number.into()).kind() != CONST
    };
    for number in (0..rule.source_count() as u8).filter(|&number| is_private(number)) {
        let inputs = rule.sources().flat_map(|reader| reader.inputs());
        let reads = inputs.filter(|&input| input == number).count();
        counts[usize::from(number)] = Some(reads as u16);
    }
    counts
}

impl Search<'_> {
    /// The least second image that completes a match, with the first fixed.
    fn least_second(&self, images: &Images, from: usize) -> Option<Images> {
        (0..self.graph.slot_count()).find_map(|second| {
            let mut images = *images;
            self.extend(&mut images, from..self.rule.source_count(), second as u16)
                .then_some(images)
        })
    }

    /// Gives images to these vertices, the last of which is an output with
    /// this image. "Output images fix the whole map": going down in number,
    /// every vertex has got its image from a reader before its own inputs are
    /// looked at.
    fn extend(&self, images: &mut Images, vertices: Range<usize>, image: u16) -> bool {
        self.give(images, vertices.end - 1, image)
            && vertices.clone().rev().all(|vertex| self.give_inputs(images, vertex))
            && self.attributes_agree(images, vertices)
    }

    /// "the image's inputs are, in order, the images of the pattern's inputs".
    /// The clause is not for wildcards, which have no inputs here.
    fn give_inputs(&self, images: &mut Images, vertex: usize) -> bool {
        let slot = self.graph.slot(usize::from(images[vertex]));
        self.rule
            .source(vertex)
            .inputs()
            .zip(slot.inputs())
            .all(|(input, image)| self.give(images, usize::from(input), image))
    }

    /// A vertex that has an image keeps it; a new image is "no two to the
    /// same slot" and must suit the vertex.
    fn give(&self, images: &mut Images, vertex: usize, image: u16) -> bool {
        if images[vertex] != UNUSED {
            return images[vertex] == image;
        }
        let given = &images[..self.rule.source_count()];
        if !self.suits(vertex, image) || given.contains(&image) {
            return false;
        }
        images[vertex] = image;
        true
    }

    /// "a wildcard takes any vertex; another kind takes a vertex of its kind,
    /// operator and counts"; "no interior image [...] is a graph output or is
    /// read by anything but the image of a non-input source vertex". In a
    /// whole match the reads from inside are exactly the source's own input
    /// places, so there are others exactly when the slot's count is another one.
    fn suits(&self, vertex: usize, image: u16) -> bool {
        let slot = self.graph.slot(usize::from(image));
        let pattern = self.rule.source(vertex);
        if pattern.is_wildcard() {
            return !slot.is_empty();
        }
        let reads = self.inner_reads[vertex];
        slot.head() == pattern.head() && reads.is_none_or(|reads| reads == slot.count())
    }

    /// "whose attributes agree"
    fn attributes_agree(&self, images: &Images, vertices: Range<usize>) -> bool {
        let mut patterns = vertices.clone().map(|vertex| self.rule.source(vertex));
        if patterns.all(|pattern| pattern.attribute_count() == 0) {
            return true;
        }
        let results = results(self.graph, self.rule, images);
        vertices.into_iter().all(|vertex| {
            let slot = self.graph.slot(usize::from(images[vertex]));
            let index = self.rule.source_index(vertex);
            let nodes = self.rule.source(vertex).attributes();
            nodes
                .zip(slot.attributes())
                .all(|(node, number)| agrees(self.rule, &results, index, node, number))
        })
    }
}
