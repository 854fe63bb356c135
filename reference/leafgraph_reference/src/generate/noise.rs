//! Blocks that are no blocks at all, or only in their header.

use crate::counts::write_true_counts;
use crate::graph::{self, Version};
use crate::random::Random;
use crate::rule;

/// Random bytes of many lengths; some begin as a block does.
pub fn noise(random: &mut Random) -> Vec<u8> {
    let length = match random.below(4) {
        0 => random.below(30),
        1 => random.below(300),
        2 => {
            let base = random.pick(&[16, 24, 32, 48, 64, 72, 96, 120]);
            base + random.below(3) - 1
        }
        _ => random.below(3000),
    };
    let mut bytes = random.bytes(length);
    let headers = [&b"LGT\0\x01\0"[..], b"LGT\0\x02\0", b"LGR\0\x01\0"];
    let header = random.pick(&headers);
    let start = random.pick(&[&b""[..], b"LGT", b"LGR", header, header]);
    if start.len() <= bytes.len() {
        bytes[..start.len()].copy_from_slice(start);
    }
    bytes
}

/// A sound graph header and length, and anything in the records; their counts are
/// true half of the time.
pub fn noise_with_graph_header(random: &mut Random) -> Vec<u8> {
    let mut bytes = graph_header_and_records(random, Version::Two);
    if random.chance(50) {
        write_true_counts(&mut bytes);
    }
    bytes
}

/// The same in version 1.
pub fn noise_with_version_1_header(random: &mut Random) -> Vec<u8> {
    graph_header_and_records(random, Version::One)
}

fn graph_header_and_records(random: &mut Random, version: Version) -> Vec<u8> {
    let slots = match random.chance(80) {
        true => random.within(1, 6),
        false => random.within(1, 512),
    };
    let outputs = random.within(1, 4);
    let mut bytes = b"LGT\0".to_vec();
    bytes.extend(version.number().to_le_bytes());
    bytes.extend((slots as u16).to_le_bytes());
    bytes.extend((outputs as u16).to_le_bytes());
    for place in 0..4 {
        let output = match place < outputs {
            true => random.below(slots) as u16,
            false => graph::UNUSED,
        };
        bytes.extend(output.to_le_bytes());
    }
    bytes.extend([0; 6]);
    for _ in 0..slots {
        bytes.extend(graph_record(random, slots));
    }
    bytes
}

/// Small numbers where kinds, counts and inputs stand, or plain noise.
fn graph_record(random: &mut Random, slots: usize) -> Vec<u8> {
    if random.chance(20) {
        return random.bytes(graph::RECORD);
    }
    let mut record = vec![0; graph::RECORD];
    record[0] = random.below(6) as u8;
    record[1] = if record[0] == 3 { random.within(1, 14) as u8 } else { 0 };
    record[2] = random.below(3) as u8;
    record[3] = random.below(3) as u8;
    for place in 0..6 {
        let used = place < usize::from(record[2]);
        let input = if used { random.below(slots) as u16 } else { graph::UNUSED };
        record[4 + 2 * place..6 + 2 * place].copy_from_slice(&input.to_le_bytes());
    }
    for place in 0..usize::from(record[3]) {
        record[16 + 4 * place] = random.below(3) as u8;
    }
    record
}

/// A sound rule header and length, and anything after it.
pub fn noise_with_rule_header(random: &mut Random) -> Vec<u8> {
    let (source, target) = (random.within(1, 16), random.below(17));
    let (outputs, nodes) = (random.within(1, 2), random.below(65));
    let mut bytes = b"LGR\0\x01\0".to_vec();
    bytes.extend([source as u8, target as u8, outputs as u8, nodes as u8]);
    let second = |number: usize| {
        if outputs == 2 {
            number as u8
        } else {
            rule::UNUSED
        }
    };
    bytes.extend([random.below(source) as u8, second(random.below(source))]);
    bytes.extend([random.below(32) as u8, second(random.below(32))]);
    bytes.extend([0, 0]);
    let rest = rule::PATTERN * (source + target) + rule::NODE * nodes;
    let small = random.chance(50);
    bytes.extend((0..rest).map(|_| if small { random.below(4) as u8 } else { random.byte() }));
    bytes
}
