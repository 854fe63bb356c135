//! The proved library, through its C entry points. These declarations must be
//! those of include/leafgraph.h.

pub mod guarded;

extern "C" {
    fn lg_check_graph(graph: *const u8, graph_len: usize) -> u64;
    fn lg_check_rule(rule: *const u8, rule_len: usize) -> u64;
    fn lg_find_match(
        graph: *const u8,
        graph_len: usize,
        rule: *const u8,
        rule_len: usize,
        start: usize,
        map: *mut u8,
        map_len: usize,
    ) -> u64;
    fn lg_rewrite(
        graph: *mut u8,
        graph_len: usize,
        rule: *const u8,
        rule_len: usize,
        start: usize,
        map: *mut u8,
        map_len: usize,
    ) -> u64;
    fn lg_sweep(graph: *mut u8, graph_len: usize) -> u64;
    fn lg_squeeze(graph: *mut u8, graph_len: usize, moves: *mut u8, moves_len: usize) -> u64;
    fn lg_import(graph: *mut u8, graph_len: usize) -> u64;
    fn lg_is_read_elsewhere(
        graph: *const u8,
        graph_len: usize,
        rule: *const u8,
        rule_len: usize,
        map: *const u8,
        map_len: usize,
        vertex: usize,
    ) -> u64;
    fn lg_write_listing(graph: *const u8, graph_len: usize, text: *mut u8, text_len: usize) -> u64;
    fn lg_read_listing(text: *const u8, text_len: usize, graph: *mut u8, graph_len: usize) -> u64;
}

pub fn check_graph(graph: &[u8]) -> u64 {
    // SAFETY: the pointer is valid for the length, and not null even when the
    // length is 0, which is all that the header asks.
    unsafe { lg_check_graph(graph.as_ptr(), graph.len()) }
}

pub fn check_rule(rule: &[u8]) -> u64 {
    // SAFETY: as above.
    unsafe { lg_check_rule(rule.as_ptr(), rule.len()) }
}

pub fn find_match(graph: &[u8], rule: &[u8], start: usize, map: &mut [u8]) -> u64 {
    let (graph_len, rule_len, map_len) = (graph.len(), rule.len(), map.len());
    // SAFETY: as above; and the map, which may be written, overlaps neither
    // block, since it is borrowed for this call alone.
    unsafe {
        lg_find_match(
            graph.as_ptr(),
            graph_len,
            rule.as_ptr(),
            rule_len,
            start,
            map.as_mut_ptr(),
            map_len,
        )
    }
}

pub fn rewrite(graph: &mut [u8], rule: &[u8], start: usize, map: &mut [u8]) -> u64 {
    let (graph_len, rule_len, map_len) = (graph.len(), rule.len(), map.len());
    // SAFETY: as above; and the graph, which may be written too, overlaps
    // neither of the others, since it is borrowed for this call alone.
    unsafe {
        lg_rewrite(
            graph.as_mut_ptr(),
            graph_len,
            rule.as_ptr(),
            rule_len,
            start,
            map.as_mut_ptr(),
            map_len,
        )
    }
}

pub fn sweep(graph: &mut [u8]) -> u64 {
    // SAFETY: the pointer is valid for the length, and not null even when the
    // length is 0, also for writing.
    unsafe { lg_sweep(graph.as_mut_ptr(), graph.len()) }
}

pub fn squeeze(graph: &mut [u8], moves: &mut [u8]) -> u64 {
    // SAFETY: as above; and the two do not overlap, since each is borrowed for
    // this call alone.
    unsafe { lg_squeeze(graph.as_mut_ptr(), graph.len(), moves.as_mut_ptr(), moves.len()) }
}

pub fn import(graph: &mut [u8]) -> u64 {
    // SAFETY: as for the sweep.
    unsafe { lg_import(graph.as_mut_ptr(), graph.len()) }
}

pub fn is_read_elsewhere(graph: &[u8], rule: &[u8], map: &[u8], vertex: usize) -> u64 {
    let (graph_len, rule_len, map_len) = (graph.len(), rule.len(), map.len());
    // SAFETY: as for the checks; nothing is written.
    unsafe {
        lg_is_read_elsewhere(
            graph.as_ptr(),
            graph_len,
            rule.as_ptr(),
            rule_len,
            map.as_ptr(),
            map_len,
            vertex,
        )
    }
}

pub fn write_listing(graph: &[u8], text: &mut [u8]) -> u64 {
    // SAFETY: as for the checks; and the text, which may be written, does not overlap
    // the graph, since it is borrowed for this call alone.
    unsafe { lg_write_listing(graph.as_ptr(), graph.len(), text.as_mut_ptr(), text.len()) }
}

pub fn read_listing(text: &[u8], graph: &mut [u8]) -> u64 {
    // SAFETY: as above, with the graph written and the text read.
    unsafe { lg_read_listing(text.as_ptr(), text.len(), graph.as_mut_ptr(), graph.len()) }
}
