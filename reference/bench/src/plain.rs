//! The plain printer and parser of listings (`plain/listing.cpp`), with the replies that
//! the library gives where it is done.

extern "C" {
    fn plain_write_listing(graph: *const u8, text: *mut u8, room: usize) -> usize;
    fn plain_read_listing(text: *const u8, length: usize, graph: *mut u8, room: usize) -> bool;
}

/// The graph must be sound.
pub fn write_listing(graph: &[u8], text: &mut [u8]) -> u64 {
    // SAFETY: a sound graph has as many bytes as its header says, and the text is
    // written within its length.
    let length = unsafe { plain_write_listing(graph.as_ptr(), text.as_mut_ptr(), text.len()) };
    assert!(length > 0, "there is room");
    (length as u64) << 40
}

pub fn read_listing(text: &[u8], graph: &mut [u8]) -> u64 {
    let (length, room) = (text.len(), graph.len());
    // SAFETY: the text is read within its length, and the graph written within its own.
    let is_read = unsafe { plain_read_listing(text.as_ptr(), length, graph.as_mut_ptr(), room) };
    assert!(is_read, "it is a listing");
    0
}
