//! A call that puts a text where it has room.

/// Calls with buffers of these sizes: the length is told, the text stands at the start where
/// it has room, and where it has none nothing is written.
pub fn put_where_there_is_room(
    call: fn(&[u8], &mut [u8]) -> usize,
    book: &[u8],
    expected: &[u8],
    sizes: impl IntoIterator<Item = usize>,
) {
    for size in sizes {
        let before: Vec<u8> = (0..size).map(|i| (i * 7 + 3) as u8).collect();
        let mut out = before.clone();
        assert_eq!(call(book, &mut out), expected.len());
        if size < expected.len() {
            assert!(out == before, "{size} bytes were written to");
        } else {
            assert_eq!(out[..expected.len()], *expected);
            assert_eq!(out[expected.len()..], before[expected.len()..]);
        }
    }
}
