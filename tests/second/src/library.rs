//! The proved library's one entry, with a safe wrapper, and a lent buffer that shows every byte changed.

#[link(name = "cetv", kind = "static")]
extern "C" {
    fn cetv_value_block(block: *const u8, block_len: usize, place: u32, out: *mut u8, out_len: usize) -> usize;
}

/// The length of the line formed at the start of `out`, or 0.
pub fn value_block(block: &[u8], place: u32, out: &mut [u8]) -> usize {
    // The pointers and lengths are those of two slices that live through the call, and only `out` is lent for writing.
    unsafe { cetv_value_block(block.as_ptr(), block.len(), place, out.as_mut_ptr(), out.len()) }
}

/// The same into heap memory of exactly `out_len` bytes that nothing has been written to, so that memcheck sees
/// a write past it and any use of what it held. Returns the bytes of the line.
pub fn value_block_uninitialised(block: &[u8], place: u32, out_len: usize) -> Vec<u8> {
    let mut out: Vec<u8> = Vec::with_capacity(out_len);
    let length = unsafe { cetv_value_block(block.as_ptr(), block.len(), place, out.as_mut_ptr(), out_len) };
    assert!(length <= out_len, "a line of {length} bytes in a buffer of {out_len}");
    // The entry says that it wrote these; memcheck complains where it did not.
    unsafe { out.set_len(length) };
    out
}

pub const LARGEST_BUFFER: usize = 600;
const MARGIN: usize = 64;
const ALIGNMENTS: usize = 8;
const MEMORY: usize = MARGIN + ALIGNMENTS + LARGEST_BUFFER + MARGIN;
const CANARY: u8 = 0xC5;

/// A buffer of up to 600 bytes with canary bytes on both sides.
pub struct Lent {
    bytes: [u8; MEMORY],
}

/// What a call left behind.
pub struct Left<'a> {
    pub length: usize,
    pub buffer: &'a [u8],
    pub canaries_kept: bool,
}

impl Lent {
    pub fn new() -> Lent {
        Lent { bytes: [CANARY; MEMORY] }
    }

    /// Calls the entry with a buffer of `out_len` bytes, each set to `fill` before. It starts at any alignment.
    pub fn call(&mut self, block: &[u8], place: u32, out_len: usize, fill: u8) -> Left<'_> {
        let start = MARGIN + (out_len + place as usize) % ALIGNMENTS;
        let end = start + out_len;
        self.bytes[..start].fill(CANARY);
        self.bytes[start..end].fill(fill);
        self.bytes[end..].fill(CANARY);
        let length = value_block(block, place, &mut self.bytes[start..end]);
        let canaries_kept = self.bytes[..start].iter().chain(&self.bytes[end..]).all(|&byte| byte == CANARY);
        Left { length, buffer: &self.bytes[start..end], canaries_kept }
    }
}

impl Left<'_> {
    /// Whether the buffer holds this line and is otherwise as it was lent.
    pub fn holds(&self, line: &[u8], fill: u8) -> bool {
        self.length == line.len()
            && self.canaries_kept
            && self.buffer.starts_with(line)
            && self.buffer[line.len()..].iter().all(|&byte| byte == fill)
    }
}
