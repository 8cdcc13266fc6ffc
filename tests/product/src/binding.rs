//! The record and the functions of include/rockavine.h, for the tests and the benchmark.

/// How many words stand for the parts of a record that are no arrays.
pub const WORDS: usize = 68;

/// The record of a session. Any bytes make one.
#[repr(C)]
#[derive(Clone)]
pub struct Record {
    pub words: [i32; WORDS],
    values: [i32; 64],
    steps: [i32; 64],
    ends: [u16; 221],
    lengths: [u16; 64],
    pub gathered: [u8; 512],
    cells: [u8; 512],
    row: [u8; 872],
    arena: [u8; 8704],
    text_firsts: [u8; 64],
    text_seconds: [u8; 64],
    kinds: [u8; 64],
    firsts: [u8; 64],
    seconds: [u8; 64],
    unused: [u8; 2],
}

extern "C" {
    fn rockavine_start_parts(
        words: *mut [i32; WORDS],
        gathered: *mut [u8; 512],
        cells: *mut [u8; 512],
        row: *mut [u8; 872],
        arena: *mut [u8; 8704],
        ends: *mut [u16; 221],
        text_firsts: *mut [u8; 64],
        text_seconds: *mut [u8; 64],
        kinds: *mut [u8; 64],
        lengths: *mut [u16; 64],
        firsts: *mut [u8; 64],
        seconds: *mut [u8; 64],
        values: *mut [i32; 64],
        steps: *mut [i32; 64],
    );
    fn rockavine_call_parts(
        words: *mut [i32; WORDS],
        gathered: *mut [u8; 512],
        cells: *mut [u8; 512],
        row: *mut [u8; 872],
        arena: *mut [u8; 8704],
        ends: *mut [u16; 221],
        text_firsts: *mut [u8; 64],
        text_seconds: *mut [u8; 64],
        kinds: *mut [u8; 64],
        lengths: *mut [u16; 64],
        firsts: *mut [u8; 64],
        seconds: *mut [u8; 64],
        values: *mut [i32; 64],
        steps: *mut [i32; 64],
        store: *mut u8,
        store_length: usize,
        block: *const u8,
        block_length: usize,
        last: u8,
        out: *mut u8,
        room: usize,
        taken: *mut usize,
        written: *mut usize,
        number: *mut u8,
        line: *mut u32,
    ) -> u32;
}

/// What a call answers.
pub struct Reply {
    pub code: u32,
    pub taken: usize,
    pub written: usize,
    pub number: u8,
    pub line: u32,
}

impl Record {
    /// The starting record.
    pub fn start() -> Box<Record> {
        // SAFETY: zeros are numbers of every field.
        let mut record: Box<Record> = Box::new(unsafe { std::mem::zeroed() });
        let r = &mut *record;
        // SAFETY: each part is lent for the call, and they do not overlap.
        unsafe {
            rockavine_start_parts(
                &mut r.words,
                &mut r.gathered,
                &mut r.cells,
                &mut r.row,
                &mut r.arena,
                &mut r.ends,
                &mut r.text_firsts,
                &mut r.text_seconds,
                &mut r.kinds,
                &mut r.lengths,
                &mut r.firsts,
                &mut r.seconds,
                &mut r.values,
                &mut r.steps,
            );
        }
        record
    }

    pub fn call(&mut self, store: &mut [u8], block: &[u8], last: bool, out: &mut [u8]) -> Reply {
        let (mut taken, mut written, mut number, mut line) = (usize::MAX, usize::MAX, u8::MAX, u32::MAX);
        // SAFETY: each part is lent for the call, with its length where it has one, and they do not overlap.
        let code = unsafe {
            rockavine_call_parts(
                &mut self.words,
                &mut self.gathered,
                &mut self.cells,
                &mut self.row,
                &mut self.arena,
                &mut self.ends,
                &mut self.text_firsts,
                &mut self.text_seconds,
                &mut self.kinds,
                &mut self.lengths,
                &mut self.firsts,
                &mut self.seconds,
                &mut self.values,
                &mut self.steps,
                store.as_mut_ptr(),
                store.len(),
                block.as_ptr(),
                block.len(),
                u8::from(last),
                out.as_mut_ptr(),
                out.len(),
                &mut taken,
                &mut written,
                &mut number,
                &mut line,
            )
        };
        Reply { code, taken, written, number, line }
    }
}

/// include/rockavine.h states these.
const _: () = assert!(std::mem::size_of::<Record>() == 12_276 && std::mem::align_of::<Record>() == 4);
