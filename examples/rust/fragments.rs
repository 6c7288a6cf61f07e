//! A file encoded into six fragments, found again from the last four of them (layout 1), and compared.
//!
//!     rustc --edition 2021 -O fragments.rs -L FOLDER -l static=mj_c && ./fragments FILE
//!
//! where FOLDER has the libmj_c.a of include/archive.sh. The functions are those of include/mj_c.h.

use std::process::ExitCode;

#[repr(C)]
#[derive(Default)]
struct Numbers {
    inverse: u32,
    forward: u32,
    safe: u32,
    cols: u32,
}

/// Words of a fragment.
#[repr(C)]
struct Part {
    at: *const u64,
    words: usize,
}

extern "C" {
    fn mj_c_numbers(layout: u32, numbers: *mut Numbers) -> u32;
    fn mj_c_bins(layout: u32, position: u32) -> usize;
    fn mj_c_room(layout: u32) -> usize;
    fn mj_c_project(layout: u32, position: u32, block: *const u64, words: usize, out: *mut u64, bins: usize) -> u32;
    fn mj_c_solve_apart_in(
        layout: u32,
        positions: *const u32,
        count: usize,
        parts: *const Part,
        parts_count: usize,
        strides: *const usize,
        strides_count: usize,
        out: *mut u64,
        words: usize,
        lost: *mut u8,
        blocks: usize,
        room: *mut u64,
        room_words: usize,
    ) -> u32;
}

const DONE: u32 = 0;

/// What the library answered in place of `DONE`.
struct Refused(u32);

fn done(answer: u32) -> Result<(), Refused> {
    if answer == DONE { Ok(()) } else { Err(Refused(answer)) }
}

/// A layout, and room for finding its blocks, which serves for all calls.
struct Code {
    layout: u32,
    numbers: Numbers,
    room: Vec<u64>,
}

impl Code {
    fn new(layout: u32) -> Result<Code, Refused> {
        let mut numbers = Numbers::default();
        // SAFETY: the struct is there for the call, and has the layout of the header's.
        done(unsafe { mj_c_numbers(layout, &mut numbers) })?;
        // SAFETY: it takes numbers alone.
        let room = vec![0; unsafe { mj_c_room(layout) }];
        Ok(Code { layout, numbers, room })
    }

    fn block_words(&self) -> usize {
        (self.numbers.inverse * self.numbers.cols) as usize
    }

    fn bins(&self, position: u32) -> usize {
        // SAFETY: it takes numbers alone.
        unsafe { mj_c_bins(self.layout, position) }
    }

    /// The projections of all blocks at a position, one after the other.
    fn encode(&self, words: &[u64], position: u32) -> Result<Vec<u64>, Refused> {
        let bins = self.bins(position);
        let mut fragment = vec![0; words.len() / self.block_words() * bins];
        for (block, out) in words.chunks_exact(self.block_words()).zip(fragment.chunks_exact_mut(bins)) {
            // SAFETY: each pointer is followed by the length of its slice, and `out` overlaps nothing.
            done(unsafe { mj_c_project(self.layout, position, block.as_ptr(), block.len(), out.as_mut_ptr(), out.len()) })?;
        }
        Ok(fragment)
    }

    /// The blocks whose fragments these are, and a byte for each that is 1 where it has no words.
    fn decode(&mut self, positions: &[u32], fragments: &[&[u64]], blocks: usize) -> Result<(Vec<u64>, Vec<u8>), Refused> {
        let parts: Vec<Part> = fragments.iter().map(|f| Part { at: f.as_ptr(), words: f.len() }).collect();
        let strides: Vec<usize> = positions.iter().map(|position| self.bins(*position)).collect();
        let mut words = vec![0; blocks * self.block_words()];
        let mut lost = vec![0; blocks];
        // SAFETY: each pointer is followed by the length of its slice, and no two of them overlap.
        done(unsafe {
            mj_c_solve_apart_in(
                self.layout,
                positions.as_ptr(),
                positions.len(),
                parts.as_ptr(),
                parts.len(),
                strides.as_ptr(),
                strides.len(),
                words.as_mut_ptr(),
                words.len(),
                lost.as_mut_ptr(),
                lost.len(),
                self.room.as_mut_ptr(),
                self.room.len(),
            )
        })?;
        Ok((words, lost))
    }
}

fn run(bytes: &[u8]) -> Result<bool, Refused> {
    let mut code = Code::new(1)?;
    let mut padded = bytes.to_vec();
    padded.resize(bytes.len().next_multiple_of(8 * code.block_words()), 0);
    let words: Vec<u64> = padded.chunks_exact(8).map(|b| u64::from_ne_bytes(b.try_into().unwrap())).collect();
    let fragments = (0..code.numbers.forward).map(|p| code.encode(&words, p)).collect::<Result<Vec<_>, _>>()?;
    // The first fragments are lost.
    let first = code.numbers.forward - code.numbers.inverse;
    let left: Vec<u32> = (first..code.numbers.forward).collect();
    let have: Vec<&[u64]> = fragments[first as usize..].iter().map(Vec::as_slice).collect();
    let (found, lost) = code.decode(&left, &have, words.len() / code.block_words())?;
    Ok(found == words && lost.iter().all(|byte| *byte == 0))
}

fn main() -> ExitCode {
    let Some(path) = std::env::args().nth(1) else {
        eprintln!("fragments FILE");
        return ExitCode::from(2);
    };
    let told = match std::fs::read(&path) {
        Err(error) => error.to_string(),
        Ok(bytes) => match run(&bytes) {
            Ok(true) => {
                println!("{path} is back from the last of its fragments, by Rust");
                return ExitCode::SUCCESS;
            }
            Ok(false) => "another file came back".into(),
            Err(Refused(answer)) => format!("the library answers {answer}"),
        },
    };
    eprintln!("{path}: {told}");
    ExitCode::FAILURE
}
