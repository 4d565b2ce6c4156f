//! Finds the lines of its input and the TABs in them, and copies each argument into a buffer and out again once: less no program
//! can do that keeps the arguments until a statement is whole. It needs x86-64, where sixteen bytes are searched at once.
use std::arch::x86_64::{
    __m128i, _mm_cmpeq_epi8, _mm_loadu_si128, _mm_movemask_epi8, _mm_or_si128, _mm_set1_epi8,
};
use std::fs::File;
use std::io::{self, BufWriter, Read, Write};
use std::os::fd::AsFd;

/// How much output is held back before it is written, as in `sqlb`.
const HELD_BACK: usize = 65536;

/// How many bytes are copied out at once.
const BLOCK: usize = 4096;

/// How many bytes are searched at once.
const LANES: usize = 16;

/// Which of the bytes are line feeds or TABs, a bit for each.
fn separators(bytes: &[u8; LANES]) -> i32 {
    // It reads just these bytes, wherever they lie.
    unsafe {
        let bytes = _mm_loadu_si128(bytes.as_ptr().cast::<__m128i>());
        let feeds = _mm_cmpeq_epi8(bytes, _mm_set1_epi8(b'\n' as i8));
        let tabs = _mm_cmpeq_epi8(bytes, _mm_set1_epi8(b'\t' as i8));
        _mm_movemask_epi8(_mm_or_si128(feeds, tabs))
    }
}

/// Copies the arguments of all lines into the buffer, and answers how many bytes they are.
fn keep_arguments(text: &[u8], kept: &mut [u8]) -> usize {
    let size = kept.len();
    let mut free = kept;
    let (mut begin, mut is_name) = (0, true);
    for (number, chunk) in text.as_chunks::<LANES>().0.iter().enumerate() {
        let mut left = separators(chunk);
        while left != 0 {
            let place = number * LANES + left.trailing_zeros() as usize;
            if !is_name {
                let argument = &text[begin..place];
                let (copy, rest) = free.split_at_mut(argument.len());
                copy.copy_from_slice(argument);
                free = rest;
            }
            is_name = text[place] == b'\n';
            begin = place + 1;
            left &= left - 1;
        }
    }
    size - free.len()
}

fn main() -> io::Result<()> {
    let mut text = Vec::new();
    io::stdin().lock().read_to_end(&mut text)?;
    text.resize(text.len().next_multiple_of(LANES), b'\n');
    let mut kept = vec![0; text.len()];
    let count = keep_arguments(&text, &mut kept);
    // Standard output of its own has a buffer of lines.
    let stdout = File::from(io::stdout().as_fd().try_clone_to_owned()?);
    let mut out = BufWriter::with_capacity(HELD_BACK, stdout);
    for block in kept[..count].chunks(BLOCK) {
        out.write_all(block)?;
    }
    out.flush()
}
