//! Memory that is lent, with guard elements on both sides.

use std::hint::black_box;

const WIDTH: usize = 16;

/// Lends a copy of `content` between guards; the answer, and the content afterwards. A touched guard is an error.
pub fn lend<T: Copy + PartialEq, A>(
    content: &[T],
    guard: T,
    call: impl FnOnce(&mut [T]) -> A,
) -> Result<(A, Vec<T>), String> {
    let end = WIDTH + content.len();
    let mut memory = vec![guard; end + WIDTH];
    memory[WIDTH..end].copy_from_slice(content);
    let answer = call(&mut memory[WIDTH..end]);
    // Where the call may only read, the compiler would take the memory for unwritten without a look.
    let memory = black_box(memory);
    let untouched = memory[..WIDTH]
        .iter()
        .chain(&memory[end..])
        .all(|element| *element == guard);
    if untouched {
        Ok((answer, memory[WIDTH..end].to_vec()))
    } else {
        Err("a guard beside lent memory was written".to_owned())
    }
}
