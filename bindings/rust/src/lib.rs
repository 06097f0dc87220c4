//! Virdzeba for Rust: the pass that moves the building of a message into the branch that needs it, proved by machine. One call
//! takes a function as a picture's bytes and gives the picture after up to eight rounds; include/virdzeba.h is its equal for C.
//!
//! ```
//! use virdzeba::{Answer, Picture, Room, sink};
//!
//! let picture = Picture::default().to_bytes();
//! match sink(&picture, Room::MOST) {
//!     Ok((Answer::Done { rounds }, after)) => println!("{rounds} rounds, {} bytes", after.len()),
//!     Ok((Answer::Short { rounds }, _)) => println!("no room after {rounds} rounds"),
//!     Err(refusal) => println!("{refusal}"),
//! }
//! ```
//!
//! The library is x86-64 Linux's, keeps no state and takes no memory but stack: threads may call it at once. **A call takes
//! about 180 KB of stack**, which every thread that `std` starts has by default. Where the caller's stack may be smaller (a
//! thread of C's, of musl's default of 128 KB, a coroutine), [`on_thread`] runs the call on a thread that has enough.

mod picture;
mod refusal;

use std::{io, panic, thread};

pub use picture::{ABSENT, Picture, RECORD, length};
pub use refusal::{Cause, Refusal};

/// Bytes that a result has at least: those of the largest picture.
pub const RESULT: usize = 53_024;

/// Bytes of stack that are enough for a thread that calls.
pub const STACK: usize = 196_608;

/// The registers and operands lent, those in use among them. A round that needs more is not done.
#[derive(Clone, Copy, Debug, PartialEq, Eq)]
pub struct Room {
    pub registers: u32,
    pub operands: u32,
}

impl Room {
    /// As much as there can be.
    pub const MOST: Room = Room { registers: 512, operands: 2048 };
}

/// How the call ended.
#[derive(Clone, Copy, Debug, PartialEq, Eq)]
pub enum Answer {
    /// Below eight rounds there was no further move, or a gate stopped the picture: it has no blocks, or no Cat of form 0. After
    /// eight, moves may be left. A call with the result goes on, and may find moves even after fewer than eight: what is known
    /// of registers is found once a call.
    Done { rounds: u32 },
    /// The next round needs more registers or operands than are lent; those before it are done.
    Short { rounds: u32 },
}

impl Answer {
    /// The rounds that were done.
    pub fn rounds(self) -> u32 {
        match self {
            Answer::Done { rounds } | Answer::Short { rounds } => rounds,
        }
    }
}

unsafe extern "C" {
    fn virdzeba_sink(
        picture: *const u8,
        picture_len: usize,
        result: *mut u8,
        result_len: usize,
        registers: u32,
        operands: u32,
    ) -> u32;
}

/// The library's entry as it is: its number (rounds, 100 more for short, 200 and the cause, 300), and for a number below 200 the
/// new picture at the head of `result`. Nothing else is written.
pub fn entry(picture: &[u8], result: &mut [u8], registers: u32, operands: u32) -> u32 {
    // SAFETY: each pointer comes with the length of its own slice, and `&mut` keeps the two apart. The entry asks nothing else.
    unsafe { virdzeba_sink(picture.as_ptr(), picture.len(), result.as_mut_ptr(), result.len(), registers, operands) }
}

/// Sinks a picture into a lent buffer of at least [`RESULT`] bytes, and gives the part of it that the new picture takes. What
/// lies behind that part stays as it was, and all of it where the picture is refused.
pub fn sink_into<'r>(picture: &[u8], result: &'r mut [u8], room: Room) -> Result<(Answer, &'r mut [u8]), Refusal> {
    let answer = answer_of(entry(picture, result, room.registers, room.operands))?;
    let len = length(result).expect("the counts of the new picture");
    Ok((answer, &mut result[..len]))
}

/// Sinks a picture, and gives the new one.
pub fn sink(picture: &[u8], room: Room) -> Result<(Answer, Vec<u8>), Refusal> {
    let mut result = vec![0; RESULT];
    let (answer, after) = sink_into(picture, &mut result, room)?;
    Ok((answer, after.to_vec()))
}

/// Runs something on a thread of its own, with [`STACK`] bytes for a call and 64 KB for what is around it, and waits for it. The
/// error is that no thread could be started.
///
/// ```
/// # fn main() -> Result<(), Box<dyn std::error::Error>> {
/// use virdzeba::{Picture, Room, on_thread, sink};
///
/// let picture = Picture::default().to_bytes();
/// let (answer, after) = on_thread(|| sink(&picture, Room::MOST))??;
/// # assert_eq!((answer.rounds(), after), (0, picture));
/// # Ok(())
/// # }
/// ```
pub fn on_thread<T: Send>(run: impl FnOnce() -> T + Send) -> io::Result<T> {
    thread::scope(|scope| {
        let thread = thread::Builder::new().stack_size(STACK + 64 * 1024).spawn_scoped(scope, run)?;
        Ok(thread.join().unwrap_or_else(|panicked| panic::resume_unwind(panicked)))
    })
}

/// What a number of the entry says.
fn answer_of(number: u32) -> Result<Answer, Refusal> {
    match number {
        0..100 => Ok(Answer::Done { rounds: number }),
        100..200 => Ok(Answer::Short { rounds: number - 100 }),
        200..300 => Err(Refusal::Refused(Cause::of_number(number - 200).expect("a cause that this crate knows"))),
        _ => Err(Refusal::Unread),
    }
}
