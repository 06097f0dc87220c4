//! Why nothing was done.

use std::error::Error;
use std::fmt::{self, Display, Formatter};

/// What is wrong with a picture. Where several causes are present, the lowest number is the answer.
#[derive(Clone, Copy, Debug, PartialEq, Eq, PartialOrd, Ord, Hash)]
#[repr(u32)]
pub enum Cause {
    /// More registers or operands are in use than are lent.
    Room = 1,
    /// Via words are neither none nor one an instruction, or pair words are odd.
    Uneven = 2,
    /// Blocks do not lie end to end over all instructions.
    Blocks = 3,
    /// A kind above 100, a form that its kind does not have, or word 9 of a Cat above 65,535.
    Kind = 4,
    /// A slot is no register in use, is absent where it must be there, or there where it must be absent; or a SigGather has
    /// one of its last two registers without the other.
    Slot = 5,
    /// Words 7 and 8 are not 0 on a kind without a list, a list passes the operands in use, or an operand in use, listed or
    /// not, is no register in use.
    List = 6,
    /// A Br or CondBr, wherever it stands, or a target word goes to no block; or a case table is empty or passes the target
    /// words.
    Branch = 7,
    /// The list of a Cat has more than 33 registers.
    Cat = 8,
    /// A type in use is above 7.
    Type = 9,
}

impl Cause {
    /// All causes, by their numbers. There is one more, 10, which this entry never gives: it brings what it works in.
    pub const ALL: [Cause; 9] =
        [Cause::Room, Cause::Uneven, Cause::Blocks, Cause::Kind, Cause::Slot, Cause::List, Cause::Branch, Cause::Cat, Cause::Type];

    /// The number, from 1 on.
    pub fn number(self) -> u32 {
        self as u32
    }

    /// The cause of this number.
    pub fn of_number(number: u32) -> Option<Cause> {
        Cause::ALL.into_iter().find(|cause| cause.number() == number)
    }

    /// The cause in words.
    pub fn words(self) -> &'static str {
        match self {
            Cause::Room => "more registers or operands are in use than are lent",
            Cause::Uneven => "via words are neither none nor one an instruction, or pair words are odd",
            Cause::Blocks => "blocks do not lie end to end over all instructions",
            Cause::Kind => "a kind above 100, a form that its kind does not have, or word 9 of a Cat above 65,535",
            Cause::Slot => {
                "a slot is no register in use, is absent where it must be there, or there where it must be absent; or a SigGather has one of its last two registers without the other"
            }
            Cause::List => {
                "words 7 and 8 are not 0 on a kind without a list, a list passes the operands in use, or an operand in use, listed or not, is no register in use"
            }
            Cause::Branch => {
                "a Br or CondBr, wherever it stands, or a target word goes to no block; or a case table is empty or passes the target words"
            }
            Cause::Cat => "the list of a Cat has more than 33 registers",
            Cause::Type => "a type in use is above 7",
        }
    }
}

impl Display for Cause {
    fn fmt(&self, f: &mut Formatter<'_>) -> fmt::Result {
        write!(f, "{} (cause {})", self.words(), self.number())
    }
}

/// Why nothing was done; nothing is written then.
#[derive(Clone, Copy, Debug, PartialEq, Eq, Hash)]
pub enum Refusal {
    /// The picture is malformed.
    Refused(Cause),
    /// The bytes are no picture (cut short, or longer than their counts say), the picture is larger than the program's sizes,
    /// more room is lent than there can be, or the result is shorter than [`RESULT`](crate::RESULT).
    Unread,
}

impl Display for Refusal {
    fn fmt(&self, f: &mut Formatter<'_>) -> fmt::Result {
        match self {
            Refusal::Refused(cause) => write!(f, "refused: {cause}"),
            Refusal::Unread => write!(f, "unread: no picture, or something is past the program's sizes"),
        }
    }
}

impl Error for Refusal {}
