//! Flat code: what a program is compiled to.

use super::window::Window;

/// The number of an instruction.
pub type Place = u16;

/// A cell of the running function, counted from its first parameter.
pub type Register = u16;

/// The steps that are made first, then what is done. The statements begun and
/// conditions worked again since the instruction before are counted here, and
/// so is the step of an operation or comparison; not that of a call or a free
/// declaration, which may be refused.
#[derive(Clone, Copy, Debug)]
pub struct Instruction {
    pub steps: u16,
    pub act: Act,
}

#[derive(Clone, Copy, Debug)]
pub enum Act {
    /// Only the steps.
    Steps,
    Load(Register, i32),
    Move(Register, Register),
    /// To the first, of the second and third.
    Add(Register, Register, Register),
    Subtract(Register, Register, Register),
    Multiply(Register, Register, Register),
    AddNumber(Register, Register, i32),
    /// The number less the register.
    SubtractFrom(Register, i32, Register),
    MultiplyNumber(Register, Register, i32),
    Compare(Branch, Register, Register),
    CompareNumber(Branch, Register, i32),
    Jump(Place),
    /// A free number, with its own pair or the job's.
    Free(Register, Option<Window>),
    /// Calls the function that begins there. The way back is kept in the
    /// register, the arguments are in those behind it; the result comes there.
    Call(Place, Register),
    Return(Register),
    ReturnNumber(i32),
    Fail,
    /// The run has returned; its result is in the first register.
    Finish,
}

/// What a comparison leads to.
#[derive(Clone, Copy, Debug)]
pub struct Branch {
    pub holds: Relation,
    /// Goes to this place if the outcome is `when`, else on.
    pub when: bool,
    /// How many registers hold something that may still be read: the
    /// function's variables.
    pub held: u8,
    pub to: Place,
}

/// A comparison as a set of the three ways in which two numbers can stand:
/// 1 less, 2 equal, 4 greater.
#[derive(Clone, Copy, PartialEq, Eq, Debug)]
pub struct Relation(pub u8);

impl Relation {
    pub const LESS: Relation = Relation(1);
    pub const EQUAL: Relation = Relation(2);
    pub const GREATER: Relation = Relation(4);

    pub const fn or(self, other: Relation) -> Relation {
        Relation(self.0 | other.0)
    }

    /// Holds exactly where this one does not.
    pub const fn opposite(self) -> Relation {
        Relation(self.0 ^ 7)
    }

    /// The same with its sides changed over.
    pub const fn turned(self) -> Relation {
        Relation(self.0 >> 2 | self.0 & 2 | (self.0 & 1) << 2)
    }

    #[inline(always)]
    pub fn of<T: PartialOrd>(self, left: T, right: T) -> bool {
        let way = 1 + u8::from(left > right) - u8::from(left < right);
        self.0 >> way & 1 == 1
    }
}
