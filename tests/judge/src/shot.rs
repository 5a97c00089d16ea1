//! A shot, and what a decode works on.

use crate::bits::Bits;
use crate::codes::Code;
use crate::half::{Asked, Half};
use std::rc::Rc;

/// The kinds of record that add to a shot: a lost qubit, a lit Z row, a lit X row, an unread Z row
/// and an unread X row.
pub const KINDS: [u8; 5] = [2, 3, 4, 6, 7];

/// The sets that these kinds add to, in their order.
#[derive(Clone, PartialEq, Eq, Debug)]
pub struct Shot {
    pub sets: [Bits; 5],
}

impl Shot {
    pub fn empty(code: &Code) -> Shot {
        Shot { sets: KINDS.map(|kind| Bits::new(size(code, kind))) }
    }

    pub fn set(&self, kind: u8) -> &Bits {
        &self.sets[place(kind)]
    }

    pub fn set_mut(&mut self, kind: u8) -> &mut Bits {
        &mut self.sets[place(kind)]
    }

    /// The X half and the Z half.
    pub fn halves<'a>(&'a self, code: &'a Code) -> [Half<'a>; 2] {
        let [lost, lit_z, lit_x, unread_z, unread_x] = &self.sets;
        let (n, x, z) = (code.n, &code.x, &code.z);
        let half = |rows, other, lit, unread, other_unread| Half {
            n,
            rows,
            other,
            lit,
            unread,
            other_unread,
            lost,
        };
        [half(z, x, lit_z, unread_z, unread_x), half(x, z, lit_x, unread_x, unread_z)]
    }
}

fn place(kind: u8) -> usize {
    KINDS.iter().position(|&known| known == kind).expect("a kind of a shot")
}

/// The kinds that name what this one names: qubits, Z rows or X rows.
pub fn alike(kind: u8) -> &'static [u8] {
    match kind {
        2 => &[2],
        3 | 6 => &[3, 6],
        _ => &[4, 7],
    }
}

/// How many numbers a kind can have.
pub fn size(code: &Code, kind: u8) -> usize {
    match kind {
        2 => code.n,
        3 | 6 => code.z.len(),
        _ => code.x.len(),
    }
}

/// What a decode that is carried out works on.
#[derive(Clone)]
pub struct Decode {
    pub code: Rc<Code>,
    pub shot: Shot,
    pub asked: Asked,
}

impl Decode {
    pub fn halves(&self) -> [Half<'_>; 2] {
        self.shot.halves(&self.code)
    }
}
