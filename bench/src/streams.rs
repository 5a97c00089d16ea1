//! A stream: a code, then shots at one loss rate whose readings fit.

use judge::bits::Bits;
use judge::codes::{odd, Code};
use judge::half::{Asked, Row};
use judge::random::Random;
use judge::records;
use judge::shot::Shot;
use judge::stream::body;
use std::hint::black_box;

/// The bytes of the records that load the code, and those of each shot.
pub struct Stream {
    pub load: Vec<u8>,
    pub shots: Vec<Vec<u8>>,
}

impl Stream {
    pub fn new(code: &Code) -> Stream {
        Stream { load: records::load(code).concat(), shots: Vec::new() }
    }

    /// Has every record of the shots taken.
    pub fn pass<T>(&self, mut take: impl FnMut(&[u8]) -> T) {
        for shot in &self.shots {
            for record in split(shot) {
                black_box(take(record));
            }
        }
    }
}

/// Each qubit is lost with the given percentage; a lost one has each error half of the time. Every
/// row is read.
pub fn draw(code: &Code, loss: usize, random: &mut Random) -> Shot {
    let n = code.n;
    let lost = Bits::of(n, (0..n).filter(|_| random.percent(loss)));
    let mut lit = |rows: &[Row]| {
        let error = Bits::of(n, lost.ones().into_iter().filter(|_| random.percent(50)));
        Bits::of(rows.len(), (0..rows.len()).filter(|&at| odd(&rows[at], &error)))
    };
    let (lit_z, lit_x) = (lit(&code.z), lit(&code.x));
    let [.., unread_z, unread_x] = Shot::empty(code).sets;
    Shot { sets: [lost, lit_z, lit_x, unread_z, unread_x] }
}

/// The records of a shot that is drawn, and its decode.
pub fn shot(code: &Code, loss: usize, random: &mut Random) -> Vec<u8> {
    let shot = draw(code, loss, random);
    [records::shot(&shot).concat(), records::decode(Asked::AMPLE)].concat()
}

/// The records of bytes that hold whole ones of known kinds.
pub fn split(bytes: &[u8]) -> impl Iterator<Item = &[u8]> {
    let mut rest = bytes;
    std::iter::from_fn(move || {
        let length = body(*rest.first()?).expect("a known kind");
        let (record, after) = rest.split_at(1 + length);
        rest = after;
        Some(record)
    })
}
