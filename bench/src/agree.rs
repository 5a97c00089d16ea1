//! Library and elimination decoder on the same records: at each decode they must agree.

use crate::decoder::Decoder;
use crate::eliminate::Found;
use crate::rack::Rack;
use crate::streams::{split, Stream};
use judge::codes::set;
use judge::families::Family;
use judge::generate::{records, Mix};
use judge::half::{Half, Said, Word};
use judge::judge::{ensure, fits, Judged};
use judge::random::Random;
use judge::shots::NAMES;
use judge::stream::{Answer, Lent, Model};
use judge::wrong::Wrong;

/// The shots of a stream, or of a family of codes, that are tried.
const TRIED: usize = 256;

/// Both, and a model that tells what each decode works on.
pub struct Agreement {
    pub rack: Rack,
    pub decoder: Decoder,
    model: Model,
}

/// A reason, and the stream up to the decode that shows it.
pub struct Disagreement {
    pub why: String,
    pub stream: Vec<u8>,
}

impl Agreement {
    pub fn new() -> Agreement {
        let model = Model::new(Wrong::Nothing);
        Agreement { rack: Rack::new(), decoder: Decoder::new(), model }
    }

    /// On random codes, and on readings of which not all fit.
    pub fn on_families(&mut self, random: &mut Random) -> Result<(), Disagreement> {
        for family in Family::ALL {
            let mix = Mix { trouble: 0, wild: false, family: Some(family) };
            self.take(&[], &records(random, TRIED, mix).concat())?;
        }
        Ok(())
    }

    pub fn on_stream(&mut self, stream: &Stream) -> Result<(), Disagreement> {
        self.take(&[], &stream.load)?;
        stream.shots.iter().take(TRIED).try_for_each(|shot| self.take(&stream.load, shot))
    }

    /// Takes bytes that come after others.
    fn take(&mut self, before: &[u8], bytes: &[u8]) -> Result<(), Disagreement> {
        let mut end = 0;
        for record in split(bytes) {
            end += record.len();
            self.take_record(record).map_err(|why| {
                let stream = [before, &bytes[..end]].concat();
                Disagreement { why, stream }
            })?;
        }
        Ok(())
    }

    fn take_record(&mut self, record: &[u8]) -> Judged {
        let reply = self.rack.take(record);
        self.decoder.take(record);
        let Answer::Decode(decode) = self.model.step(record, Lent::AMPLE) else { return Ok(()) };
        let said = self.rack.said(&reply)?;
        for (at, half) in decode.halves().iter().enumerate() {
            let judged = agree(half, &self.decoder.found[at], &said[at]);
            judged.map_err(|why| format!("{} half: {why}", NAMES[at]))?;
        }
        Ok(())
    }
}

/// Fixed qubits always, word and live guesses of a finished half or none, and flips that fit.
fn agree(half: &Half, found: &Found, said: &Said) -> Judged {
    let same = |what: &str, library: usize, elimination: usize| {
        let both = || format!("{what}: library {library}, elimination {elimination}");
        ensure(library == elimination, both)
    };
    same("fixed", said.counts.fixed, found.fixed)?;
    if said.word.finished() || said.word == Word::None {
        let words = [said.word, found.word()].map(Word::name);
        ensure(words[0] == words[1], || format!("library {}, elimination {}", words[0], words[1]))?;
        same("live", said.counts.live, found.live())?;
    }
    let fit = |flips: &[usize]| fits(half, &set(half.n, flips));
    let library = said.flips.as_ref().is_none_or(|flips| fit(flips));
    ensure(library, || "the library's flips do not fit".into())?;
    let flips: Vec<usize> = found.flips.iter().map(|&qubit| qubit.into()).collect();
    let elimination = !found.fits || fit(&flips);
    ensure(elimination, || "the elimination decoder's flips do not fit".into())
}
