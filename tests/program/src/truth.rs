//! What a stream's output is when nothing fails, record by record.

use crate::random::Random;
use crate::stream::Record;

pub struct Truth {
    pub output: Vec<u8>,
    /// Where the lines of each record end.
    ends: Vec<usize>,
}

impl Truth {
    /// The output cut at the records' ends, where every line begins as its record says.
    pub fn of(records: &[Record], output: Vec<u8>) -> Result<Truth, String> {
        let mut end = 0;
        let mut ends = Vec::new();
        for (number, record) in records.iter().enumerate() {
            for begins in &record.lines {
                let rest = &output[end..];
                let length = rest.iter().position(|byte| *byte == b'\n');
                if length.is_none() || !rest.starts_with(begins.as_bytes()) {
                    return Err(format!("record {number}: no line that begins {begins:?}"));
                }
                end += length.map_or(0, |length| length + 1);
            }
            ends.push(end);
        }
        if end != output.len() {
            return Err("more lines than the records have".into());
        }
        Ok(Truth { output, ends })
    }

    /// How many records, from the first, are answered in full by so many bytes.
    pub fn answered(&self, taken: usize) -> usize {
        self.ends.iter().take_while(|end| **end <= taken).count()
    }

    /// What standard error is told of a write that failed after so many bytes.
    pub fn told(&self, taken: usize) -> String {
        let answered = self.answered(taken);
        format!(
            "shots: writing failed after {taken} bytes; {answered} records were answered in full\n"
        )
    }

    /// Places at which a write may fail: on and beside some ends of lines and of answers and some multiples of a power of
    /// two, and where no byte or one byte is left.
    pub fn places(&self, random: &mut Random) -> Vec<usize> {
        let last = self.output.len() - 1;
        let lines: Vec<usize> = (0..last).filter(|at| self.output[*at] == b'\n').collect();
        let mut places = vec![0, 1, last - 1, last];
        for _ in 0..8 {
            let line = lines[random.below(lines.len())];
            let answer = self.ends[random.below(self.ends.len())];
            let power = random.below(last >> 12) << 12;
            places.extend([line, line + 1, answer.saturating_sub(1), answer, answer + 1, power]);
        }
        places.retain(|at| *at <= last);
        places.sort();
        places.dedup();
        places
    }
}
