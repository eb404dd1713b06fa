//! The text form of a path header, as people write it for `rehearse sign`.

use crate::dates;
use crate::hex::from_hex;
use crate::hop_text::{hop, reserved_flags, HopText};
use crate::lines::{lines, once, Line};
use crate::mistake::{mistake, Checked};
use crate::output;
use crate::quoting::quoted;

/// The most bytes behind a header that the text form takes, both ways.
pub const MOST_BEHIND: usize = 1_048_576;

pub struct PathText {
    pub curr_inf: u8,
    pub curr_hf: u8,
    pub reserved: u8,
    /// A segment for each length, or none for a length of 0 between others.
    pub segments: Vec<Option<SegmentText>>,
    pub behind: Vec<u8>,
}

pub struct SegmentText {
    pub cons_dir: bool,
    pub peering: bool,
    pub reserved_flags: u8,
    pub reserved: u8,
    pub start: Start,
    pub timestamp: u32,
    /// What is odd about the timestamp.
    pub note: Option<String>,
    pub hops: Vec<HopText>,
}

/// What a segment's SegID is worked out from.
#[derive(Clone, Copy)]
pub enum Start {
    /// The header's SegID as it is.
    SegId(u16),
    /// Where the chain of MACs begins, in construction direction.
    Beta(u16),
}

// ---- blocks

/// A block of lines that is being read.
enum Block {
    Path(PathDraft),
    Segment(SegmentDraft),
}

#[derive(Default)]
struct PathDraft {
    curr_inf: Option<u8>,
    curr_hf: Option<u8>,
    reserved: Option<u8>,
}

impl PathDraft {
    fn read(&mut self, line: &Line<'_>) -> Checked<()> {
        let word = line.words[0];
        let (place, highest) = match word {
            "curr_inf" => (&mut self.curr_inf, 3),
            "curr_hf" => (&mut self.curr_hf, 63),
            "reserved" => (&mut self.reserved, 63),
            _ => {
                return line.wrong(format!(
                "{} is not known here: below `path` stand curr_inf, curr_hf and reserved, and a segment starts with \
                     the word `segment`",
                quoted(word)
            ))
            }
        };
        let number = line.number_up_to(line.only(&format!("{word} 0"))?, highest)?;
        once(place, number as u8, line, &format!("`{word}`"))
    }
}

#[derive(Default)]
struct SegmentDraft {
    line: usize,
    reserved: Option<u8>,
    reserved_flags: Option<u8>,
    cons_dir: Option<bool>,
    peering: Option<bool>,
    start: Option<Start>,
    timestamp: Option<u32>,
    note: Option<String>,
    hops: Vec<HopText>,
}

impl SegmentDraft {
    fn read(&mut self, line: &Line<'_>) -> Checked<()> {
        match line.words[0] {
            "cons_dir" => once(&mut self.cons_dir, yes_or_no(line)?, line, "`cons_dir`"),
            "peering" => once(&mut self.peering, yes_or_no(line)?, line, "`peering`"),
            "reserved" => {
                let [byte] = line.hex("reserved", line.only("reserved 00")?)?;
                once(&mut self.reserved, byte, line, "`reserved`")
            }
            "reserved_flags" => {
                let flags = reserved_flags(line, line.only("reserved_flags 04")?)?;
                once(&mut self.reserved_flags, flags, line, "`reserved_flags`")
            }
            "seg_id" => once(&mut self.start, Start::SegId(two_bytes(line)?), line, SEG_ID),
            "beta" => once(&mut self.start, Start::Beta(two_bytes(line)?), line, SEG_ID),
            "timestamp" => self.timestamp(line),
            "hop" if self.hops.len() == 63 => {
                line.wrong("this is hop 64 of the segment, and its length can't say more than 63")
            }
            "hop" => {
                self.hops.push(hop(line)?);
                Ok(())
            }
            word => line.wrong(format!(
                "{} is not known here: below `segment` stand cons_dir, peering, seg_id or beta, timestamp, \
                 reserved_flags, reserved and hop",
                quoted(word)
            )),
        }
    }

    fn timestamp(&mut self, line: &Line<'_>) -> Checked<()> {
        let (text, place) = (line.words[1..].join(" "), line.place());
        if text.is_empty() {
            return line.wrong("write a time behind `timestamp`, as `timestamp 2026-11-15T06:00:00Z`");
        }
        self.note = dates::note(&text, &place);
        once(&mut self.timestamp, dates::time(&text, &place)?, line, "`timestamp`")
    }

    fn finished(self, of: &str) -> Checked<SegmentText> {
        let lacks = |what: &str| mistake(format!("{of}, line {}: this segment has no {what}", self.line));
        if self.hops.is_empty() {
            return lacks("hop: add lines as `hop in 0 out 1 lasts 6h`, or write `segment none` for an empty one");
        }
        match (self.cons_dir, self.timestamp) {
            (None, _) => {
                lacks("`cons_dir`: add `cons_dir yes` if it is travelled as it was constructed, else `cons_dir no`")
            }
            (_, None) => lacks("`timestamp`: add `timestamp` and a time, as `timestamp 2026-11-15T06:00:00Z`"),
            (Some(cons_dir), Some(timestamp)) => Ok(SegmentText {
                cons_dir,
                peering: self.peering.unwrap_or(false),
                reserved_flags: self.reserved_flags.unwrap_or(0),
                reserved: self.reserved.unwrap_or(0),
                start: self.start.unwrap_or(Start::Beta(0)),
                timestamp,
                note: self.note,
                hops: self.hops,
            }),
        }
    }
}

const SEG_ID: &str = "`seg_id` or `beta`";

// ---- the whole text

/// The path that a text describes. Whether it is a good one is asked by the library, not here.
pub fn from_text(text: &str, of: &str) -> Checked<PathText> {
    let mut reader = Reader::default();
    for line in lines(text, of) {
        reader.read(&line)?;
    }
    reader.end_block(of)?;
    let path = reader.path.unwrap_or_default();
    Ok(PathText {
        curr_inf: path.curr_inf.unwrap_or(0),
        curr_hf: path.curr_hf.unwrap_or(0),
        reserved: path.reserved.unwrap_or(0),
        segments: reader.segments,
        behind: reader.behind,
    })
}

#[derive(Default)]
struct Reader {
    path: Option<PathDraft>,
    segments: Vec<Option<SegmentText>>,
    behind: Vec<u8>,
    block: Option<Block>,
}

impl Reader {
    fn read(&mut self, line: &Line<'_>) -> Checked<()> {
        if matches!(line.words[0], "path" | "segment" | "behind") {
            self.end_block(line.of)?;
        }
        match line.words[..] {
            ["station"] => line.wrong("this is the text form of a plan and no path: `rehearse plan` takes it"),
            ["path"] if self.path.is_some() || !self.segments.is_empty() => {
                line.wrong("`path` stands once, before the first segment")
            }
            ["segment", ..] if self.segments.len() == 3 => {
                line.wrong("a path has at most three segments, `segment none` counted: leave one of them out")
            }
            ["segment", "none"] => {
                self.segments.push(None);
                Ok(())
            }
            ["path"] => {
                self.block = Some(Block::Path(PathDraft::default()));
                Ok(())
            }
            ["segment"] => {
                self.block = Some(Block::Segment(SegmentDraft {
                    line: line.number,
                    ..SegmentDraft::default()
                }));
                Ok(())
            }
            [word @ ("path" | "segment"), ..] => line.wrong(format!("write `{word}` alone; a name goes behind a #")),
            ["behind", ..] => self.read_behind(line),
            _ => match &mut self.block {
                Some(Block::Path(path)) => path.read(line),
                Some(Block::Segment(segment)) => segment.read(line),
                None => line.wrong(format!(
                    "write `path` or `segment` on a line of its own before {}",
                    quoted(line.words[0])
                )),
            },
        }
    }

    fn read_behind(&mut self, line: &Line<'_>) -> Checked<()> {
        let said = line.said.trim_start().strip_prefix("behind").unwrap_or("");
        let digits = || said.chars().filter(|letter| !letter.is_whitespace());
        // They are counted before they are put together: a line can be as long as a file.
        if self.behind.len() + digits().count() / 2 > MOST_BEHIND {
            return line.wrong("there are more than 1,048,576 bytes behind the header: leave some out");
        }
        let is_wrong = |letter: char| !letter.is_ascii_hexdigit() && !letter.is_whitespace();
        let start = line.said.chars().count() - said.chars().count();
        if let Some((at, wrong)) = said.chars().enumerate().find(|&(_, letter)| is_wrong(letter)) {
            let (place, wrong) = (start + at + 1, output::letter(wrong));
            return line.wrong(format!("character {place} is {wrong} and no hex digit"));
        }
        let digits: String = digits().collect();
        self.behind.extend(from_hex(digits.as_bytes(), &line.place())?);
        Ok(())
    }

    fn end_block(&mut self, of: &str) -> Checked<()> {
        match self.block.take() {
            None => {}
            Some(Block::Path(path)) => self.path = Some(path),
            Some(Block::Segment(segment)) => self.segments.push(Some(segment.finished(of)?)),
        }
        Ok(())
    }
}

// ---- lines

fn yes_or_no(line: &Line<'_>) -> Checked<bool> {
    match line.words[..] {
        [_, "yes"] => Ok(true),
        [_, "no"] => Ok(false),
        _ => line.wrong(format!("write `{0} yes` or `{0} no`", line.words[0])),
    }
}

/// A number of four hex digits.
fn two_bytes(line: &Line<'_>) -> Checked<u16> {
    let word = line.only(&format!("{} 1234", line.words[0]))?;
    Ok(u16::from_be_bytes(line.hex(line.words[0], word)?))
}
