//! Bytes of requests and answers.
use std::fmt;

/// The most bytes of a message in one datagram, and those of the head before them.
const PIECE: usize = 1383;
const HEAD: usize = 17;
const FORMAT: u8 = 1;
const READ: u8 = 13;
const BEGIN: u8 = 14;
const ANSWER: u8 = 15;

/// A transaction: the centre that began it, in which epoch, and as the how manieth.
#[derive(Debug, Clone, Copy, PartialEq, Eq, PartialOrd, Ord, Hash)]
pub struct Tx {
    pub centre: u8,
    pub epoch: u32,
    pub sequence: u32,
}

impl fmt::Display for Tx {
    fn fmt(&self, out: &mut fmt::Formatter<'_>) -> fmt::Result {
        write!(out, "{}.{}.{}", self.centre, self.epoch, self.sequence)
    }
}

/// The body of a record, at most 128 bytes, and its numbers, one for each of the bounds of the configuration.
#[derive(Debug, Clone, PartialEq, Eq, Default)]
pub struct Item {
    pub body: Vec<u8>,
    pub numbers: Vec<i64>,
}

/// What a centre shows of a key. There is no item where it knows no record.
#[derive(Debug, Clone, PartialEq, Eq)]
pub struct Record {
    pub key: String,
    pub version: u64,
    pub item: Option<Item>,
    /// The transactions whose adds the numbers have.
    pub seen: Vec<Tx>,
    /// Whether it is time to write the record over itself, since a version takes 64 adds.
    pub due: bool,
}

/// What a transaction does to one key.
#[derive(Debug, Clone, PartialEq, Eq)]
pub enum Update {
    /// A whole new item in the place of what was read with these adds.
    Write { item: Item, seen: Vec<Tx> },
    /// Amounts for numbers, which count from 1 and ascend.
    Add(Vec<(u8, i64)>),
}

#[derive(Debug, Clone, PartialEq, Eq)]
pub struct Part {
    pub key: String,
    pub version: u64,
    pub update: Update,
}

impl Part {
    /// A new record, where there is none.
    pub fn insert(key: &str, item: Item) -> Part {
        let update = Update::Write { item, seen: Vec::new() };
        Part { key: key.to_string(), version: 0, update }
    }

    /// A write over the very record that was read.
    pub fn set(read: &Record, item: Item) -> Part {
        let update = Update::Write { item, seen: read.seen.clone() };
        Part { key: read.key.clone(), version: read.version, update }
    }

    /// A write of what was read over itself. None where nothing was there.
    pub fn keep(read: &Record) -> Option<Part> {
        Some(Part::set(read, read.item.clone()?))
    }

    /// An amount that is added to a number of a record that was read.
    pub fn add(read: &Record, number: u8, amount: i64) -> Part {
        let update = Update::Add(vec![(number, amount)]);
        Part { key: read.key.clone(), version: read.version, update }
    }
}

/// Why a centre began nothing.
#[derive(Debug, Clone, PartialEq, Eq)]
pub enum BeginFault {
    /// It holds another version or other adds than a write names: these.
    Stale { version: u64, seen: Vec<Tx> },
    /// It holds another version than an add names: this.
    Unseen { version: u64 },
    /// It has no record of the key to which is added.
    NoItem,
    /// It has begun as many transactions as it can since its start.
    Sequence,
    /// It has too many open.
    Busy,
}

/// Why parts make no transaction.
#[derive(Debug, Clone, Copy, PartialEq, Eq)]
pub enum DraftFault {
    Empty,
    TooMany,
    RepeatedKey,
    BadAttribute,
    ZeroAmount,
    OutOfBounds,
}

#[derive(Debug, Clone, PartialEq, Eq)]
pub enum Answer {
    Shown(Record),
    Begun(Tx),
    Refused { key: String, fault: BeginFault },
    Ended { tx: Tx, is_commit: bool },
    NoTransaction(DraftFault),
}

/// An answer, to which request, and in which epoch the centre gave it.
#[derive(Debug, Clone, PartialEq, Eq)]
pub struct Answered {
    pub serial: u32,
    pub epoch: u32,
    pub answer: Answer,
}

// ---- requests

fn put_key(key: &str, out: &mut Vec<u8>) {
    out.push(key.len() as u8);
    out.extend_from_slice(key.as_bytes());
}

fn put_item(item: &Item, out: &mut Vec<u8>) {
    out.push(item.body.len() as u8);
    out.extend_from_slice(&item.body);
    out.push(item.numbers.len() as u8);
    for number in &item.numbers {
        out.extend_from_slice(&number.to_le_bytes());
    }
}

fn put_seen(seen: &[Tx], out: &mut Vec<u8>) {
    out.push(seen.len() as u8);
    for tx in seen {
        out.push(tx.centre);
        out.extend_from_slice(&tx.epoch.to_le_bytes());
        out.extend_from_slice(&tx.sequence.to_le_bytes());
    }
}

fn put_part(part: &Part, out: &mut Vec<u8>) {
    put_key(&part.key, out);
    out.extend_from_slice(&part.version.to_le_bytes());
    match &part.update {
        Update::Write { item, seen } => {
            out.push(1);
            put_item(item, out);
            put_seen(seen, out);
        }
        Update::Add(amounts) => {
            out.push(2);
            out.push(amounts.len() as u8);
            for (number, amount) in amounts {
                out.push(*number);
                out.extend_from_slice(&amount.to_le_bytes());
            }
        }
    }
}

fn request(centre: u8, kind: u8, serial: u32) -> Vec<u8> {
    let mut message = vec![FORMAT, kind, 16 + centre, centre];
    message.extend_from_slice(&serial.to_le_bytes());
    message
}

/// The message that reads a key.
pub fn read_request(centre: u8, serial: u32, key: &str) -> Vec<u8> {
    let mut message = request(centre, READ, serial);
    put_key(key, &mut message);
    message
}

/// The message that begins a transaction of these parts, in whatever order they come.
pub fn begin_request(centre: u8, serial: u32, parts: &[Part]) -> Vec<u8> {
    let mut sorted: Vec<&Part> = parts.iter().collect();
    sorted.sort_by(|one, other| one.key.as_bytes().cmp(other.key.as_bytes()));
    let mut message = request(centre, BEGIN, serial);
    message.push(sorted.len() as u8);
    for part in sorted {
        put_part(part, &mut message);
    }
    message
}

/// The datagrams of a request, under its own serial.
pub fn datagrams(centre: u8, serial: u32, message: &[u8]) -> Vec<Vec<u8>> {
    let count = message.len().div_ceil(PIECE) as u16;
    let datagram = |(index, piece): (usize, &[u8])| {
        let mut bytes = vec![16 + centre];
        bytes.extend_from_slice(&serial.to_le_bytes());
        bytes.extend_from_slice(&1u32.to_le_bytes());
        bytes.extend_from_slice(&(message.len() as u32).to_le_bytes());
        bytes.extend_from_slice(&(index as u16).to_le_bytes());
        bytes.extend_from_slice(&count.to_le_bytes());
        bytes.extend_from_slice(piece);
        bytes
    };
    message.chunks(PIECE).enumerate().map(datagram).collect()
}

// ---- answers

/// Bytes that are taken one after another. None where they are not as the tables say.
struct Reader<'a>(&'a [u8]);

impl<'a> Reader<'a> {
    fn take(&mut self, count: usize) -> Option<&'a [u8]> {
        if count > self.0.len() {
            return None;
        }
        let (taken, rest) = self.0.split_at(count);
        self.0 = rest;
        Some(taken)
    }

    fn u8(&mut self) -> Option<u8> {
        Some(self.take(1)?[0])
    }

    /// A byte from 0 to a highest one.
    fn up_to(&mut self, high: u8) -> Option<u8> {
        self.u8().filter(|byte| *byte <= high)
    }

    fn u16(&mut self) -> Option<u16> {
        Some(u16::from_le_bytes(self.take(2)?.try_into().ok()?))
    }

    fn u32(&mut self) -> Option<u32> {
        Some(u32::from_le_bytes(self.take(4)?.try_into().ok()?))
    }

    fn u64(&mut self) -> Option<u64> {
        Some(u64::from_le_bytes(self.take(8)?.try_into().ok()?))
    }

    fn key(&mut self) -> Option<String> {
        let length = self.up_to(32)? as usize;
        String::from_utf8(self.take(length)?.to_vec()).ok()
    }

    fn tx(&mut self) -> Option<Tx> {
        Some(Tx { centre: self.u8()?, epoch: self.u32()?, sequence: self.u32()? })
    }

    fn seen(&mut self) -> Option<Vec<Tx>> {
        (0..self.up_to(64)?).map(|_| self.tx()).collect()
    }

    fn item(&mut self) -> Option<Item> {
        let length = self.up_to(128)? as usize;
        let body = self.take(length)?.to_vec();
        let numbers = (0..self.up_to(4)?).map(|_| self.u64().map(|bits| bits as i64)).collect::<Option<_>>()?;
        Some(Item { body, numbers })
    }

    fn record(&mut self) -> Option<Record> {
        let (key, version) = (self.key()?, self.u64()?);
        let item = if self.up_to(1)? == 1 { Some(self.item()?) } else { None };
        Some(Record { key, version, item, seen: self.seen()?, due: self.up_to(1)? == 1 })
    }

    fn begin_fault(&mut self) -> Option<BeginFault> {
        match self.u8()? {
            1 => Some(BeginFault::Stale { version: self.u64()?, seen: self.seen()? }),
            2 => Some(BeginFault::Unseen { version: self.u64()? }),
            3 => Some(BeginFault::NoItem),
            4 => Some(BeginFault::Sequence),
            5 => Some(BeginFault::Busy),
            _ => None,
        }
    }

    fn draft_fault(&mut self) -> Option<DraftFault> {
        use DraftFault::*;
        let all = [Empty, TooMany, RepeatedKey, BadAttribute, ZeroAmount, OutOfBounds];
        all.get((self.u8()? as usize).checked_sub(1)?).copied()
    }

    fn answer(&mut self) -> Option<Answer> {
        match self.u8()? {
            1 => Some(Answer::Shown(self.record()?)),
            2 => Some(Answer::Begun(self.tx()?)),
            3 => Some(Answer::Refused { key: self.key()?, fault: self.begin_fault()? }),
            4 => Some(Answer::Ended { tx: self.tx()?, is_commit: self.up_to(1)? == 1 }),
            5 => Some(Answer::NoTransaction(self.draft_fault()?)),
            _ => None,
        }
    }
}

/// The answer in a datagram of a centre; None where it is none.
pub fn read_answer(datagram: &[u8], centre: u8) -> Option<Answered> {
    let mut head = Reader(datagram.get(..HEAD)?);
    let (sender, epoch, _, total) = (head.u8()?, head.u32()?, head.u32()?, head.u32()?);
    let is_whole = (head.u16()?, head.u16()?) == (0, 1) && total as usize == datagram.len() - HEAD;
    let mut body = Reader(&datagram[HEAD..]);
    if sender != centre || !is_whole || body.take(4)? != [FORMAT, ANSWER, centre, 16 + centre] {
        return None;
    }
    let serial = body.u32()?;
    let answer = body.answer()?;
    body.0.is_empty().then_some(Answered { serial, epoch, answer })
}

#[cfg(test)]
mod tests {
    use super::*;

    /// The worked datagrams of the page, those that are sent (`>`) or those that are received (`<`).
    fn worked(mark: &str) -> Vec<Vec<u8>> {
        let page = include_str!("../../../docs/CLIENTS.md");
        let lines = page.lines().filter_map(|line| line.strip_prefix("    ")?.strip_prefix(mark)?.strip_prefix(' '));
        lines.map(bytes_of).collect()
    }

    fn bytes_of(hexadecimal: &str) -> Vec<u8> {
        let digits: Vec<u32> = hexadecimal.chars().filter_map(|digit| digit.to_digit(16)).collect();
        digits.chunks(2).map(|pair| (pair[0] * 16 + pair[1]) as u8).collect()
    }

    fn one(message: Vec<u8>, serial: u32) -> Vec<u8> {
        datagrams(1, serial, &message).remove(0)
    }

    #[test]
    fn requests_are_as_worked() {
        let sent = worked(">");
        let blue = Part::insert("cup", Item { body: b"blue".to_vec(), numbers: vec![10] });
        let read = Record { key: "cup".to_string(), version: 1, item: None, seen: Vec::new(), due: false };
        assert_eq!(sent[0], one(read_request(1, 7, "cup"), 7));
        assert_eq!(sent[1], one(begin_request(1, 8, &[blue]), 8));
        assert_eq!(sent[4], one(begin_request(1, 10, &[Part::add(&read, 1, -1)]), 10));
        assert_eq!(sent[8], one(begin_request(1, 14, &[Part::add(&read, 1, 1 << 62)]), 14));
    }

    #[test]
    fn answers_are_as_worked() {
        let answers: Vec<Answered> = worked("<").iter().map(|bytes| read_answer(bytes, 1).unwrap()).collect();
        let tx = |sequence| Tx { centre: 1, epoch: 1, sequence };
        let item = Item { body: b"blue".to_vec(), numbers: vec![9] };
        let record = Record { key: "cup".to_string(), version: 1, item: Some(item), seen: vec![tx(2)], due: false };
        assert_eq!(answers[1], Answered { serial: 8, epoch: 1, answer: Answer::Begun(tx(1)) });
        assert_eq!(answers[2].answer, Answer::Ended { tx: tx(1), is_commit: true });
        let stale = BeginFault::Stale { version: 1, seen: Vec::new() };
        assert_eq!(answers[4].answer, Answer::Refused { key: "cup".to_string(), fault: stale });
        assert_eq!(answers[7].answer, Answer::Shown(record));
        assert_eq!(answers[10].answer, Answer::NoTransaction(DraftFault::OutOfBounds));
    }

    #[test]
    fn other_bytes_are_no_answer() {
        for bytes in worked("<") {
            for length in 0..bytes.len() {
                assert_eq!(read_answer(&bytes[..length], 1), None);
            }
            assert_eq!(read_answer(&bytes, 2), None);
        }
    }

    #[test]
    fn a_long_message_is_cut() {
        let lengths: Vec<usize> = datagrams(1, 1, &[0; 3000]).iter().map(Vec::len).collect();
        assert_eq!(lengths, [1400, 1400, 251]);
    }
}
