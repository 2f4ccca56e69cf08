//! Requests to one centre.
use crate::configuration::Configuration;
use crate::copies::Copies;
use crate::wire::{begin_request, datagrams, read_answer, read_request, Answer, Answered, BeginFault, DraftFault, Part, Record, Tx, Update};
use std::io::{self, ErrorKind};
use std::net::{SocketAddrV4, UdpSocket};
use std::time::{Duration, Instant, SystemTime, UNIX_EPOCH};

/// The most bytes of a datagram, and one more, so that a longer one shows.
const LONGEST: usize = 1401;
/// How many reads wait for their answers at once.
const MOST_READS: usize = 64;
/// More than any number may change by.
const NO_AMOUNT: i64 = 1 << 62;

/// How long a client waits: before it sends a request again, and before it gives up.
#[derive(Debug, Clone, Copy)]
pub struct Settings {
    pub again: Duration,
    pub patience: Duration,
}

impl Default for Settings {
    fn default() -> Settings {
        Settings { again: Duration::from_millis(250), patience: Duration::from_secs(5) }
    }
}

/// What came of a transaction.
#[derive(Debug, Clone, PartialEq, Eq)]
pub enum Ending {
    /// It happened, whole, and stays so.
    Committed(Tx),
    /// It did not happen, and never will. Where the centre was started anew while the client sent it again, the end is `Unknown` instead.
    Aborted(Tx),
    /// Nothing was begun, because of this key, and nothing will be: each copy that was sent was refused, or the centre has passed the version
    /// that was named. Where only some of several copies are known to be refused, the end is `Unknown` instead.
    Refused { key: String, fault: BeginFault },
    /// The parts make no transaction.
    NoTransaction(DraftFault),
    /// No end was told in time, or only that of a second transaction, or of one copy of several: it may have happened, or may still.
    Unknown,
}

/// The client of one centre. It owns the port at which that centre's answers come, so there is one for each centre.
#[derive(Debug)]
pub struct Client {
    socket: UdpSocket,
    to: SocketAddrV4,
    centre: u8,
    numbers: u8,
    settings: Settings,
    serial: u32,
    /// The epoch of the last answer.
    epoch: Option<u32>,
    /// The newest transaction that was begun for this client.
    newest: Option<Tx>,
}

impl Client {
    /// The client of a centre, whose host is this machine. Fails with `AddrInUse` where the centre has a client already.
    pub fn connect(configuration: &Configuration, centre: u8, settings: Settings) -> io::Result<Client> {
        if !configuration.has(centre) {
            return Err(io::Error::new(ErrorKind::InvalidInput, "the cluster has no such centre"));
        }
        let now = SystemTime::now().duration_since(UNIX_EPOCH).unwrap_or_default();
        Ok(Client {
            socket: UdpSocket::bind(configuration.answered(centre))?,
            to: configuration.asked(centre),
            centre,
            numbers: configuration.bounds.len() as u8,
            settings,
            serial: now.as_micros() as u32,
            epoch: None,
            newest: None,
        })
    }

    fn next_serial(&mut self) -> u32 {
        self.serial = self.serial.wrapping_add(1);
        self.serial
    }

    fn send(&self, serial: u32, message: &[u8]) {
        for datagram in datagrams(self.centre, serial, message) {
            // What cannot be sent is lost, as what is lost on the way.
            let _ = self.socket.send_to(&datagram, self.to);
        }
    }

    /// The next answer before a moment; None where none comes.
    fn receive(&mut self, until: Instant) -> io::Result<Option<Answered>> {
        let mut buffer = [0; LONGEST];
        loop {
            let left = until.saturating_duration_since(Instant::now());
            if left.is_zero() {
                return Ok(None);
            }
            self.socket.set_read_timeout(Some(left))?;
            match self.socket.recv(&mut buffer) {
                Ok(length) => {
                    if let Some(answered) = read_answer(&buffer[..length], self.centre) {
                        self.epoch = Some(answered.epoch);
                        return Ok(Some(answered));
                    }
                }
                Err(error) if matches!(error.kind(), ErrorKind::WouldBlock | ErrorKind::TimedOut) => return Ok(None),
                // A centre that does not run refuses what is sent to it.
                Err(error) if matches!(error.kind(), ErrorKind::ConnectionRefused | ErrorKind::Interrupted) => {}
                Err(error) => return Err(error),
            }
        }
    }

    // ---- reads

    /// What the centre shows of these keys, asked all at once; `TimedOut` where it does not answer.
    pub fn read(&mut self, keys: &[&str]) -> io::Result<Vec<Record>> {
        let end = Instant::now() + self.settings.patience;
        let mut records = Vec::with_capacity(keys.len());
        for some in keys.chunks(MOST_READS) {
            records.extend(self.read_some(some, end)?);
        }
        Ok(records)
    }

    fn read_some(&mut self, keys: &[&str], end: Instant) -> io::Result<Vec<Record>> {
        let asked: Vec<(u32, &str)> = keys.iter().map(|key| (self.next_serial(), *key)).collect();
        let mut shown: Vec<Option<Record>> = vec![None; keys.len()];
        while shown.iter().any(Option::is_none) {
            let now = Instant::now();
            if now >= end {
                return Err(io::Error::new(ErrorKind::TimedOut, "the centre does not answer"));
            }
            for ((serial, key), _) in asked.iter().zip(&shown).filter(|(_, record)| record.is_none()) {
                self.send(*serial, &read_request(self.centre, *serial, key));
            }
            self.take_shown(&asked, &mut shown, end.min(now + self.settings.again))?;
        }
        Ok(shown.into_iter().flatten().collect())
    }

    /// Takes answers to reads until all are there or a moment has come.
    fn take_shown(&mut self, asked: &[(u32, &str)], shown: &mut [Option<Record>], until: Instant) -> io::Result<()> {
        while shown.iter().any(Option::is_none) {
            let Some(answered) = self.receive(until)? else {
                return Ok(());
            };
            if let Answer::Shown(record) = answered.answer {
                let of = |(serial, key): &(u32, &str)| *serial == answered.serial && *key == record.key;
                if let Some(index) = asked.iter().position(of) {
                    shown[index] = Some(record);
                }
            }
        }
        Ok(())
    }

    // ---- transactions

    /// Begins a transaction of these parts, which were read at this centre, and waits for its end. Where all parts are adds it is sent once,
    /// since it could happen twice; else it is sent again until it is answered.
    pub fn begin(&mut self, parts: &[Part]) -> io::Result<Ending> {
        let end = Instant::now() + self.settings.patience;
        loop {
            let Some(serial) = self.free_serial(end)? else {
                return Ok(Ending::Unknown);
            };
            if let Some(ending) = self.begin_under(serial, parts, end)? {
                return Ok(ending);
            }
        }
    }

    /// A serial under which nothing was begun, as far as one can know before; None where the centre is silent.
    fn free_serial(&mut self, end: Instant) -> io::Result<Option<u32>> {
        let mut wait = self.settings.again;
        while self.newest.is_none() {
            let now = Instant::now();
            if now >= end {
                return Ok(None);
            }
            let serial = self.next_serial();
            let update = Update::Add(vec![(self.numbers, NO_AMOUNT)]);
            let nothing = Part { key: "probe".to_string(), version: 1, update };
            self.send(serial, &begin_request(self.centre, serial, &[nothing]));
            let until = end.min(now + wait);
            while let Some(answered) = self.receive(until)? {
                if answered.serial == serial {
                    if matches!(answered.answer, Answer::NoTransaction(_)) {
                        return Ok(Some(serial));
                    }
                    break;
                }
            }
            wait *= 2;
        }
        Ok(Some(self.next_serial()))
    }

    /// What comes of a begin under a serial; None where that was another client's, and nothing was begun. Once a copy is refused no more are
    /// sent, but the answers to the others are waited for.
    fn begin_under(&mut self, serial: u32, parts: &[Part], end: Instant) -> io::Result<Option<Ending>> {
        let message = begin_request(self.centre, serial, parts);
        let may_repeat = parts.iter().any(|part| matches!(part.update, Update::Write { .. }));
        let newest = self.newest;
        let mut copies = Copies::new(parts, self.epoch);
        while Instant::now() < end {
            if copies.sent == 0 || may_repeat && !copies.is_refused() {
                self.send(serial, &message);
                copies.sent += 1;
            }
            let was_refused = copies.is_refused();
            let until = end.min(Instant::now() + self.settings.again);
            while let Some(answered) = self.receive(until)? {
                if answered.serial != serial {
                    continue;
                }
                if let Answer::Begun(tx) | Answer::Ended { tx, .. } = &answered.answer {
                    if Some(*tx) <= newest {
                        return Ok(None);
                    }
                    self.newest = self.newest.max(Some(*tx));
                }
                if let Some(ending) = copies.take(answered) {
                    return Ok(Some(ending));
                }
            }
            if was_refused && copies.is_refused() {
                break;
            }
        }
        Ok(Some(Ending::Unknown))
    }
}

#[cfg(test)]
mod tests {
    use super::*;
    use crate::wire::Item;
    use std::thread::{self, JoinHandle};

    const AGAIN: Duration = Duration::from_millis(50);

    /// An answer of centre 1 in its epoch 1 to the client.
    fn answer(serial: &[u8], rest: &[u8]) -> Vec<u8> {
        let message = [&[1, 15, 1, 17], serial, rest].concat();
        let head = [&[1][..], &[1, 0, 0, 0, 1, 0, 0, 0, message.len() as u8, 0, 0, 0, 0, 0, 1, 0]].concat();
        [head, message].concat()
    }

    /// A centre that says of the client's first serial that it is free, waits until two copies of a begin are there, and then sends these answers.
    fn centre(configuration: &Configuration, answers: &'static [&'static [u8]]) -> JoinHandle<()> {
        let (socket, to) = (UdpSocket::bind(configuration.asked(1)).unwrap(), configuration.answered(1));
        thread::spawn(move || {
            let mut request = [0; LONGEST];
            socket.recv(&mut request).unwrap();
            socket.send_to(&answer(&request[21..25], &[5, 6]), to).unwrap();
            for _ in 0..2 {
                socket.recv(&mut request).unwrap();
            }
            for rest in answers {
                socket.send_to(&answer(&request[21..25], rest), to).unwrap();
            }
        })
    }

    fn begun_at(port: u16, answers: &'static [&'static [u8]]) -> Ending {
        let text = format!(r#"{{"centres":1,"bounds":[[0,9]],"hosts":["127.0.0.1"],"port":{port},"wait":20}}"#);
        let configuration = Configuration::parse(&text).unwrap();
        let centre = centre(&configuration, answers);
        let mut client = Client::connect(&configuration, 1, Settings { again: AGAIN, ..Settings::default() }).unwrap();
        let ending = client.begin(&[Part::insert("cup", Item { body: Vec::new(), numbers: vec![1] })]).unwrap();
        centre.join().unwrap();
        ending
    }

    /// The first copy is refused as busy.
    const BUSY: &[u8] = &[3, 3, b'c', b'u', b'p', 5];
    const BEGUN: &[u8] = &[2, 1, 1, 0, 0, 0, 1, 1, 0, 0];
    const COMMITTED: &[u8] = &[4, 1, 1, 0, 0, 0, 1, 1, 0, 0, 1];

    #[test]
    fn a_copy_that_comes_after_a_refusal_may_be_begun() {
        let tx = Tx { centre: 1, epoch: 1, sequence: 257 };
        let port = 10_000 + (std::process::id() % 5_000) as u16 * 2;
        assert_eq!(begun_at(port, &[BUSY, BEGUN, COMMITTED]), Ending::Committed(tx));
        assert_eq!(begun_at(port, &[BUSY]), Ending::Unknown);
        let refused = Ending::Refused { key: "cup".to_string(), fault: BeginFault::Busy };
        assert_eq!(begun_at(port, &[BUSY, BUSY]), refused);
    }
}
