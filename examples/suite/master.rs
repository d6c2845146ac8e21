//! A DP master of class 1 for `python -m rackd suite`: a start for a program of your own. It needs Rust 1.70 or later
//! and no crates.
//!
//!     rustc --edition 2021 -O -o master examples/suite/master.rs
//!     PYTHONPATH=python python3 -m rackd suite ./master
//!
//! It reads what README.md of this folder describes from its environment, connects to the bus, and serves each slave
//! once in each cycle, until SIGTERM ends it. To test a stack of your own, keep the module `environment`, connect your
//! stack to the port as `Bus::connect` does, and put your stack in the place of the rest.

use std::error::Error;
use std::io::{self, ErrorKind, Read, Write};
use std::net::TcpStream;
use std::thread;
use std::time::{Duration, Instant};

/// How long a reply may take, and the pause behind a cycle.
const SLOT_TIME: Duration = Duration::from_millis(500);
const CYCLE_TIME: Duration = Duration::from_millis(5);
/// How often a request is sent without a reply.
const TRIES: usize = 2;

// IEC 61158-4-3: delimiters, and the bits and functions of the frame control octet.
const SD1: u8 = 0x10;
const SD2: u8 = 0x68;
const SC: u8 = 0xE5;
const ED: u8 = 0x16;
const EXTENSION: u8 = 0x80;
const FCB: u8 = 0x20;
const FCV: u8 = 0x10;
const SRD: u8 = 0x4D;
const SDN: u8 = 0x46;
const NO_RESOURCE: u8 = 2;
const DATA_LOW: u8 = 8;
const DATA_HIGH: u8 = 10;
const ALL: u8 = 127;

// IEC 61158-6-3: service access points, the holder of a slave that nobody holds, and bits.
const MASTER: u8 = 62;
const GLOBAL_CONTROL: u8 = 58;
const SLAVE_DIAG: u8 = 60;
const SET_PRM: u8 = 61;
const CHK_CFG: u8 = 62;
const NOBODY: u8 = 255;
const LOCK_REQ: u8 = 0x80;
const SYNC_REQ: u8 = 0x20;
const FREEZE_REQ: u8 = 0x10;
const WD_ON: u8 = 0x08;
const MIN_TSDR: u8 = 11;
const CLEAR_DATA: u8 = 0x02;
const FREEZE: u8 = 0x08;
const SYNC: u8 = 0x20;

/// An access point of a slave; `None` is the default one, Data_Exchange.
type Point = Option<u8>;

/// Telegrams (IEC 61158-4-3).
mod telegram {
    use super::{Point, ED, EXTENSION, MASTER, SC, SD1, SD2, SLAVE_DIAG};

    /// What the octets that have come begin with.
    pub enum Begin {
        /// A telegram of this size.
        Whole(usize),
        /// A telegram of which octets have to come.
        Part,
        /// No telegram.
        Nothing,
    }

    /// A reply: its function, and its data.
    pub struct Reply {
        pub function: u8,
        pub data: Vec<u8>,
    }

    /// Returns the sum of octets modulo 256.
    fn check_sequence(octets: &[u8]) -> u8 {
        octets.iter().fold(0, |sum, octet| sum.wrapping_add(*octet))
    }

    /// Makes a request: an SD1 without data to the default point, and an SD2 for all others.
    pub fn request(to: u8, from: u8, function: u8, point: Point, data: &[u8]) -> Vec<u8> {
        let extension = if point.is_some() { EXTENSION } else { 0 };
        let mut body = vec![to | extension, from | extension, function];
        body.extend(point.iter().flat_map(|point| [*point, MASTER]));
        body.extend_from_slice(data);
        let length = body.len() as u8;
        let mut whole = if length == 3 { vec![SD1] } else { vec![SD2, length, length, SD2] };
        whole.extend_from_slice(&body);
        whole.extend([check_sequence(&body), ED]);
        whole
    }

    /// Returns what octets begin with.
    pub fn begin(octets: &[u8]) -> Begin {
        let size = match octets {
            [] | [SD2] | [SD2, _] | [SD2, _, _] => return Begin::Part,
            [SC, ..] => 1,
            [SD1, ..] => 6,
            [SD2, length, again, SD2, ..] if length == again && (4..=249).contains(length) => usize::from(*length) + 6,
            _ => return Begin::Nothing,
        };
        if octets.len() < size {
            Begin::Part
        } else {
            Begin::Whole(size)
        }
    }

    /// Reads a whole telegram as the reply of a slave from a point. Returns `None` if it is spoilt, or of another slave
    /// or point, as a late reply to an earlier request is.
    pub fn reply(octets: &[u8], master: u8, slave: u8, point: Point) -> Option<Reply> {
        let (body, end) = match octets {
            // no diagnosis is without data
            [SC] if point == Some(SLAVE_DIAG) => return None,
            [SC] => return Some(Reply { function: super::DATA_LOW, data: Vec::new() }),
            [SD1, rest @ ..] => rest.split_at(rest.len() - 2),
            [SD2, _, _, _, rest @ ..] => rest.split_at(rest.len() - 2),
            _ => return None,
        };
        if end != [check_sequence(body), ED] {
            return None;
        }
        let [to, from, function, data @ ..] = body else { return None };
        if to & !EXTENSION != master || from & !EXTENSION != slave {
            return None;
        }
        let extended = to & from & EXTENSION != 0;
        let data = match (point, data) {
            (Some(point), [MASTER, found, data @ ..]) if extended && *found == point => data,
            (None, data) if !extended => data,
            (Some(_), []) if !extended => &[],
            _ => return None,
        };
        Some(Reply { function: function & 0x0F, data: data.to_vec() })
    }
}

/// The bus: octets over TCP. A session begins with the address of the master, and E5 comes back.
struct Bus {
    stream: TcpStream,
    address: u8,
    input: Vec<u8>,
}

impl Bus {
    /// Connects as the master with this address.
    fn connect(port: u16, address: u8) -> io::Result<Bus> {
        let mut stream = TcpStream::connect(("127.0.0.1", port))?;
        let mut answer = [0];
        stream.set_nodelay(true)?;
        stream.write_all(&[address])?;
        stream.read_exact(&mut answer)?;
        if answer != [SC] {
            return Err(io::Error::new(ErrorKind::ConnectionRefused, "the bus does not accept this address"));
        }
        Ok(Bus { stream, address, input: Vec::new() })
    }

    /// Appends what comes within a time, and returns whether something came.
    fn receive(&mut self, time: Duration) -> io::Result<bool> {
        let mut room = [0; 256];
        // a time of zero would be no limit
        self.stream.set_read_timeout(Some(time.max(Duration::from_millis(1))))?;
        match self.stream.read(&mut room) {
            Ok(0) => Err(io::Error::new(ErrorKind::UnexpectedEof, "the bus has ended")),
            Ok(count) => {
                self.input.extend_from_slice(&room[..count]);
                Ok(true)
            }
            Err(error) if matches!(error.kind(), ErrorKind::WouldBlock | ErrorKind::TimedOut) => Ok(false),
            Err(error) => Err(error),
        }
    }

    /// Drops what is left of earlier replies.
    fn drain(&mut self) -> io::Result<()> {
        while self.receive(Duration::ZERO)? {}
        self.input.clear();
        Ok(())
    }

    /// Sends a telegram that nobody replies to.
    fn send(&mut self, to: u8, function: u8, point: Point, data: &[u8]) -> io::Result<()> {
        self.stream.write_all(&telegram::request(to, self.address, function, point, data))
    }

    /// Sends a request, and returns the reply of a slave from the same point if it comes in time.
    fn ask(&mut self, slave: u8, function: u8, point: Point, data: &[u8]) -> io::Result<Option<telegram::Reply>> {
        self.drain()?;
        self.send(slave, function, point, data)?;
        let until = Instant::now() + SLOT_TIME;
        loop {
            match telegram::begin(&self.input) {
                telegram::Begin::Whole(size) => {
                    let octets: Vec<u8> = self.input.drain(..size).collect();
                    let reply = telegram::reply(&octets, self.address, slave, point);
                    if reply.is_some() {
                        return Ok(reply);
                    }
                }
                telegram::Begin::Nothing => {
                    self.input.remove(0);
                }
                telegram::Begin::Part => {
                    let left = until.saturating_duration_since(Instant::now());
                    if !self.receive(left)? && left.is_zero() {
                        return Ok(None);
                    }
                }
            }
        }
    }
}

/// What came of a request.
enum Answer {
    /// Data, and whether a diagnosis is due.
    Data { octets: Vec<u8>, diagnosis_due: bool },
    /// The slave is busy: the same again later.
    Busy,
    /// The slave refuses.
    Refused,
    /// The slave does not reply.
    Lost,
}

/// A slave as it is configured.
struct Settings {
    address: u8,
    ident: u16,
    group: u8,
    watchdog_ms: u32,
    sync: bool,
    freeze: bool,
    failsafe: bool,
    mirror: bool,
    cfg: Vec<u8>,
    user: Vec<u8>,
}

impl Settings {
    /// Returns the data of Set_Prm. The watchdog time has two factors in units of 10 ms.
    fn parameters(&self) -> Result<Vec<u8>, String> {
        let mut status = LOCK_REQ;
        let mut factors = (1, 1);
        if self.watchdog_ms > 0 {
            let units = self.watchdog_ms / 10;
            let first = (1..=255).find(|first| units % first == 0 && units / first <= 255);
            let first = first.ok_or_else(|| format!("a watchdog of {} ms has no two factors", self.watchdog_ms))?;
            factors = (first as u8, (units / first) as u8);
            status |= WD_ON;
        }
        status |= if self.sync { SYNC_REQ } else { 0 } | if self.freeze { FREEZE_REQ } else { 0 };
        let [high, low] = self.ident.to_be_bytes();
        let mut data = vec![status, factors.0, factors.1, MIN_TSDR, high, low, self.group];
        data.extend_from_slice(&self.user);
        Ok(data)
    }
}

/// The diagnosis of a slave (IEC 61158-6-3).
struct Diagnosis {
    /// Station_Not_Ready, Cfg_Fault, Prm_Fault or Prm_Req.
    is_faulty: bool,
    holder: u8,
    ident: u16,
}

/// A slave, its next outputs, and whether data are exchanged with it.
struct Slave {
    settings: Settings,
    outputs: Vec<u8>,
    is_ready: bool,
    exchanges: u64,
    /// The FCB of the next request, if the slave has replied to the one before. The first one has FCV 0 and FCB 1.
    fcb: Option<bool>,
}

impl Slave {
    /// Sends an SRD, and again as it was if no reply comes.
    fn request(&mut self, bus: &mut Bus, point: Point, data: &[u8]) -> io::Result<Answer> {
        let function = SRD | self.fcb.map_or(FCB, |fcb| FCV | if fcb { FCB } else { 0 });
        for _ in 0..TRIES {
            if let Some(reply) = bus.ask(self.settings.address, function, point, data)? {
                self.fcb = Some(self.fcb.is_some_and(|fcb| !fcb));
                return Ok(match reply.function {
                    DATA_LOW | DATA_HIGH => {
                        Answer::Data { octets: reply.data, diagnosis_due: reply.function == DATA_HIGH }
                    }
                    NO_RESOURCE => Answer::Busy,
                    _ => Answer::Refused,
                });
            }
        }
        self.fcb = None;
        Ok(Answer::Lost)
    }

    fn diagnosis(&mut self, bus: &mut Bus) -> io::Result<Option<Diagnosis>> {
        let Answer::Data { octets, .. } = self.request(bus, Some(SLAVE_DIAG), &[])? else { return Ok(None) };
        let [first, second, _, holder, high, low, ..] = octets[..] else { return Ok(None) };
        let is_faulty = first & 0x46 != 0 || second & 0x01 != 0;
        Ok(Some(Diagnosis { is_faulty, holder, ident: u16::from_be_bytes([high, low]) }))
    }

    /// Reads the diagnosis, and returns whether the slave is in data exchange with this master.
    fn confirm(&mut self, bus: &mut Bus) -> io::Result<bool> {
        let diagnosis = self.diagnosis(bus)?;
        Ok(diagnosis.is_some_and(|diagnosis| !diagnosis.is_faulty && diagnosis.holder == bus.address))
    }

    /// Brings the slave up if it is the configured one and no other master holds it. Returns whether it is ready.
    fn bring_up(&mut self, bus: &mut Bus) -> Result<bool, Box<dyn Error>> {
        let Some(found) = self.diagnosis(bus)? else { return Ok(false) };
        let is_mine = found.holder == bus.address;
        if found.ident != self.settings.ident || (found.holder != NOBODY && !is_mine) {
            return Ok(false);
        }
        if is_mine && !found.is_faulty {
            return Ok(true);
        }
        let parameters = self.settings.parameters()?;
        if !matches!(self.request(bus, Some(SET_PRM), &parameters)?, Answer::Data { .. }) {
            return Ok(false);
        }
        let cfg = self.settings.cfg.clone();
        if !matches!(self.request(bus, Some(CHK_CFG), &cfg)?, Answer::Data { .. }) {
            return Ok(false);
        }
        Ok(self.confirm(bus)?)
    }

    /// Exchanges data with the slave, and reads its diagnosis if one is due. In Clear the outputs are zeros, and those
    /// of a fail-safe slave no octets.
    fn exchange(&mut self, bus: &mut Bus, in_clear: bool) -> io::Result<()> {
        let outputs = match (in_clear, self.settings.failsafe) {
            (false, _) => self.outputs.clone(),
            (true, true) => Vec::new(),
            (true, false) => vec![0; self.outputs.len()],
        };
        match self.request(bus, None, &outputs)? {
            Answer::Data { octets, diagnosis_due } => {
                self.exchanges += 1;
                if self.settings.mirror && octets.len() == self.outputs.len() {
                    self.outputs = octets;
                }
                if diagnosis_due {
                    self.is_ready = self.confirm(bus)?;
                }
            }
            Answer::Busy => {}
            Answer::Refused | Answer::Lost => self.is_ready = false,
        }
        Ok(())
    }

    /// Returns the Control_Command of the slave's group, if it has one.
    fn command(&self) -> Option<u8> {
        let Settings { sync, freeze, .. } = self.settings;
        let command = if sync { SYNC } else { 0 } | if freeze { FREEZE } else { 0 };
        (self.is_ready && command != 0).then_some(command)
    }
}

/// A master of class 1. It is in Clear for the first `clear` exchanges with each slave.
struct Controller {
    bus: Bus,
    slaves: Vec<Slave>,
    clear: u64,
    in_clear: bool,
}

impl Controller {
    /// Serves each slave once.
    fn cycle(&mut self) -> Result<(), Box<dyn Error>> {
        if self.in_clear && self.slaves.iter().any(|slave| slave.is_ready) {
            self.in_clear = self.slaves.iter().any(|slave| slave.exchanges < self.clear);
            self.control(if self.in_clear { CLEAR_DATA } else { 0 }, 0)?;
        }
        for slave in &mut self.slaves {
            if slave.is_ready {
                slave.exchange(&mut self.bus, self.in_clear)?;
            } else {
                slave.is_ready = slave.bring_up(&mut self.bus)?;
            }
        }
        let commands: Vec<(u8, u8)> =
            self.slaves.iter().filter_map(|slave| Some((slave.command()?, slave.settings.group))).collect();
        for (command, group) in commands {
            self.control(command, group)?;
        }
        Ok(())
    }

    fn control(&mut self, command: u8, group: u8) -> io::Result<()> {
        self.bus.send(ALL, SDN, Some(GLOBAL_CONTROL), &[command, group])
    }
}

/// Reading of the environment.
mod environment {
    use super::{Settings, Slave};
    use std::env;
    use std::str::FromStr;

    pub fn variable(name: &str) -> Result<String, String> {
        env::var(name).map_err(|error| format!("{name}: {error}"))
    }

    pub fn number<T: FromStr>(name: &str) -> Result<T, String> {
        let text = variable(name)?;
        text.parse().map_err(|_| format!("{name}={text} is no number"))
    }

    /// Reads pairs of hex digits.
    fn octets(name: &str) -> Result<Vec<u8>, String> {
        let text = variable(name)?;
        let pairs = (0..text.len()).step_by(2).map(|place| text.get(place..place + 2));
        pairs
            .map(|pair| pair.and_then(|pair| u8::from_str_radix(pair, 16).ok()))
            .collect::<Option<_>>()
            .ok_or_else(|| format!("{name}={text} is no pairs of hex digits"))
    }

    fn slave(address: u8) -> Result<Slave, String> {
        let name = |key: &str| format!("RACKD_SLAVE_{address}_{key}");
        let flag = |key: &str| Ok::<bool, String>(number::<u8>(&name(key))? != 0);
        let settings = Settings {
            address,
            ident: number(&name("IDENT"))?,
            group: number(&name("GROUP"))?,
            watchdog_ms: number(&name("WATCHDOG_MS"))?,
            sync: flag("SYNC")?,
            freeze: flag("FREEZE")?,
            failsafe: flag("FAILSAFE")?,
            mirror: flag("MIRROR")?,
            cfg: octets(&name("CFG"))?,
            user: octets(&name("USER"))?,
        };
        Ok(Slave { settings, outputs: octets(&name("OUTPUTS"))?, is_ready: false, exchanges: 0, fcb: None })
    }

    /// Returns the slaves of RACKD_SLAVE_ADDRESSES.
    pub fn slaves() -> Result<Vec<Slave>, String> {
        let addresses = variable("RACKD_SLAVE_ADDRESSES")?;
        addresses
            .split_whitespace()
            .map(|word| slave(word.parse().map_err(|_| format!("{word} is no address"))?))
            .collect()
    }
}

fn main() -> Result<(), Box<dyn Error>> {
    let clear = environment::number("RACKD_CLEAR")?;
    let slaves = environment::slaves()?;
    let bus = Bus::connect(environment::number("RACKD_PORT")?, environment::number("RACKD_ADDRESS")?)?;
    let mut controller = Controller { bus, slaves, clear, in_clear: clear > 0 };
    loop {
        controller.cycle()?;
        thread::sleep(CYCLE_TIME);
    }
}
