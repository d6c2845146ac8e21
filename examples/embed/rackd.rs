//! A binding of rackd.h for Rust, in one file and with no dependency, and a test of it.
//!
//!     rustc --edition 2021 --test -L dist/x86_64-linux examples/embed/rackd.rs -o rack && ./rack

use std::ffi::c_void;

#[repr(C)]
struct Handle {
    inside: *mut c_void,
}

#[link(name = "rackd", kind = "static")]
extern "C" {
    fn rackd_open(rack: *mut Handle, text: *const u8, octets: usize, endless: bool) -> u32;
    fn rackd_close(rack: *mut Handle);
    fn rackd_request(
        rack: *mut Handle,
        line: u8,
        master: u8,
        telegram: *const u8,
        octets: usize,
        reply: *mut u8,
        room: usize,
        count: *mut usize,
        rule: *mut u8,
        place: *mut u32,
    ) -> u32;
    fn rackd_tick(rack: *mut Handle, line: u8, units: u32) -> u32;
    fn rackd_operate(
        rack: *mut Handle,
        line: u8,
        command: *const u8,
        octets: usize,
        answer: *mut u8,
        room: usize,
        count: *mut usize,
    ) -> u32;
    fn rackd_row(
        rack: *mut Handle,
        line: u8,
        place: u32,
        row: *mut u8,
        room: usize,
        count: *mut usize,
    ) -> u32;
}

/// Room for each reply, and for each answer or row.
const MOST_REPLY: usize = 255;
const MOST_TEXT: usize = 1800;

/// A call that is refused, with the number that rackd.h names.
#[derive(Debug, PartialEq, Eq)]
pub struct Fault(pub u32);

fn checked(done: u32) -> Result<(), Fault> {
    match done {
        0 => Ok(()),
        fault => Err(Fault(fault)),
    }
}

/// The answer to a telegram. A reply of no octets is silence.
#[derive(Debug, PartialEq, Eq)]
pub struct Answer {
    pub reply: Vec<u8>,
    pub rule: u8,
    pub place: u32,
}

/// A rack in this process. It is closed when it is dropped.
pub struct Rack {
    handle: Handle,
}

// A rack may move from one thread to another between two calls.
unsafe impl Send for Rack {}

impl Rack {
    /// Opens the rack that the text of a rack file describes. Endless lines forget old entries.
    pub fn open(text: &str, endless: bool) -> Result<Rack, Fault> {
        let mut handle = Handle {
            inside: std::ptr::null_mut(),
        };
        checked(unsafe { rackd_open(&mut handle, text.as_ptr(), text.len(), endless) })?;
        Ok(Rack { handle })
    }

    /// Takes one whole telegram of a master.
    pub fn request(&mut self, line: u8, master: u8, telegram: &[u8]) -> Result<Answer, Fault> {
        let (mut reply, mut count, mut rule, mut place) = ([0; MOST_REPLY], 0, 0, 0);
        checked(unsafe {
            rackd_request(
                &mut self.handle,
                line,
                master,
                telegram.as_ptr(),
                telegram.len(),
                reply.as_mut_ptr(),
                reply.len(),
                &mut count,
                &mut rule,
                &mut place,
            )
        })?;
        let reply = reply[..count].to_vec();
        Ok(Answer { reply, rule, place })
    }

    /// Lets units of 10 ms pass on a line.
    pub fn tick(&mut self, line: u8, units: u32) -> Result<(), Fault> {
        checked(unsafe { rackd_tick(&mut self.handle, line, units) })
    }

    /// Obeys a line of an operator, and returns its answer.
    pub fn operate(&mut self, line: u8, command: &str) -> Result<String, Fault> {
        let (mut answer, mut count) = ([0; MOST_TEXT], 0);
        checked(unsafe {
            rackd_operate(
                &mut self.handle,
                line,
                command.as_ptr(),
                command.len(),
                answer.as_mut_ptr(),
                answer.len(),
                &mut count,
            )
        })?;
        Ok(String::from_utf8_lossy(&answer[..count]).into_owned())
    }

    /// Returns the row at a place of the audit text of a line; its header is at place 0.
    pub fn row(&mut self, line: u8, place: u32) -> Result<String, Fault> {
        let (mut row, mut count) = ([0; MOST_TEXT], 0);
        checked(unsafe {
            rackd_row(
                &mut self.handle,
                line,
                place,
                row.as_mut_ptr(),
                row.len(),
                &mut count,
            )
        })?;
        Ok(String::from_utf8_lossy(&row[..count]).into_owned())
    }
}

impl Drop for Rack {
    fn drop(&mut self) {
        unsafe { rackd_close(&mut self.handle) }
    }
}

#[cfg(test)]
mod tests {
    use super::*;

    const TEXT: &str = "[[line]]\nnumber = 1\ncapacity = 1000\nmasters = [1, 2]\n\
                        [[line.slave]]\naddress = 5\nident = 0x80A1\ncfg = \"2111\"\n";
    const DIAGNOSIS: [u8; 11] = [0x68, 5, 5, 0x68, 0x85, 0x81, 0x6D, 0x3C, 0x3E, 0xED, 0x16];

    #[test]
    fn a_slave_reports_its_diagnosis() {
        let mut rack = Rack::open(TEXT, false).unwrap();
        let answer = rack.request(1, 1, &DIAGNOSIS).unwrap();
        assert_eq!(answer.reply.len(), 17);
        assert_eq!(answer.reply[9..15], [0x02, 0x05, 0x00, 0xFF, 0x80, 0xA1]);
        assert_eq!((answer.rule, answer.place), (19, 1));
        assert_eq!(rack.row(1, 0).unwrap(), "rack-audit 2 line 1\n");
        assert_eq!(rack.row(1, 2), Err(Fault(10)));
    }

    #[test]
    fn time_passes_by_ticks_and_operators_are_obeyed() {
        let mut rack = Rack::open(TEXT, true).unwrap();
        rack.tick(1, 10).unwrap();
        assert_eq!(rack.operate(1, "in 5 0102").unwrap(), "done\n");
        assert_eq!(rack.operate(1, "show 5").unwrap(), "show 5 WaitPrm none in 0102 out 0000 wd off\n");
        assert_eq!(rack.tick(2, 1), Err(Fault(6)));
    }

    #[test]
    fn a_rack_moves_to_another_thread() {
        let mut rack = Rack::open(TEXT, false).unwrap();
        let rule = std::thread::spawn(move || rack.request(1, 2, &DIAGNOSIS).unwrap().rule).join().unwrap();
        assert_eq!(rule, 4);
    }

    #[test]
    fn a_wrong_text_is_refused() {
        assert_eq!(Rack::open("[[line]]\n", false).err(), Some(Fault(3)));
    }
}
