//! The proved library where it runs in a program of its own, under an emulator.

use super::PAGE_BYTES;
use std::cell::RefCell;
use std::io::{self, BufReader, Read, Write};
use std::process::{Child, ChildStdin, ChildStdout, Command, Stdio};

/// A running relay (relay/relay.c); it ends when its input is closed.
struct Relay {
    child: Child,
    requests: ChildStdin,
    answers: BufReader<ChildStdout>,
    unsent: Vec<u8>,
}

thread_local! {
    /// Each thread has its own.
    static RELAY: RefCell<Option<Relay>> = const { RefCell::new(None) };
}

/// The bytes of a request before its sheet.
const HEAD: usize = 12;

/// Requests are sent together only up to so many bytes, which a pipe takes without being read:
/// the relay may wait for its answers to be read before it reads on.
const TOGETHER: usize = 1 << 15;

/// The page's length, or 0 where it does not fit.
pub fn page(sheet: &[u8], page: &mut [u8]) -> usize {
    with_relay(sheet, |relay| {
        relay.ask(sheet, page.len(), true);
        relay.send()?;
        relay.answer(page)
    })
}

/// Hands out the page of each sheet, an empty one where it does not fit.
pub fn pages(sheets: &[Vec<u8>], mut each: impl FnMut(usize, &[u8])) {
    let mut buffer = [0xaa; PAGE_BYTES];
    let mut number = 0;
    while number < sheets.len() {
        let together = how_many_together(&sheets[number..]);
        with_relay(&sheets[number], |relay| {
            for (k, sheet) in sheets[number..][..together].iter().enumerate() {
                relay.ask(sheet, PAGE_BYTES, k + 1 == together);
            }
            relay.send()
        });
        for _ in 0..together {
            let length = with_relay(&sheets[number], |relay| relay.answer(&mut buffer));
            each(number, &buffer[..length]);
            number += 1;
        }
    }
}

/// How many of some sheets are asked for together: the first, and more while they are short enough.
fn how_many_together(sheets: &[Vec<u8>]) -> usize {
    let ends = sheets.iter().scan(0, |bytes, sheet| {
        *bytes += HEAD + sheet.len();
        Some(*bytes)
    });
    ends.take_while(|&end| end <= TOGETHER).count().max(1)
}

/// Does something with the thread's relay, which is started where it is not running yet; a relay that
/// fails is a failure of the proved library or of the emulator, and the sheet is told.
fn with_relay<T>(sheet: &[u8], what: impl FnOnce(&mut Relay) -> io::Result<T>) -> T {
    RELAY.with_borrow_mut(|relay| {
        let relay = relay.get_or_insert_with(Relay::start);
        what(relay).unwrap_or_else(|why| {
            let ended = relay.child.wait();
            panic!("the relay gives no page: {why}, {ended:?}\n  sheet: {}", sheet.escape_ascii())
        })
    })
}

impl Relay {
    /// Starts the relay as the kit starts a program: by its emulator, loader and C library.
    fn start() -> Relay {
        let toolchain = env!("KNELLNETTLE_TOOLCHAIN");
        let mut child = Command::new(format!("{toolchain}/bin/qemu-x86_64"))
            .arg(format!("{toolchain}/lib/ld-linux-x86-64.so.2"))
            .args(["--library-path", &format!("{toolchain}/lib"), env!("KNELLNETTLE_RELAY")])
            .stdin(Stdio::piped())
            .stdout(Stdio::piped())
            .spawn()
            .expect("the kit's emulator starts");
        let requests = child.stdin.take().expect("its input is a pipe");
        let answers = BufReader::with_capacity(1 << 15, child.stdout.take().expect("its output is a pipe"));
        Relay { child, requests, answers, unsent: Vec::new() }
    }

    /// Puts a request with those to be sent.
    fn ask(&mut self, sheet: &[u8], page_length: usize, waited_for: bool) {
        for number in [sheet.len(), page_length, usize::from(waited_for)] {
            self.unsent.extend((number as u32).to_le_bytes());
        }
        self.unsent.extend(sheet);
    }

    fn send(&mut self) -> io::Result<()> {
        self.requests.write_all(&self.unsent)?;
        self.unsent.clear();
        Ok(())
    }

    /// Reads the answer to the oldest request without one; the result is the page's length.
    fn answer(&mut self, page: &mut [u8]) -> io::Result<usize> {
        let mut length = [0; 4];
        self.answers.read_exact(&mut length)?;
        let length = u32::from_le_bytes(length) as usize;
        self.answers.read_exact(&mut page[..length])?;
        Ok(length)
    }
}
