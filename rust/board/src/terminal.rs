//! The terminal: raw keys through `stty`, frames drawn over one another, and everything as it was afterwards.

use crate::board::{Board, Flow};
use crate::keys::{decode, decode_last, Key};
use crate::kind::Kind;
use crate::screen::{frame, COLUMNS, MIN_ROWS};
use std::io::{self, IsTerminal, Read, Write};
use std::process::{Command, Stdio};
use std::sync::atomic::{AtomicBool, Ordering};
use std::sync::mpsc::{self, Receiver, RecvTimeoutError};
use std::sync::Arc;
use std::time::Duration;
use std::{fmt, panic, thread};

/// How long the rest of an escape sequence may take; after that it was the key Escape.
const REST: Duration = Duration::from_millis(60);

/// Why a lesson in the terminal didn't start, or ended before its time.
#[derive(Debug)]
pub enum Trouble {
    /// Standard input or output is no terminal.
    NoTerminal,
    /// The terminal has too few rows or columns.
    TooSmall(Size),
    /// `stty` failed.
    Stty(String),
    /// The input ended.
    Ended,
    /// Nothing can be written to the terminal.
    Output(io::Error),
}

impl fmt::Display for Trouble {
    fn fmt(&self, to: &mut fmt::Formatter<'_>) -> fmt::Result {
        match self {
            Trouble::NoTerminal => to.write_str("this is no terminal: run the board in one, or with --keys FILE"),
            Trouble::TooSmall(size) => size.fmt(to),
            Trouble::Stty(reason) => write!(to, "stty can't set the terminal: {reason}"),
            Trouble::Ended => to.write_str("the input has ended"),
            Trouble::Output(reason) => write!(to, "nothing can be written to the terminal: {reason}"),
        }
    }
}

/// Rows and columns.
#[derive(Clone, Copy, Debug, PartialEq, Eq)]
pub struct Size {
    rows: usize,
    columns: usize,
}

impl Size {
    fn is_enough(self) -> bool {
        self.rows >= MIN_ROWS && self.columns >= COLUMNS
    }

    /// From what `stty size` prints; a terminal that doesn't know its size says 0, and is taken to be large enough.
    fn parsed(printed: &str) -> Option<Size> {
        let mut numbers = printed.split_whitespace().map(str::parse);
        let (rows, columns) = (numbers.next()?.ok()?, numbers.next()?.ok()?);
        Some(match rows == 0 || columns == 0 {
            true => Size {
                rows: MIN_ROWS,
                columns: COLUMNS,
            },
            false => Size { rows, columns },
        })
    }
}

/// Says that it is too small.
impl fmt::Display for Size {
    fn fmt(&self, to: &mut fmt::Formatter<'_>) -> fmt::Result {
        let Size { rows, columns } = self;
        write!(
            to,
            "the terminal has {columns} columns and {rows} rows; the board needs {COLUMNS} and {MIN_ROWS}"
        )
    }
}

/// Calls `stty` on this process's terminal.
fn stty(arguments: &[&str]) -> Result<String, Trouble> {
    let output = Command::new("stty")
        .args(arguments)
        .stdin(Stdio::inherit())
        .output()
        .map_err(|reason| Trouble::Stty(reason.to_string()))?;
    match output.status.success() {
        true => Ok(String::from_utf8_lossy(&output.stdout).trim().to_owned()),
        false => Err(Trouble::Stty(String::from_utf8_lossy(&output.stderr).trim().to_owned())),
    }
}

fn size() -> Result<Size, Trouble> {
    let printed = stty(&["size"])?;
    Size::parsed(&printed).ok_or(Trouble::Stty(printed))
}

/// The terminal's settings from before, which are put back once.
struct Settings {
    saved: String,
    restored: AtomicBool,
}

impl Settings {
    /// Shows the cursor and the screen from before, and leaves raw mode. Nothing can be done where that fails.
    fn restore(&self) {
        if !self.restored.swap(true, Ordering::SeqCst) {
            let _ = write_all("\x1b[0m\x1b[?25h\x1b[?1049l");
            let _ = stty(&[&self.saved]);
        }
    }
}

fn write_all(text: &str) -> io::Result<()> {
    let mut output = io::stdout().lock();
    output.write_all(text.as_bytes())?;
    output.flush()
}

/// A terminal in raw mode; dropped, or at a panic, it is as it was before.
pub struct Terminal {
    settings: Arc<Settings>,
    input: Receiver<Vec<u8>>,
    pending: Vec<u8>,
}

impl Terminal {
    /// Switches to raw mode and to a screen of its own.
    ///
    /// # Errors
    ///
    /// Where there is no terminal, it is too small, or it can't be set; it is as it was then.
    pub fn open() -> Result<Terminal, Trouble> {
        if !(io::stdin().is_terminal() && io::stdout().is_terminal()) {
            return Err(Trouble::NoTerminal);
        }
        let size = size()?;
        if !size.is_enough() {
            return Err(Trouble::TooSmall(size));
        }
        let settings = Arc::new(Settings {
            saved: stty(&["-g"])?,
            restored: AtomicBool::new(false),
        });
        restore_at_panic(Arc::clone(&settings));
        let terminal = Terminal {
            settings,
            input: input(),
            pending: Vec::new(),
        };
        stty(&["raw", "-echo"])?;
        write_all("\x1b[?1049h\x1b[?25l").map_err(Trouble::Output)?;
        Ok(terminal)
    }

    /// Draws the board, or one line if the terminal has become too small; whether the board can be seen.
    fn draw<C: Kind>(&self, board: &Board<C>) -> Result<bool, Trouble> {
        let size = size()?;
        let seen = size.is_enough();
        let text = match seen {
            true => drawn(&frame(board, size.rows)),
            false => drawn(&format!("{size}; make it larger and press a key")),
        };
        write_all(&text).map_err(Trouble::Output)?;
        Ok(seen)
    }

    /// Waits for a key.
    fn key(&mut self) -> Result<Key, Trouble> {
        loop {
            if let Some((key, taken)) = decode(&self.pending) {
                self.pending.drain(..taken);
                return Ok(key);
            }
            if self.pending.is_empty() {
                let bytes = self.input.recv().map_err(|_| Trouble::Ended)?;
                self.pending.extend(bytes);
                continue;
            }
            match self.input.recv_timeout(REST) {
                Ok(bytes) => self.pending.extend(bytes),
                Err(RecvTimeoutError::Timeout) => return Ok(decode_last(&std::mem::take(&mut self.pending))),
                Err(RecvTimeoutError::Disconnected) => return Err(Trouble::Ended),
            }
        }
    }
}

impl Drop for Terminal {
    fn drop(&mut self) {
        self.settings.restore();
    }
}

/// The terminal is restored before the panic is told, so that it can be read.
fn restore_at_panic(settings: Arc<Settings>) {
    let tell = panic::take_hook();
    panic::set_hook(Box::new(move |info| {
        settings.restore();
        tell(info);
    }));
}

/// Standard input, read by a thread of its own: so an Escape can be told from a sequence by the time that passes.
fn input() -> Receiver<Vec<u8>> {
    let (sender, receiver) = mpsc::channel();
    thread::spawn(move || {
        let mut bytes = [0; 64];
        while let Ok(count @ 1..) = io::stdin().read(&mut bytes) {
            if sender.send(bytes[..count].to_vec()).is_err() {
                return;
            }
        }
    });
    receiver
}

/// The frame's lines from the upper left corner on, what was there before cleared.
fn drawn(frame: &str) -> String {
    let lines: Vec<String> = frame.lines().map(lit).collect();
    format!("\x1b[H{}\x1b[K\x1b[J", lines.join("\x1b[K\r\n"))
}

/// The marked lane and the rule with its title stand out.
fn lit(line: &str) -> String {
    match line.starts_with(['>', '-']) {
        true => format!("\x1b[1m{line}\x1b[0m"),
        false => line.to_owned(),
    }
}

/// The lesson in the terminal, until a key quits it.
///
/// # Errors
///
/// Where there is no terminal to play it in, or its input or output ends.
pub fn play<C: Kind>(board: &mut Board<C>) -> Result<(), Trouble> {
    let mut terminal = Terminal::open()?;
    loop {
        let seen = terminal.draw(board)?;
        let key = terminal.key()?;
        // no step is taken on a board that nobody sees
        if (seen || key.quits()) && board.press(key) == Flow::Quit {
            return Ok(());
        }
    }
}

#[cfg(test)]
mod tests {
    use super::*;

    #[test]
    fn sizes() {
        let large = Size { rows: 24, columns: 80 };
        assert_eq!(Size::parsed("24 80"), Some(large));
        assert_eq!(Size::parsed("0 0"), Some(large));
        assert_eq!(Size::parsed(""), None);
        assert!(large.is_enough());
        for printed in ["23 80", "24 79"] {
            assert!(!Size::parsed(printed).is_some_and(Size::is_enough));
        }
    }
}
