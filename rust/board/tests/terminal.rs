//! The board in a real terminal, one that `script` opens: the stories, and that the terminal is left as it was found.

mod common;

use common::{folder, frames, BOARD, STORIES};
use std::fs;
use std::io::{Read, Write};
use std::path::Path;
use std::process::{Child, ChildStdin, Command, Stdio};
use std::sync::{Arc, Mutex};
use std::thread;
use std::time::{Duration, Instant};

/// Where each drawn frame begins and ends.
const FROM: &str = "\x1b[H";
const END: &str = "\x1b[J";
const PATIENCE: Duration = Duration::from_secs(20);

/// A shell command in a terminal of its own, between two prints of the terminal's settings.
struct Session {
    child: Child,
    keyboard: ChildStdin,
    seen: Arc<Mutex<Vec<u8>>>,
    drawn: usize,
}

impl Session {
    fn open(size: &str, command: &str) -> Session {
        let shell = format!("stty {size}; echo \"[$(stty -g)]\"; {command}; echo \"[$?][$(stty -g)][end]\"");
        let mut child = Command::new("script")
            .args(["-q", "-c", &shell, "/dev/null"])
            .current_dir(folder())
            .stdin(Stdio::piped())
            .stdout(Stdio::piped())
            .stderr(Stdio::null())
            .spawn()
            .expect("`script`, of util-linux, opens a terminal");
        let keyboard = child.stdin.take().expect("piped");
        let mut output = child.stdout.take().expect("piped");
        let seen = Arc::new(Mutex::new(Vec::new()));
        let read = Arc::clone(&seen);
        thread::spawn(move || {
            let mut bytes = [0; 4_096];
            while let Ok(count @ 1..) = output.read(&mut bytes) {
                read.lock().expect("no reader panics").extend(&bytes[..count]);
            }
        });
        Session {
            child,
            keyboard,
            seen,
            drawn: 0,
        }
    }

    fn board(size: &str, arguments: &[String]) -> Session {
        Session::open(size, &format!("{BOARD} {}", arguments.join(" ")))
    }

    fn seen(&self) -> String {
        String::from_utf8_lossy(&self.seen.lock().expect("no reader panics")).into_owned()
    }

    fn wait(&self, until: impl Fn(&str) -> bool) -> String {
        let begun = Instant::now();
        loop {
            let seen = self.seen();
            if until(&seen) {
                return seen;
            }
            assert!(begun.elapsed() < PATIENCE, "the terminal shows: {seen:?}");
            thread::sleep(Duration::from_millis(5));
        }
    }

    /// The screen after the next frame, as text.
    fn screen(&mut self) -> String {
        self.drawn += 1;
        let seen = self.wait(|seen| seen.matches(END).count() >= self.drawn);
        let from = seen.rfind(FROM).expect("a frame") + FROM.len();
        let frame = seen[from..].split(END).next().unwrap_or_default();
        let plain = ["\x1b[K", "\x1b[0m", "\x1b[1m", "\r"];
        let text = plain.iter().fold(frame.to_owned(), |text, mark| text.replace(mark, ""));
        assert!(!text.contains('\x1b'), "{text:?}");
        text + "\n"
    }

    fn press(&mut self, bytes: &[u8]) {
        self.keyboard.write_all(bytes).expect("the terminal takes keys");
        self.keyboard.flush().expect("the terminal takes keys");
    }

    /// The status of the command, once it has ended with the terminal as it was; and all that was seen.
    fn ended(mut self) -> (String, String) {
        let seen = self.wait(|seen| seen.contains("[end]"));
        self.child.wait().expect("it has ended");
        let told: Vec<&str> = seen.split(['[', ']']).collect();
        let [.., status, _, after, _, "end", _] = told.as_slice() else {
            panic!("{seen:?}");
        };
        assert_eq!(told[1], *after, "the terminal's settings have changed");
        // a screen of its own is left, and the cursor shown
        for (on, off) in [("\x1b[?1049h", "\x1b[?1049l"), ("\x1b[?25l", "\x1b[?25h")] {
            assert_eq!(seen.matches(on).count(), seen.matches(off).count(), "{seen:?}");
            assert!(seen.rfind(on) <= seen.rfind(off), "{seen:?}");
        }
        (status.to_string(), seen)
    }
}

/// A test that fails leaves nothing running.
impl Drop for Session {
    fn drop(&mut self) {
        let _ = self.child.kill();
        let _ = self.child.wait();
    }
}

/// What a terminal sends for each key of a word in a file of keys.
fn sent(word: &str) -> Vec<Vec<u8>> {
    let bytes: &[u8] = match word {
        "F2" => b"\x1bOQ",
        "F3" => b"\x1bOR",
        "F4" => b"\x1bOS",
        "F5" => b"\x1b[15~",
        "Enter" => b"\r",
        "Escape" => b"\x1b",
        _ => return word.bytes().map(|byte| vec![byte]).collect(),
    };
    vec![bytes.to_vec()]
}

/// Each story, key by key: the terminal shows the frames of the stored transcript.
#[test]
fn stories() {
    for story in STORIES {
        let mut session = Session::board("rows 50 cols 80", &story.arguments());
        let stored = story.stored();
        for (keys, frame) in frames(&stored) {
            let mut screen = match keys {
                "begin" => session.screen(),
                _ => String::new(),
            };
            for bytes in keys.split_whitespace().filter(|word| *word != "begin").flat_map(sent) {
                session.press(&bytes);
                if keys != "q" {
                    screen = session.screen();
                }
            }
            if keys != "q" {
                assert_eq!(screen, frame, "{story:?}, {keys}");
            }
        }
        assert_eq!(session.ended().0, "0", "{story:?}");
    }
}

/// On a screen with few rows the frame fits, and the story is the same.
#[test]
fn a_small_screen() {
    let mut session = Session::board("rows 24 cols 80", &STORIES[1].arguments());
    let before = session.screen();
    let mut screens = Vec::new();
    for key in ["F4", "1", "2", "Enter", "Escape"] {
        for bytes in sent(key) {
            session.press(&bytes);
        }
        screens.push(session.screen());
    }
    assert!(screens.iter().all(|screen| screen.lines().count() == 24));
    assert!(screens[3].contains(STORIES[1].refused), "{}", screens[3]);
    assert_eq!(screens[4], before);
    session.press(b"\x1b[21~");
    assert_eq!(session.ended().0, "0");
}

#[test]
fn left_by_an_interrupt() {
    let mut session = Session::board("rows 24 cols 80", &STORIES[0].arguments());
    session.screen();
    session.press(b"\x1bOS");
    session.screen();
    session.press(b"\x03");
    assert_eq!(session.ended().0, "0");
}

/// Ctrl-D, which `script` sends at the end of its own input.
#[test]
fn left_by_the_end_of_input() {
    let mut session = Session::board("rows 24 cols 80", &STORIES[0].arguments());
    session.screen();
    session.press(b"\x04");
    assert_eq!(session.ended().0, "0");
}

#[test]
fn left_by_a_panic() {
    let panics = Path::new(BOARD).with_file_name("examples").join("panics");
    let session = Session::open("rows 24 cols 80", &panics.to_string_lossy());
    let (status, seen) = session.ended();
    assert_eq!(status, "101");
    // told after the terminal was restored, where it can be read
    assert!(seen.find("\x1b[?1049l") < seen.find("a panic in raw mode"), "{seen:?}");
}

#[test]
fn too_small() {
    for (size, line) in [
        (
            "rows 23 cols 80",
            "the terminal has 80 columns and 23 rows; the board needs 80 and 24\r\n",
        ),
        (
            "rows 24 cols 79",
            "the terminal has 79 columns and 24 rows; the board needs 80 and 24\r\n",
        ),
    ] {
        let (status, seen) = Session::board(size, &STORIES[0].arguments()).ended();
        assert_eq!(status, "1");
        assert!(seen.contains(line), "{seen:?}");
        assert!(!seen.contains(FROM), "{seen:?}");
    }
}

/// The terminal goes away, and nothing but the end of the input tells the board.
#[test]
fn the_input_ends() {
    let told = Path::new(env!("CARGO_TARGET_TMPDIR")).join("ended");
    let _ = fs::remove_file(&told);
    let file = told.to_string_lossy();
    let arguments = STORIES[0].arguments().join(" ");
    let command = format!("trap '' HUP; line=$({BOARD} {arguments} 2>&1 >/dev/tty); echo \"$? $line.\" >{file}");
    let mut session = Session::open("rows 24 cols 80", &command);
    session.screen();
    session.child.kill().expect("it runs");
    session.child.wait().expect("it has ended");
    let begun = Instant::now();
    while !fs::read_to_string(&told).is_ok_and(|line| line.ends_with('\n')) {
        assert!(begun.elapsed() < PATIENCE, "the board goes on without a terminal");
        thread::sleep(Duration::from_millis(5));
    }
    assert_eq!(
        fs::read_to_string(&told).expect("it is there"),
        "1 the input has ended.\n"
    );
}
