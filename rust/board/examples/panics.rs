//! A panic while the terminal is raw; a test looks at the terminal afterwards.

use yolluvek_board::terminal::Terminal;

fn main() {
    let _terminal = Terminal::open();
    panic!("a panic in raw mode");
}
