//! `ks step` in a real terminal, by tmux where it is there: what is on the screen, as it is stored, and that the terminal is left as it was,
//! by Ctrl-C, by the end of the input and by `quit`.
mod common;

use common::{read, ROOT};
use std::path::PathBuf;
use std::process::{Command, Output};
use std::thread::sleep;
use std::time::{Duration, Instant};

/// How long something may take until it is on the screen.
const PATIENCE: Duration = Duration::from_secs(60);

/// A terminal of its own, which ends with the test.
struct Terminal {
    socket: PathBuf,
}

impl Terminal {
    /// One of so many columns and rows in which `ks step FILE` is run; none where there is no tmux. The settings of the terminal before and
    /// after it are compared, and that is said behind its end.
    fn with(name: &str, (columns, rows): (usize, usize), colour: bool, file: &str) -> Option<Terminal> {
        let terminal = Terminal { socket: std::env::temp_dir().join(format!("ks-{name}-{}", std::process::id())) };
        let (program, plain) = (env!("CARGO_BIN_EXE_ks"), if colour { "" } else { "1" });
        let script = format!(
            "trap : INT; unset LINES COLUMNS; before=$(stty -a); NO_COLOR={plain} {program} step {file}; code=$?; \\
             [ \"$before\" = \"$(stty -a)\" ] && echo ended with $code, as it was; exec cat"
        );
        let (columns, rows) = (columns.to_string(), rows.to_string());
        let size = ["-x", &columns, "-y", &rows];
        let ended = terminal.tmux(&[&["-f", "/dev/null", "new-session", "-d"], &size[..], &[&script]].concat())?;
        assert!(ended.status.success(), "{}", String::from_utf8_lossy(&ended.stderr));
        Some(terminal)
    }

    fn tmux(&self, arguments: &[&str]) -> Option<Output> {
        let ended = Command::new("tmux").arg("-S").arg(&self.socket).args(arguments).current_dir(ROOT).output();
        ended.inspect_err(|error| eprintln!("there is no tmux, so nothing is tried: {error}")).ok()
    }

    fn keys(&self, keys: &[&str]) {
        self.tmux(&[&["send-keys"], keys].concat());
    }

    fn screen(&self, options: &[&str]) -> String {
        let shown = self.tmux(&[&["capture-pane", "-p"], options].concat()).expect("tmux");
        String::from_utf8(shown.stdout).expect("text")
    }

    /// The screen, as soon as it is one of these.
    fn until(&self, what: &str, is: impl Fn(&str) -> bool) -> String {
        let begun = Instant::now();
        loop {
            let screen = self.screen(&[]);
            if is(&screen) {
                return screen;
            }
            assert!(begun.elapsed() < PATIENCE, "no {what:?} in\n{screen}");
            sleep(Duration::from_millis(20));
        }
    }

    /// The screen, as soon as this is on it and another line is asked for.
    fn asks(&self, wanted: &str) -> String {
        self.until(wanted, |screen| screen.contains(wanted) && screen.trim_end().ends_with("\n>"))
    }
}

impl Drop for Terminal {
    fn drop(&mut self) {
        self.tmux(&["kill-server"]);
        // tmux leaves its socket behind; where there is no tmux there is none.
        let _ = std::fs::remove_file(&self.socket);
    }
}

/// Each screen of a session stands alone, and is as it is stored.
#[test]
fn screens() {
    let Some(terminal) = Terminal::with("screens", (100, 32), false, "samples/release.cabinet") else { return };
    let mut shown = terminal.asks("next is record 1:");
    for (line, wanted) in
        [("run crash", "next is record 26:"), ("b", "took back record 25"), ("", "took back record 24"), ("step printer", "t1 ")]
    {
        terminal.keys(&[line, "Enter"]);
        shown += &terminal.asks(wanted);
    }
    assert!(!terminal.screen(&["-e"]).contains('\x1b'), "colour, and NO_COLOR is set");
    assert_eq!(shown, read("desk/tests/sessions/release.screens"), "shown:\n{shown}");
}

/// Less is shown where there is less room, and never more than a screen.
#[test]
fn small() {
    for (columns, rows) in [(60, 16), (40, 12), (130, 10)] {
        let name = format!("small-{rows}");
        let Some(terminal) = Terminal::with(&name, (columns, rows), true, "samples/release.cabinet") else { return };
        terminal.asks("next is record 1:");
        terminal.keys(&["run crash", "Enter"]);
        let screen = terminal.asks("next is record 26:");
        assert!(screen.starts_with("on by 25 records\n   25  crash 0"), "{screen}");
    }
}

#[test]
fn as_it_was() {
    for (name, keys, code) in [("ctrl-c", &["C-c"][..], 130), ("ctrl-d", &["C-d"], 0), ("quit", &["q", "Enter"], 0)] {
        let Some(terminal) = Terminal::with(name, (90, 30), true, "samples/small.cabinet") else { return };
        terminal.asks("next is record 1:");
        terminal.keys(&["run crash", "Enter"]);
        terminal.asks("next is record 7:");
        assert!(terminal.screen(&["-e"]).contains("\x1b["), "{name}: no colour");
        terminal.keys(keys);
        let ended = format!("ended with {code}, as it was");
        terminal.until(&ended, |screen| screen.contains(&ended));
    }
}
