//! Help and version come at once: `./ks` prints what the program itself would, whatever has been built.
mod common;

use common::{ks, printed, read, ROOT};
use desk::command::COMMANDS;
use std::process::{Command, Output};

/// `./ks` where nothing can be built: no rt, no cargo.
fn front(arguments: &[&str]) -> Output {
    Command::new(format!("{ROOT}/ks")).args(arguments).env("PATH", "/usr/bin:/bin").output().expect("./ks")
}

/// What it prints.
fn without_a_program(arguments: &[&str]) -> String {
    let ended = front(arguments);
    assert!(ended.status.success() && ended.stderr.is_empty(), "{arguments:?}");
    String::from_utf8(ended.stdout).expect("text")
}

/// Nothing is proved for a command that there is not.
#[test]
fn no_such_command() {
    for arguments in [&[][..], &["wat"], &["help", "wat"], &["version"], &["../help/run"]] {
        assert_eq!(front(arguments), ks(arguments, &[]), "{arguments:?}");
        assert_eq!(front(arguments).status.code(), Some(2), "{arguments:?}");
    }
}

#[test]
fn the_same_without_a_program() {
    for arguments in [&["--help"][..], &["-h"], &["--version"], &["help"], &["help", "sweep"]] {
        assert_eq!(without_a_program(arguments), printed(arguments, &[]), "{arguments:?}");
    }
    for command in COMMANDS {
        for arguments in [&[command.name, "--help"][..], &[command.name, "file", "-h", "--"]] {
            assert_eq!(without_a_program(arguments), printed(arguments, &[]), "{arguments:?}");
        }
    }
}

#[test]
fn lists_every_command() {
    let listed: Vec<String> = COMMANDS.iter().map(|command| format!("  {:<9}{}", command.name, command.line)).collect();
    let help = printed(&["--help"], &[]);
    let lines: Vec<&str> = help.lines().skip_while(|line| !line.starts_with("  ")).take_while(|line| !line.is_empty()).collect();
    assert_eq!(lines, listed);
}

/// Each has a usage and an example, and fits a terminal.
#[test]
fn each_says_how() {
    for command in COMMANDS {
        let help = command.help;
        assert!(help.starts_with(&format!("usage: ks {} ", command.name)), "{}", command.name);
        assert!(help.contains(&format!("\nexample: ks {} ", command.name)), "{}", command.name);
        assert!(help.lines().all(|line| line.chars().count() <= 82), "{}", command.name);
    }
}

#[test]
fn version_of_the_package() {
    let wanted = format!("ks {}, over the calls of ABI {}\n", env!("CARGO_PKG_VERSION"), kunzeastylus::ABI);
    assert_eq!(read("desk/help/version.txt"), wanted);
}

/// While something is proved, each crate is said with how many are left; those that stand already are only counted.
#[test]
fn how_many_are_left() {
    let proved =
        |name: &str| format!("fn {name}::a: proved\ncrate {name}: modules loaded=1 checked=2\nlogic=proved functions=1\n");
    let lines = proved("words") + "library words: modules loaded=3 checked=0\n" + &proved("backup");
    let script = format!("root=. name=ks; source tools/build.sh; printf '{lines}' | countdown backup");
    let ended = Command::new("bash").args(["-c", &script]).current_dir(ROOT).output().expect("bash");
    let said = String::from_utf8(ended.stdout).expect("text");
    assert_eq!(said, "ks: words proved; 3 crates are left\nks: backup proved; all are proved\n");
}
