//! Whether a test met everything that it is there to meet.

/// Ends the program where something was not met and `--all-met` asks for it, as ../test does. A shorter run of one's own is told so, and passes:
/// what it did meet was compared.
pub fn all_met(program: &str, met: bool) {
    match (met, std::env::args().any(|argument| argument == "--all-met")) {
        (true, _) => (),
        (false, true) => {
            println!("{program}: FAILED, not everything was met");
            std::process::exit(1);
        }
        (false, false) => println!("{program}: not everything was met, which a longer run would"),
    }
}
