//! `ks`: one program for people, over the proved calls. `ks --help` lists its commands.
#![forbid(unsafe_code)]

fn main() -> std::process::ExitCode {
    desk::ks::main()
}
