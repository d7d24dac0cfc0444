use std::io::Write;
use std::process::ExitCode;

fn main() -> ExitCode {
    let arguments: Vec<String> = std::env::args().skip(1).collect();
    // A reader that has seen enough closes the pipe: that is no error.
    let tell = |told: &str| drop(std::io::stdout().write_all(told.as_bytes()));
    match gridctl::run(&arguments) {
        Ok(told) => tell(&told),
        Err(stop) => {
            tell(stop.told());
            eprintln!("gridctl: {stop}");
            return ExitCode::from(stop.status());
        }
    }
    ExitCode::SUCCESS
}
