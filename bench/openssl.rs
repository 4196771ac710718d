//! (c): what `openssl speed` says of this machine, where openssl is there.

use std::process::Command;

/// Takes SSSE3 and AVX (bits 41 and 60 of the first vector), AVX2 and the SHA extensions (bits 5 and 29 of the second)
/// away from openssl, so that it hashes with general registers alone. See OPENSSL_ia32cap(3).
const WITHOUT_HELP: &str = "~0x1000020000000000:~0x20000020";

/// How often it is asked; the best answer counts.
const TRIES: usize = 3;

/// The nanoseconds that openssl takes for the digest of a block, with hardware help or without; none if it cannot be
/// asked.
pub fn time(block: usize, help: bool) -> Option<f64> {
    (0..TRIES).filter_map(|_| ask(block, help)).min_by(f64::total_cmp)
}

fn ask(block: usize, help: bool) -> Option<f64> {
    let mut command = Command::new("openssl");
    command.args(["speed", "-seconds", "1", "-bytes", &block.to_string(), "-evp", "sha256"]);
    if !help {
        command.env("OPENSSL_ia32cap", WITHOUT_HELP);
    }
    let output = String::from_utf8(command.output().ok()?.stdout).ok()?;
    // The last line is the name and the speed in thousands of bytes a second, as in `sha256  1290141.70k`.
    let speed = output.lines().last()?.split_whitespace().last()?.strip_suffix('k')?;
    Some(block as f64 / (speed.parse::<f64>().ok()? * 1e3) * 1e9)
}
