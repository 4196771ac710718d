//! The authentication codes that OpenSSL computes are the same. Where its command is not at hand there is nothing to compare, and
//! tests/outside.sh says so: what a test prints is not seen when it passes.

use std::io::Write;
use std::process::{Command, Stdio};

use outside::generate::random::Random;
use outside::rules::aes::Key;
use outside::rules::cmac::cmac;

/// What `openssl mac` prints for a message, or nothing if there is no such command.
fn openssl_cmac(key: &Key, message: &[u8]) -> Option<String> {
    let mut child = Command::new("openssl")
        .args(["mac", "-cipher", "AES-128-CBC", "-macopt", &format!("hexkey:{}", hex(key)), "CMAC"])
        .stdin(Stdio::piped())
        .stdout(Stdio::piped())
        .stderr(Stdio::null())
        .spawn()
        .ok()?;
    child.stdin.take().expect("it is piped").write_all(message).ok()?;
    let output = child.wait_with_output().ok()?;
    output.status.success().then(|| String::from_utf8_lossy(&output.stdout).trim().to_lowercase())
}

fn hex(bytes: &[u8]) -> String {
    bytes.iter().map(|byte| format!("{byte:02x}")).collect()
}

#[test]
fn openssl_agrees() {
    if openssl_cmac(&[0; 16], b"is it there?").is_none() {
        return;
    }
    let random = &mut Random::new(1);
    for length in [0, 1, 15, 16, 17, 31, 32, 32, 32, 32, 33, 47, 48, 100, 1000] {
        let key: Key = random.bytes(16).try_into().expect("16 bytes");
        let message = random.bytes(length);
        let expected = openssl_cmac(&key, &message).expect("it was there");
        assert_eq!(hex(&cmac(&key, &message)), expected, "{length} bytes under {}", hex(&key));
    }
}
