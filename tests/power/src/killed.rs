//! For real: a process that saves on and on is killed (SIGKILL) at random moments, while a thread reads the file all
//! the time. Whoever opens the file must find a committed version, whole.
//!
//! Each version's bytes follow from its number in every place of every partition, so that a mix of two versions is
//! seen.

use std::hash::{DefaultHasher, Hasher};
use std::io::{BufRead, BufReader, Write};
use std::path::{Path, PathBuf};
use std::process::{Child, Command, Stdio};
use std::sync::atomic::{AtomicBool, AtomicU64, Ordering};
use std::time::{Duration, Instant};

use outside::generate::random::Random;
use outside::generate::shape::Wanted;
use outside::generate::valid_image;
use outside::rules::calls::read_committed;
use outside::rules::faults::faults;
use outside::rules::opening::open;
use outside::trial::properties::require;
use teplovist::{Error, ImageFile, Partition};

/// What was seen.
#[derive(Debug, Default)]
pub struct Seen {
    pub kills: u64,
    /// Kills between a save's first store and the landing of its header.
    pub inside_a_save: u64,
    /// Kills after a header had landed and before that was reported.
    pub before_the_report: u64,
    /// Versions that were reported as saved.
    pub saves: u64,
    /// Looks at the file while the process was saving, and how often it was locked then.
    pub reads: u64,
    pub locked: u64,
}

/// So many rounds use the same image.
const ROUNDS_OF_AN_IMAGE: u64 = 50;
/// Level 4's sizes. A version's number needs the first eight bytes.
const SMALLEST_DATA: u64 = 64;
const LARGEST_DATA: u64 = 20_000;
/// A child lives for up to so many microseconds after it has come up: a few saves.
const LONGEST_LIFE: u64 = 15_000;
/// Whoever finds the file locked tries again after this.
const LOCK_PAUSE: Duration = Duration::from_micros(50);

/// Kills so many children in files of this folder.
pub fn run_kills(folder: &Path, rounds: u64, seed: u64) -> Result<Seen, String> {
    let mut seen = Seen::default();
    let random = &mut Random::new(seed);
    while seen.kills < rounds {
        let path = folder.join(format!("image-{}", seen.kills));
        create(&path, random).map_err(|error| format!("{}: {error}", path.display()))?;
        let rounds = ROUNDS_OF_AN_IMAGE.min(rounds - seen.kills);
        run_on_image(&path, rounds, random, &mut seen)?;
    }
    Ok(seen)
}

/// An image of any shape whose level 4s are internal. Its first version is 0.
fn create(path: &Path, random: &mut Random) -> std::io::Result<()> {
    let data = Some((random.between(SMALLEST_DATA, LARGEST_DATA), random.between(6, 12)));
    let wanted = Wanted { external: Some(false), data, all_verified: true, ..Wanted::default() };
    let image = valid_image(random, &wanted).image;
    std::fs::write(path, image)?;
    save(path, 0, random).map_err(|error| std::io::Error::other(error.to_string()))?;
    Ok(())
}

/// The rounds on one image, with a reader beside them.
fn run_on_image(path: &Path, rounds: u64, random: &mut Random, seen: &mut Seen) -> Result<(), String> {
    let done = AtomicBool::new(false);
    let (reads, locked) = (AtomicU64::new(0), AtomicU64::new(0));
    let outcome = std::thread::scope(|scope| {
        let reader = scope.spawn(|| keep_reading(path, &done, &reads, &locked));
        let killed = kill_rounds(path, rounds, random, seen);
        done.store(true, Ordering::Relaxed);
        let read = reader.join().expect("the reader does not panic");
        killed.and(read.map_err(|complaint| format!("the reader: {complaint}")))
    });
    seen.reads += reads.into_inner();
    seen.locked += locked.into_inner();
    outcome
}

/// Reads until all is done. The version never goes back.
fn keep_reading(path: &Path, done: &AtomicBool, reads: &AtomicU64, locked: &AtomicU64) -> Result<(), String> {
    let mut newest = 0;
    while !done.load(Ordering::Relaxed) {
        match ImageFile::open(path) {
            Ok(file) => {
                let version = version_of(image_bytes(&file)?)?;
                require(version >= newest, || format!("version {version} after {newest}"))?;
                newest = version;
                reads.fetch_add(1, Ordering::Relaxed);
            }
            Err(Error::Locked { .. }) => {
                locked.fetch_add(1, Ordering::Relaxed);
            }
            Err(error) => return Err(error.to_string()),
        }
        std::thread::sleep(LOCK_PAUSE);
    }
    Ok(())
}

/// Starts a child, kills it, looks; again and again.
fn kill_rounds(path: &Path, rounds: u64, random: &mut Random, seen: &mut Seen) -> Result<(), String> {
    let mut reported = look(path)?;
    for round in 0..rounds {
        let last = kill_child(path, random).map_err(|complaint| format!("round {round}: {complaint}"))?;
        seen.kills += 1;
        seen.saves += last.map_or(0, |last| last.version - reported.version);
        reported = last.unwrap_or(reported);
        let found = look(path).map_err(|complaint| format!("round {round}: {complaint}"))?;
        let one_more = found.version == reported.version + 1;
        require(one_more || found.version == reported.version, || {
            format!("round {round}: version {} was reported, but the file has {}", reported.version, found.version)
        })?;
        seen.before_the_report += u64::from(one_more);
        seen.inside_a_save += u64::from(!one_more && found.fingerprint != reported.fingerprint);
        reported = found;
    }
    Ok(())
}

/// A version in a file, and a fingerprint of all the file's bytes, free ones too.
#[derive(Clone, Copy)]
struct Version {
    version: u64,
    fingerprint: u64,
}

/// Opens the file as any reader does.
fn look(path: &Path) -> Result<Version, String> {
    let file = unless_locked(|| ImageFile::open(path)).map_err(|error| error.to_string())?;
    let bytes = image_bytes(&file)?;
    Ok(Version { version: version_of(bytes)?, fingerprint: fingerprint(bytes) })
}

fn image_bytes(file: &ImageFile) -> Result<&[u8], String> {
    // The image borrows from the file, its bytes too.
    file.image().map(|image| image.into_inner()).map_err(|error| error.to_string())
}

fn fingerprint(bytes: &[u8]) -> u64 {
    let mut hasher = DefaultHasher::new();
    hasher.write(bytes);
    hasher.finish()
}

/// Tries again while somebody else has the file.
fn unless_locked<T>(open: impl Fn() -> Result<T, Error>) -> Result<T, Error> {
    loop {
        match open() {
            Err(Error::Locked { .. }) => std::thread::sleep(LOCK_PAUSE),
            other => return other,
        }
    }
}

/// The number of the version that an image holds: every byte of every partition is that version's, and every block is
/// verified. The independent implementation is asked.
fn version_of(image: &[u8]) -> Result<u64, String> {
    let refused = |refusal| format!("a reader is refused: {refusal:?}");
    let opened = open(image).map_err(refused)?;
    require(faults(image) == Ok(Vec::new()), || "a block is not verified".into())?;
    let mut versions = Vec::new();
    for (number, partition) in (0..).zip(&opened.partitions) {
        let mut bytes = vec![0; partition.descriptor.hash_level(4).extent.size as usize];
        read_committed(image, number, 0, &mut bytes).map_err(refused)?;
        let version = u64::from_le_bytes(bytes[..8].try_into().expect("eight bytes"));
        require(bytes == contents(version, number, bytes.len()), || format!("a mix of versions, {version} in front"))?;
        versions.push(version);
    }
    let first = versions[0];
    require(versions.iter().all(|version| *version == first), || format!("a mix of versions: {versions:?}"))?;
    Ok(first)
}

/// A version's bytes in a partition: its number, then noise that no other version has.
fn contents(version: u64, partition: u64, length: usize) -> Vec<u8> {
    let mut bytes = version.to_le_bytes().to_vec();
    bytes.extend(Random::new(2 * version + partition).bytes(length - bytes.len()));
    bytes
}

/// Starts a child on the file, kills it after a while, and gives the last version that it reported.
fn kill_child(path: &Path, random: &mut Random) -> Result<Option<Version>, String> {
    let failed = |error: std::io::Error| error.to_string();
    let program = std::env::current_exe().map_err(failed)?;
    let seed = random.number();
    let mut command = Command::new(program);
    command.arg("saver").arg(path).arg(seed.to_string()).stdout(Stdio::piped());
    let mut child = command.spawn().map_err(failed)?;
    let mut lines = BufReader::new(child.stdout.take().expect("it is piped")).lines();
    let up = lines.next();
    std::thread::sleep(Duration::from_micros(random.below(LONGEST_LIFE)));
    let killed = kill(&mut child).map_err(failed);
    require(matches!(up, Some(Ok(_))), || "the child did not come up".into())?;
    killed?;
    let last = lines.map_while(Result::ok).last();
    last.map(|line| parse_report(&line)).transpose()
}

/// A child that has ended by itself could not save.
fn kill(child: &mut Child) -> std::io::Result<()> {
    let ended = child.try_wait()?;
    child.kill()?;
    child.wait()?;
    match ended {
        Some(status) => Err(std::io::Error::other(format!("the child ended by itself, with {status}"))),
        None => Ok(()),
    }
}

fn parse_report(line: &str) -> Result<Version, String> {
    let numbers: Vec<u64> = line.split(' ').filter_map(|number| number.parse().ok()).collect();
    match numbers[..] {
        [version, fingerprint] => Ok(Version { version, fingerprint }),
        _ => Err(format!("the child said {line:?}")),
    }
}

/// What the child does: saves one version after the other, and reports each when it is saved.
pub fn keep_saving(path: PathBuf, seed: u64) -> Result<(), String> {
    let random = &mut Random::new(seed);
    let newest = look(&path)?.version;
    let mut out = std::io::stdout().lock();
    let mut say = |line: String| writeln!(out, "{line}").and_then(|()| out.flush()).map_err(|error| error.to_string());
    say("up".into())?;
    for version in newest + 1.. {
        let fingerprint = save(&path, version, random).map_err(|error| error.to_string())?;
        say(format!("{version} {fingerprint}"))?;
    }
    Ok(())
}

/// Saves a version in one session, in a few writes, and gives the fingerprint of what was saved.
fn save(path: &Path, version: u64, random: &mut Random) -> Result<u64, Error> {
    let mut file = unless_locked(|| ImageFile::open_to_write(path))?;
    let description = file.image()?.open()?;
    file.begin()?;
    for partition in Partition::ALL {
        let Some(layout) = description.partition(partition) else { continue };
        let [_, _, _, level4] = layout.levels;
        let bytes = contents(version, partition.number(), level4.size as usize);
        let cut = random.below(level4.size) as usize;
        file.write(partition, 0, &bytes[..cut])?;
        file.write(partition, cut as u64, &bytes[cut..])?;
    }
    file.commit()?;
    Ok(fingerprint(file.image()?.bytes()))
}

/// A folder of this process that is gone when this value is.
pub struct Folder(pub PathBuf);

impl Folder {
    pub fn new() -> std::io::Result<Folder> {
        let path = std::env::temp_dir().join(format!("teplovist-power-{}", std::process::id()));
        std::fs::create_dir_all(&path)?;
        Ok(Folder(path))
    }
}

impl Drop for Folder {
    fn drop(&mut self) {
        // What cannot be removed is left to whoever cleans the folder for temporary files.
        let _ = std::fs::remove_dir_all(&self.0);
    }
}

impl std::fmt::Display for Seen {
    fn fmt(&self, out: &mut std::fmt::Formatter) -> std::fmt::Result {
        writeln!(out, "  {:>9} kills inside a save, before its header landed", self.inside_a_save)?;
        writeln!(out, "  {:>9} kills after a header landed, before the report", self.before_the_report)?;
        writeln!(out, "  {:>9} saves reported", self.saves)?;
        writeln!(out, "  {:>9} reads beside the saves", self.reads)?;
        writeln!(out, "  {:>9} times a reader found the file locked", self.locked)
    }
}

/// Kills children for the command, and prints what was seen.
pub fn report_kills(rounds: u64, seed: u64) -> Result<Seen, String> {
    let started = Instant::now();
    let folder = Folder::new().map_err(|error| error.to_string())?;
    let seen = run_kills(&folder.0, rounds, seed)?;
    println!("{} processes killed in {:.1} s, from seed {seed}", seen.kills, started.elapsed().as_secs_f64());
    print!("{seen}");
    Ok(seen)
}

#[cfg(test)]
mod tests {
    use super::*;
    use outside::rules::calls::{begin, commit, write};
    use outside::rules::session::Session;

    /// An image with two partitions of which each holds some version.
    fn image_with(versions: [u64; 2], split: usize) -> Vec<u8> {
        let data = Some((500, 6));
        let wanted = Wanted { count: Some(2), external: Some(false), data, all_verified: true, ..Wanted::default() };
        let wanted = Wanted { kind: Some(outside::rules::header::Kind::Disa), ..wanted };
        let mut image = valid_image(&mut Random::new(1), &wanted).image;
        let mut session = Session::FRESH;
        begin(&mut image, &mut session).expect("the image opens");
        for partition in [0, 1] {
            let [first, second] = versions.map(|version| contents(version, partition, 500));
            let bytes = [&first[..split], &second[split..]].concat();
            write(&mut image, &mut session, partition, 0, &bytes).expect("it is in range");
        }
        commit(&mut image, &mut session).expect("the session is begun");
        image
    }

    #[test]
    fn a_version_is_read() {
        assert_eq!(version_of(&image_with([7, 7], 0)), Ok(7));
    }

    #[test]
    fn a_mix_of_versions_is_seen() {
        for split in [8, 64, 100, 499] {
            let complaint = version_of(&image_with([7, 8], split)).expect_err("it is a mix");
            assert!(complaint.contains("a mix of versions"), "{complaint}");
        }
    }

    #[test]
    fn a_block_that_is_not_verified_is_seen() {
        let mut image = image_with([7, 7], 0);
        let opened = open(&image).expect("it opens");
        let area = opened.partitions[0].place.area;
        image[area.offset as usize..area.end() as usize].reverse();
        assert!(version_of(&image).is_err());
    }
}
