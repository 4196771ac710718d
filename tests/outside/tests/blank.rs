//! Blank images: digests of whole ones that another program made from the request, a session on one, and proof that the
//! comparison notices what it should.

use outside::rules::blank::{blank_length, make_blank};
use outside::rules::calls::{begin, commit, count_verified, read_committed, write};
use outside::rules::descriptor::{DPFS_LEVELS, IVFC_LEVELS};
use outside::rules::header::{Kind, HEADER};
use outside::rules::session::Session;
use outside::rules::sha256::sha256;
use outside::subject::blank::Blanks;
use outside::subject::Rules;
use outside::trial::blank::run_making;
use outside::trial::tally::Tally;

fn blank(kind: Kind, blocks: u64) -> Vec<u8> {
    let mut image = vec![0xA5; blank_length(blocks).expect("in range") as usize];
    make_blank(&mut image, kind, blocks).expect("it fits");
    image
}

/// Neither the proved library nor this implementation made these digests: they come from programs in Python, with the
/// SHA-256 of its hashlib and each with its own reading of the request. One of the programs is tests/blank_images.py at
/// the repository's root; its `sha256(blank(kind, blocks))` gives them again, where kind 0 is DISA and 1 is DIFF.
#[test]
fn digests_of_whole_images() {
    let digests = [
        (1, Kind::Disa, "f5e2ccfc9d37fc1bdd21594882727283f4fe75067ed63e9c25a450a4a21cc828"),
        (1, Kind::Diff, "2b1c8ca43f6b096f9feb39f76ec962747f8cc7ad28a3a3718394165647f0ac56"),
        (127, Kind::Disa, "03fa50dc2099b64b101398159058dbc0ece9a00a6a1a2ecd12fd2174c6f5ebf4"),
        (127, Kind::Diff, "65cf3125a8567072c04cda48034b64f60b15bbb17aab6031e68863e3f795d770"),
        (1016, Kind::Disa, "12f72988cccf4e622eaf8fa94e415ce891e5c98600741adf18b676ea8365ca1b"),
        (2049, Kind::Diff, "e7759bf1faaf154a6f727e74b8c726dae6fd78b78d2f0dcf3d60d1b99bdb07d4"),
        (4096, Kind::Disa, "86b638d54f5b8ee2610d77c07f8c9b8faaf36de92aad62c9d0b8b3d8187575d0"),
    ];
    for (blocks, kind, digest) in digests {
        let found: String = sha256(&blank(kind, blocks)).iter().map(|byte| format!("{byte:02x}")).collect();
        assert_eq!(found, digest, "{blocks} blocks, {kind:?}");
    }
}

#[test]
fn lengths() {
    assert_eq!(blank_length(1), Some(0x6000));
    assert_eq!(blank_length(4096), Some(0x2044000));
    for blocks in [0, 4097, 1 << 32, u64::MAX] {
        assert_eq!(blank_length(blocks), None);
    }
}

/// Every block reads as zeros; a write anywhere is accepted and reads back after the commit.
#[test]
fn a_session_on_a_blank_image() {
    for kind in [Kind::Disa, Kind::Diff] {
        let mut image = blank(kind, 130);
        assert_eq!(count_verified(&image, 0), Ok(130));
        let mut session = Session::FRESH;
        begin(&mut image, &mut session).expect("idle");
        let mut expected = vec![0; 130 * 0x1000];
        for (place, length) in [(0, 1), (0xFFF, 2), (127 * 0x1000 + 5, 0x2000), (130 * 0x1000 - 1, 1)] {
            let data = vec![place as u8 | 1; length];
            write(&mut image, &mut session, 0, place as u64, &data).expect("in range");
            expected[place..place + length].copy_from_slice(&data);
        }
        commit(&mut image, &mut session).expect("begun");
        let mut found = vec![0xA5; expected.len()];
        read_committed(&image, 0, 0, &mut found).expect("all verified");
        assert!(found == expected);
        assert_eq!(count_verified(&image, 0), Ok(130));
    }
}

#[derive(Clone, Copy, Debug, PartialEq)]
enum Fault {
    ExchangesTables,
    SetsFlag,
    Level2AWordShort,
    ExchangesLogarithms,
    ForgetsLastFieldOfIvfc,
    FillsInactiveTable,
    KeepsInactiveTable,
    KeepsSecondCopies,
    HashesWithoutPadding,
    StoresIntoTheFront,
    TakesLaterKindsForDisa,
    RefusesTheMost,
    TakesOneMore,
    TakesNone,
    CutsTheNumber,
    TakesLongerImages,
    ClearsOnRefusal,
    SaysLengthsOutOfRange,
}

const FAULTS: [Fault; 18] = [
    Fault::ExchangesTables,
    Fault::SetsFlag,
    Fault::Level2AWordShort,
    Fault::ExchangesLogarithms,
    Fault::ForgetsLastFieldOfIvfc,
    Fault::FillsInactiveTable,
    Fault::KeepsInactiveTable,
    Fault::KeepsSecondCopies,
    Fault::HashesWithoutPadding,
    Fault::StoresIntoTheFront,
    Fault::TakesLaterKindsForDisa,
    Fault::RefusesTheMost,
    Fault::TakesOneMore,
    Fault::TakesNone,
    Fault::CutsTheNumber,
    Fault::TakesLongerImages,
    Fault::ClearsOnRefusal,
    Fault::SaysLengthsOutOfRange,
];

const SECONDARY: usize = 0x200;
const PRIMARY: usize = 0x330;
const TABLE: usize = 0x12C;
const IVFC: usize = PRIMARY + 0x44;
const DPFS: usize = PRIMARY + 0xBC;

/// The model with one fault.
struct Faulty(Fault);

impl Blanks for Faulty {
    fn blank_length(&self, blocks: u64) -> u64 {
        match self.0 {
            Fault::SaysLengthsOutOfRange if blocks > 4096 => Rules.blank_length(4096),
            _ => Rules.blank_length(blocks),
        }
    }

    fn make_blank(&self, image: &mut [u8], kind: u64, blocks: u64) -> u64 {
        let kind = match self.0 {
            Fault::TakesLaterKindsForDisa => u64::from(kind == 1),
            _ => kind,
        };
        let length = image.len();
        match (self.0, blocks) {
            (Fault::RefusesTheMost, 4096) => return 20,
            (Fault::TakesOneMore, 4097) => return 0,
            (Fault::TakesNone, 0) if length == 0 => return 0,
            (Fault::CutsTheNumber, _) => return Rules.make_blank(image, kind, blocks & 0xFFFF_FFFF),
            (Fault::TakesLongerImages, 1..=4096) if length as u64 > Rules.blank_length(blocks) => {
                let right = Rules.blank_length(blocks) as usize;
                return Rules.make_blank(&mut image[..right], kind, blocks);
            }
            _ => {}
        }
        let lent = image.to_vec();
        let answer = Rules.make_blank(image, kind, blocks);
        match answer {
            0 => self.spoil(image, &lent, kind),
            _ if self.0 == Fault::ClearsOnRefusal => image.fill(0),
            _ => {}
        }
        answer
    }
}

impl Faulty {
    fn spoil(&self, image: &mut [u8], lent: &[u8], kind: u64) {
        let odd = kind % 2 == 1;
        match self.0 {
            Fault::ExchangesTables => {
                image.copy_within(PRIMARY..PRIMARY + TABLE, SECONDARY);
                image[PRIMARY..PRIMARY + TABLE].fill(0);
            }
            Fault::SetsFlag => image[HEADER + if odd { 0x30 } else { 0x68 }] = 1,
            Fault::Level2AWordShort => image[DPFS + DPFS_LEVELS[1] + 8] -= 4,
            Fault::ExchangesLogarithms => {
                for (level, log) in IVFC_LEVELS.iter().zip([12, 12, 9, 9]) {
                    image[IVFC + level + 16] = log;
                }
            }
            Fault::ForgetsLastFieldOfIvfc => image[IVFC + 0x70] = 0,
            Fault::FillsInactiveTable => image.copy_within(PRIMARY..PRIMARY + TABLE, SECONDARY),
            Fault::KeepsInactiveTable => {
                image[SECONDARY..SECONDARY + TABLE].copy_from_slice(&lent[SECONDARY..SECONDARY + TABLE]);
            }
            Fault::KeepsSecondCopies => {
                let half = image.len() - 0x1000;
                image[half..].copy_from_slice(&lent[half..]);
            }
            Fault::HashesWithoutPadding => {
                let level1 = sha256(&image[0x2000..0x2020]);
                image[PRIMARY + 0x10C..PRIMARY + TABLE].copy_from_slice(&level1);
            }
            Fault::StoresIntoTheFront => image[0] = b'D',
            _ => return,
        }
        // The table's hash fits what was done to the table.
        let digest = sha256(&image[PRIMARY..PRIMARY + TABLE]);
        let place = HEADER + if odd { 0x34 } else { 0x6C };
        image[place..place + 32].copy_from_slice(&digest);
    }
}

#[test]
fn every_fault_is_found() {
    assert_eq!(run_making(Some(&Rules), &mut Tally::default()), Ok(()));
    for fault in FAULTS {
        let found = run_making(Some(&Faulty(fault)), &mut Tally::default()).is_err();
        assert!(found, "{fault:?} was not noticed");
    }
}
