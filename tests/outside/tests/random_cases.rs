//! Random cases against the reference model, and proof that the comparison notices what it should: subjects that break
//! a rule are found out.

use std::ops::Range;

use outside::description::{Description, DESCRIPTION_LENGTH};
use outside::rules::aes::Key;
use outside::rules::block_hash::block_hash;
use outside::rules::calls::touched_blocks;
use outside::rules::cmac::cmac;
use outside::rules::compression::{compress, Digest};
use outside::rules::descriptor::{ENTRY, IVFC_LEVELS, SELECTOR};
use outside::rules::dpfs::{bit_place, View};
use outside::rules::extent::Extent;
use outside::rules::faults::{faults, FaultRecord};
use outside::rules::header::{B_FIELDS, HEADER, HEADER_LENGTH, LONGEST_IMAGE};
use outside::rules::names::Name;
use outside::rules::opening::open;
use outside::rules::running::{Running, RunningBytes, LONGEST_MESSAGE, TOTAL, WAITING};
use outside::rules::session::{header_bytes, Session, SessionBytes, SESSION_LENGTH};
use outside::rules::sha256::sha256;
use outside::rules::signing::{signature, signing_block, BlockBytes, Signer, SignerNumbers, LONGEST_BLOCK};
use outside::subject::blank::Blanks;
use outside::subject::names::Names;
use outside::subject::{Rules, Subject};
use outside::trial::call::Call;
use outside::trial::fixed::run_fixed_cases;
use outside::trial::properties::{finish_write, rebuilt_extent, touched_on_each_level, Finished};
use outside::trial::run_case;
use outside::trial::tally::{OtherKind, Tally, NUMBERS};

/// These cases are among those that a check makes by default.
#[test]
fn the_model_agrees_and_every_answer_occurs() {
    let mut tally = Tally::default();
    run_fixed_cases(Some(&Rules), &mut tally).unwrap_or_else(|complaint| panic!("{complaint}"));
    for seed in 1..=1000 {
        run_case(seed, Some(&Rules), &mut tally).unwrap_or_else(|complaint| panic!("seed {seed}: {complaint}"));
    }
    let opening = 0..=7;
    let expected = [
        ("open", vec![]),
        ("read committed", vec![8, 9, 10]),
        ("read staged", vec![8, 9, 10, 13, 14]),
        ("verified", vec![8, 9]),
        ("count verified", vec![8]),
        ("begin", vec![13]),
        ("write", vec![8, 9, 10, 13, 14, 17]),
        ("commit", vec![13, 14]),
        ("open signed", vec![15, 16]),
        ("commit signed", vec![13, 14, 15]),
        ("faults", vec![]),
        ("revert", vec![13, 21]),
        ("revert signed", vec![13, 15, 21]),
        ("list names", vec![10, 18, 19]),
        ("find file", vec![10, 18, 19]),
    ];
    let signing = [("signing block", vec![0, 1, 2, 15]), ("signing digest", vec![0, 1, 2, 15])];
    let digests = [("digest start", vec![0]), ("digest feed", vec![0, 22]), ("digest finish", vec![0, 22])];
    let blanks = [("make blank", vec![0, 20])];
    for (call, numbers) in signing.into_iter().chain(digests).chain(blanks) {
        for number in 0..NUMBERS {
            let occurs = tally.count(call, number) > 0;
            assert_eq!(occurs, numbers.contains(&number), "{call} and the answer {number}");
        }
    }
    for (call, refusals) in expected {
        for number in opening.clone().chain(refusals) {
            assert!(tally.count(call, number) > 0, "{call} never answered {number}");
        }
    }
    assert!(tally.count("abandon", 0) > 0 && tally.count("abandon", 13) > 0);
    every_event_occurs(&tally);
}

/// How often each of the rarest events must have come up.
const A_FEW: u64 = 3;

fn every_event_occurs(tally: &Tally) {
    assert!(tally.power_failures > 0 && tally.writes_upon_writes > 0 && tally.reverted > 0);
    assert!(tally.later_entries > 0, "no write reached a later entry of a master hash");
    assert!(tally.rows > 0, "no call met eight blocks in a row");
    assert_eq!((tally.count("write", 11), tally.count("write", 12)), (0, 0));
    assert!(tally.rebuilt.iter().all(|count| *count > 0), "rebuilt hash blocks: {:?}", tally.rebuilt);
    assert!(tally.rebuilt_across > 0 && tally.rebuilt_short > 0);
    assert!(tally.in_place.iter().all(|count| *count > 0), "blocks written in place: {:?}", tally.in_place);
    assert!(tally.zero_digests.iter().all(|count| *count > 0), "digests of zeros: {:?}", tally.zero_digests);
    let OtherKind { plain, signed, refused } = &tally.other_kind;
    let steps_back = [plain, signed, refused];
    assert!(steps_back.into_iter().flatten().all(|count| *count >= A_FEW), "{:?}", tally.other_kind);
}

/// Names the ways to go wrong, and lists them all.
macro_rules! faults {
    ($($name:ident,)*) => {
        #[derive(Clone, Copy, Debug, PartialEq)]
        enum Fault {
            $($name,)*
        }

        const FAULTS: &[Fault] = &[$(Fault::$name,)*];
    };
}

faults! {
    RefusesEverything,
    ReadsZeros,
    FillsBufferOnRefusal,
    InventsCount,
    SaysYes,
    ForgetsFlag,
    RefusesLeftovers,
    ForgetsFirstFieldOfB,
    ForgetsLastFieldOfB,
    JudgesFieldsOfBInDiff,
    JudgesFieldsOfTwo,
    JudgesFieldsOfBLate,
    BeginWritesMore,
    WriteDoesNothing,
    WritesLiveCopy,
    CopiesAgain,
    WritesFirstMasterEntry,
    CommitKeepsHeader,
    CommitKeepsSession,
    AbandonKeepsRemains,
    CarriesNoBlock,
    SignsAnyKind,
    SignsOpenedImagesOnly,
    SignsLongImages,
    KeepsSaveIdHigh,
    KeepsQuotaIds,
    ExchangesFileIds,
    KeepsTailOfBlock,
    FillsBlockOnRefusal,
    DigestsWholeArray,
    AcceptsAnySignature,
    ComparesFifteenBytes,
    ChecksSignatureLate,
    ChecksSignatureEarly,
    ComparesBeforeSigner,
    SignsTheBlock,
    ReadsAllOfTheFront,
    CommitChecksSignature,
    CommitSignsOldHeader,
    CommitForgetsSignature,
    CommitClearsFront,
    CommitChecksSignerFirst,
    CommitSignedKeepsSession,
    StartsWithLeftovers,
    LimitOneLower,
    LimitOneHigher,
    TotalWraps,
    AcceptsEmptyPieces,
    FinishesPastLimit,
    RefusedFeedCounts,
    LooksBehindWaiting,
    ForgetsWaiting,
    ReportsTwice,
    LevelsFromFourUp,
    PartitionBFirst,
    BlocksFromTheLast,
    ClearsRecordAfterLast,
    AnswersWhatFitted,
    ListsStagedView,
    ListsSpareBlocksNot,
    ListsExternalNot,
    ListsRootsOnly,
    ShortRowHoldsLast,
    ClearsRowOnRefusal,
    ZeroEntriesVerify,
    RefusesAboveUnverified,
    KeepsStaleEntries,
    RebuildsLastLevelOnly,
    RebuildsMasterHash,
    LeavesZeroEntriesInPlace,
    ZeroDigestKeepsSession,
    ZeroDigestBeforeParts,
    ZeroDigestChangesCommitted,
    ZeroDigestCarriesBlock,
    RefusesExternal,
    WritesPastRange,
    KeepsExternalData,
    TrustsStagedEntry,
    JudgesPartsByCommitted,
    BeginRemembers,
    CommitForgets,
    CommitSignedForgets,
    RevertKeepsMemory,
    RevertComparesFlag,
    RevertStoresToTry,
    RevertOpensNot,
    RevertJudgesMemoryFirst,
    RevertSignsPresent,
    RevertForgetsSignature,
    RevertJudgesSignerFirst,
    RevertRefusesOtherKind,
    RevertTakesPresentKind,
}

/// The model with one fault.
struct Faulty(Fault);

/// Faults of blank images are in tests/blank.rs.
impl Blanks for Faulty {
    fn blank_length(&self, blocks: u64) -> u64 {
        Rules.blank_length(blocks)
    }

    fn make_blank(&self, image: &mut [u8], kind: u64, blocks: u64) -> u64 {
        Rules.make_blank(image, kind, blocks)
    }
}

/// Faults of names are in tests/names.rs.
impl Names for Faulty {
    fn list_names(&self, image: &[u8], row: &mut [u8]) -> u64 {
        Rules.list_names(image, row)
    }

    fn find_file(&self, image: &[u8], folder: u64, name: &Name) -> u64 {
        Rules.find_file(image, folder, name)
    }
}

impl Subject for Faulty {
    fn takes_stand_in(&self) -> bool {
        true
    }

    fn open(&self, image: &[u8], description: &mut Description) -> u64 {
        let untouched = *description;
        let answer = Rules.open(image, description);
        let refused = match (self.0, answer) {
            (Fault::RefusesEverything, 0) => 4,
            (Fault::RefusesLeftovers, 0) if has_leftovers(image) => 6,
            (Fault::JudgesFieldsOfBInDiff, 0) if description[0] == 1 && has_fields_of_b(image) => 3,
            (Fault::JudgesFieldsOfTwo, 0) if description[1] == 2 && has_fields_of_b(image) => 3,
            _ => 0,
        };
        if refused != 0 {
            *description = untouched;
            return refused;
        }
        match (self.0, answer) {
            (Fault::ForgetsFlag, 0) => description[2] = 0,
            (Fault::ForgetsFirstFieldOfB, 3) => return open_without(&[B_FIELDS[0]], image, description),
            (Fault::ForgetsLastFieldOfB, 3) => return open_without(&[B_FIELDS[3]], image, description),
            // 4 to 7 before 3.
            (Fault::JudgesFieldsOfBLate, 3) => match open_without(&B_FIELDS, image, &mut untouched.clone()) {
                0 => {}
                number => return number,
            },
            _ => {}
        }
        answer
    }

    fn read_committed(&self, image: &[u8], partition: u64, place: u64, buffer: &mut [u8]) -> u64 {
        let answer = Rules.read_committed(image, partition, place, buffer);
        match self.0 {
            Fault::ReadsZeros if answer == 0 => buffer.fill(0),
            Fault::FillsBufferOnRefusal if answer & 0xFF == 10 => buffer.fill(0),
            Fault::CarriesNoBlock => return answer & 0xFF,
            Fault::TrustsStagedEntry if answer & 0xFF == 10 && is_external(image, partition) => {
                let session = Session::begun(image).to_bytes();
                if Rules.read_staged(image, &session, partition, place, buffer) == 0 {
                    return 0;
                }
            }
            _ => {}
        }
        answer
    }

    fn read_staged(&self, image: &[u8], session: &SessionBytes, partition: u64, place: u64, buffer: &mut [u8]) -> u64 {
        Rules.read_staged(image, session, partition, place, buffer)
    }

    fn verified(&self, image: &[u8], partition: u64, block: u64) -> u64 {
        match Rules.verified(image, partition, block) {
            0 if self.0 == Fault::SaysYes => 1 << 8,
            0 if self.0 == Fault::ZeroEntriesVerify && verified_by_any_entry(image, partition, block) => 1 << 8,
            answer => answer,
        }
    }

    fn count_verified(&self, image: &[u8], partition: u64) -> u64 {
        match Rules.count_verified(image, partition) {
            answer if self.0 == Fault::InventsCount && answer & 0xFF == 0 => answer + (1 << 8),
            answer => answer,
        }
    }

    fn begin(&self, image: &mut [u8], session: &mut SessionBytes) -> u64 {
        let session_before = *session;
        let answer = Rules.begin(image, session);
        if self.0 == Fault::BeginRemembers && answer == 0 {
            session[1 + HEADER_LENGTH..].copy_from_slice(&session_before[1 + HEADER_LENGTH..]);
        }
        if self.0 == Fault::BeginWritesMore && answer == 0 {
            copy_live_over_other(image);
        }
        answer
    }

    fn write(&self, image: &mut [u8], session: &mut SessionBytes, partition: u64, place: u64, data: &[u8]) -> u64 {
        let before = image.to_vec();
        if self.0 == Fault::CopiesAgain {
            copy_live_over_other(image);
        }
        let session_before = *session;
        let answer = Rules.write(image, session, partition, place, data);
        match (self.0, answer & 0xFF) {
            (Fault::RefusesAboveUnverified, 0) if !finish(&before, partition, place, data).rebuilt.is_empty() => {
                image.copy_from_slice(&before);
                return 11;
            }
            (Fault::KeepsStaleEntries, 0) => restore_entries(&before, image, partition, place, data, 3),
            (Fault::RebuildsLastLevelOnly, 0) => restore_entries(&before, image, partition, place, data, 2),
            (Fault::RebuildsMasterHash, 0) => empty_master_hash(&before, image, partition, place, data),
            (Fault::LeavesZeroEntriesInPlace, 0) => move_back(&before, image, partition),
            (Fault::ZeroDigestKeepsSession, 17) => *session = session_before,
            (Fault::ZeroDigestBeforeParts, 10) if finish(&before, partition, place, data).zero_digest.is_some() => {
                *session = [0; SESSION_LENGTH];
                return 17;
            }
            (Fault::ZeroDigestChangesCommitted, 17) => {
                image[HEADER + HEADER_LENGTH - 1] ^= 1;
                return 17;
            }
            (Fault::ZeroDigestCarriesBlock, 17) => return 1 << 8 | 17,
            (Fault::RefusesExternal, 0) if is_external(&before, partition) => {
                image.copy_from_slice(&before);
                return 12;
            }
            (Fault::WritesPastRange, 0) => {
                let written = in_place(image, partition, place, data);
                if !written.is_empty() && written.end < image.len() {
                    image[written.end] ^= 1;
                }
            }
            (Fault::KeepsExternalData, 0) => {
                let written = in_place(image, partition, place, data);
                image[written.clone()].copy_from_slice(&before[written]);
            }
            (Fault::JudgesPartsByCommitted, 0) if !parts_committed(&before, partition, place, data) => {
                image.copy_from_slice(&before);
                return 10;
            }
            _ => {}
        }
        if answer != 0 || self.0 == Fault::WriteDoesNothing {
            image.copy_from_slice(&before);
        } else if self.0 == Fault::WritesFirstMasterEntry {
            entries_into_the_first(&before, image, partition);
        } else if self.0 == Fault::WritesLiveCopy {
            let opened = open(image).expect("it has opened");
            let partition = &opened.partitions[partition as usize];
            let start = partition.descriptor.hash_level(4).extent.offset + u128::from(place);
            for (index, byte) in data.iter().enumerate() {
                let position = View::committed(&before, &opened, partition).level3_position(start + index as u128);
                image[position as usize] = *byte;
            }
        }
        answer
    }

    fn commit(&self, image: &mut [u8], session: &mut SessionBytes) -> u64 {
        let before = image.to_vec();
        let session_before = *session;
        let answer = Rules.commit(image, session);
        match self.0 {
            Fault::CommitKeepsHeader => image.copy_from_slice(&before),
            Fault::CommitKeepsSession => *session = session_before,
            Fault::CommitForgets if answer == 0 => *session = [0; SESSION_LENGTH],
            _ => {}
        }
        answer
    }

    fn abandon(&self, session: &mut SessionBytes) -> u64 {
        if self.0 == Fault::AbandonKeepsRemains && session[0] != 0 {
            session[0] = 0;
            return 0;
        }
        Rules.abandon(session)
    }

    fn open_signed(&self, image: &[u8], key: &Key, signer: &SignerNumbers, description: &mut Description) -> u64 {
        let untouched = *description;
        let answer = Rules.open_signed(image, key, signer, description);
        match (self.0, answer) {
            (Fault::AcceptsAnySignature, 16) => Rules.open(image, description),
            (Fault::ComparesFifteenBytes, 16) => {
                let last = signature(image, key, Signer::from_numbers(*signer)).expect("a signer that fits")[15];
                let mut image = image.to_vec();
                image[15] = last;
                Rules.open_signed(&image, key, signer, description)
            }
            // 4 to 7 before 15 and 16.
            (Fault::ChecksSignatureLate, 15 | 16) => match Rules.open(image, &mut untouched.clone()) {
                0 => answer,
                number => number,
            },
            // 15 and 16 before 3.
            (Fault::ChecksSignatureEarly, 3) => match signature(image, key, Signer::from_numbers(*signer)) {
                Ok(signature) if image[..16] != signature => 16,
                Ok(_) => 3,
                Err(refusal) => refusal.number(),
            },
            (Fault::ComparesBeforeSigner, 15) => 16,
            (Fault::SignsTheBlock, 0) => {
                *description = untouched;
                16
            }
            (Fault::ReadsAllOfTheFront, 0) if image[0x10..0x100] != [0; 0xF0] => {
                *description = untouched;
                16
            }
            _ => answer,
        }
    }

    fn commit_signed(&self, image: &mut [u8], session: &mut SessionBytes, key: &Key, signer: &SignerNumbers) -> u64 {
        let before = image.to_vec();
        let session_before = *session;
        let signed_before = Rules.open_signed(image, key, signer, &mut [0; DESCRIPTION_LENGTH]);
        match (self.0, signed_before) {
            (Fault::CommitChecksSignature, 16) => return 16,
            (Fault::CommitChecksSignerFirst, 15) if open(image).is_ok() => return 15,
            _ => {}
        }
        let answer = Rules.commit_signed(image, session, key, signer);
        if answer != 0 {
            return answer;
        }
        match self.0 {
            Fault::SignsTheBlock => {
                let block = signing_block(image, Signer::from_numbers(*signer)).expect("a signer that fits");
                image[..16].copy_from_slice(&cmac(key, &block));
            }
            Fault::CommitSignsOldHeader => {
                let old = signature(&before, key, Signer::from_numbers(*signer)).expect("a signer that fits");
                image[..16].copy_from_slice(&old);
            }
            Fault::CommitForgetsSignature => image[..16].copy_from_slice(&before[..16]),
            Fault::CommitClearsFront => image[0x10..0x100].fill(0),
            Fault::CommitSignedKeepsSession => *session = session_before,
            Fault::CommitSignedForgets => *session = [0; SESSION_LENGTH],
            _ => {}
        }
        answer
    }

    fn revert(&self, image: &mut [u8], session: &mut SessionBytes) -> u64 {
        self.faulty_revert(image, session, |image, session| Rules.revert(image, session))
    }

    fn revert_signed(&self, image: &mut [u8], session: &mut SessionBytes, key: &Key, signer: &SignerNumbers) -> u64 {
        let before = image.to_vec();
        let session_before = *session;
        let right = |image: &mut [u8], session: &mut SessionBytes| Rules.revert_signed(image, session, key, signer);
        let answer = self.faulty_revert(image, session, right);
        let by_present = signature(&before, key, Signer::from_numbers(*signer));
        match (self.0, answer, by_present) {
            (Fault::RevertSignsPresent, 0, Ok(present)) => image[..16].copy_from_slice(&present),
            (Fault::RevertForgetsSignature, 0, _) => image[..16].copy_from_slice(&before[..16]),
            (Fault::RevertJudgesSignerFirst, 21, Err(_)) => return 15,
            // 15 by the kind that is there, not by the one that comes back: it says no too often, or yes.
            (Fault::RevertRefusesOtherKind, 0, Err(_)) => {
                image.copy_from_slice(&before);
                *session = session_before;
                return 15;
            }
            (Fault::RevertTakesPresentKind, 15, Ok(_)) => return Rules.revert(image, session),
            _ => {}
        }
        answer
    }

    fn faults(&self, image: &[u8], row: &mut [FaultRecord]) -> u64 {
        let Ok(mut list) = faults(image) else {
            if self.0 == Fault::ClearsRowOnRefusal {
                row.fill(FaultRecord { partition: 0, level: 0, block: 0 });
            }
            return Rules.faults(image, row);
        };
        match self.0 {
            Fault::ReportsTwice => list.extend(list.last().copied()),
            Fault::LevelsFromFourUp => list.sort_by_key(|fault| (fault.partition, 4 - fault.level, fault.block)),
            Fault::PartitionBFirst => list.sort_by_key(|fault| (1 - fault.partition, fault.level, fault.block)),
            Fault::BlocksFromTheLast => list.sort_by_key(|fault| (fault.partition, fault.level, !fault.block)),
            Fault::ListsStagedView => list = staged_faults(image, list),
            Fault::ListsSpareBlocksNot => list.retain(|fault| !is_spare(image, fault)),
            Fault::ListsExternalNot => list.retain(|fault| fault.level < 4 || !is_external(image, fault.partition)),
            Fault::ListsRootsOnly => list = roots_of(image, list),
            _ => {}
        }
        let fitting = list.len().min(row.len());
        let first = if self.0 == Fault::ShortRowHoldsLast { list.len() - fitting } else { 0 };
        row[..fitting].copy_from_slice(&list[first..first + fitting]);
        match (self.0, row.get_mut(fitting)) {
            (Fault::ClearsRecordAfterLast, Some(next)) => *next = FaultRecord { partition: 0, level: 0, block: 0 },
            (Fault::AnswersWhatFitted, _) => return (fitting as u64) << 8,
            _ => {}
        }
        (list.len() as u64) << 8
    }

    fn signing_block(&self, image: &[u8], signer: &SignerNumbers, block: &mut BlockBytes) -> u64 {
        let untouched = *block;
        let [kind, id, name, directory] = *signer;
        let signer = match self.0 {
            Fault::ExchangesFileIds => [kind, id, directory, name],
            _ => *signer,
        };
        let answer = Rules.signing_block(image, &signer, block);
        let length = (answer >> 8) as usize;
        match self.0 {
            Fault::SignsAnyKind if answer == 15 => return Rules.signing_block(image, &[kind % 6 + 3, 0, 0, 0], block),
            Fault::SignsOpenedImagesOnly if answer & 0xFF == 0 => {
                if let Err(refusal) = open(image) {
                    *block = untouched;
                    return refusal.number();
                }
            }
            Fault::SignsLongImages if image.len() > LONGEST_IMAGE => {
                return Rules.signing_block(&image[..LONGEST_IMAGE], &signer, block)
            }
            Fault::KeepsSaveIdHigh if kind % 6 == 2 && length > 0 => block[8..16].copy_from_slice(&id.to_le_bytes()),
            Fault::KeepsQuotaIds if kind % 6 == 3 && length > 0 => {
                block[0x14..0x18].copy_from_slice(&name.to_le_bytes()[..4]);
            }
            Fault::KeepsTailOfBlock if length > 0 => block[length..].copy_from_slice(&untouched[length..]),
            Fault::FillsBlockOnRefusal if answer == 15 => block.fill(0),
            _ => {}
        }
        answer
    }

    fn signing_digest(&self, image: &[u8], signer: &SignerNumbers, digest: &mut Digest) -> u64 {
        let answer = Rules.signing_digest(image, signer, digest);
        if self.0 == Fault::DigestsWholeArray && answer == 0 {
            let mut block = [0; LONGEST_BLOCK];
            Rules.signing_block(image, signer, &mut block);
            *digest = sha256(&block);
        }
        answer
    }

    fn digest_start(&self, state: &mut RunningBytes) {
        let before = *state;
        Rules.digest_start(state);
        if self.0 == Fault::StartsWithLeftovers {
            state[WAITING..TOTAL].copy_from_slice(&before[WAITING..TOTAL]);
        }
    }

    fn digest_feed(&self, state: &mut RunningBytes, piece: &[u8]) -> u64 {
        let mut value = Running::from_bytes(state);
        let total = value.total.wrapping_add(piece.len() as u64);
        let refused = match self.0 {
            Fault::LimitOneLower => total == LONGEST_MESSAGE,
            Fault::RefusedFeedCounts if value.feed(piece).is_err() => {
                state[TOTAL..].copy_from_slice(&total.to_le_bytes());
                true
            }
            _ => false,
        };
        let accepted = match self.0 {
            Fault::LimitOneHigher => total == LONGEST_MESSAGE + 1,
            Fault::TotalWraps => total < value.total,
            Fault::AcceptsEmptyPieces => piece.is_empty(),
            _ => false,
        };
        match (refused, accepted) {
            (true, _) => 22,
            (_, true) => 0,
            _ => Rules.digest_feed(state, piece),
        }
    }

    fn digest_finish(&self, state: &RunningBytes, digest: &mut Digest) -> u64 {
        let mut value = Running::from_bytes(state);
        match self.0 {
            Fault::FinishesPastLimit => value.total &= LONGEST_MESSAGE,
            Fault::LooksBehindWaiting if value.total <= LONGEST_MESSAGE && value.waiting.len() < 56 => {
                *digest = padded_with_leftovers(&value, state);
                return 0;
            }
            Fault::ForgetsWaiting => value.waiting.clear(),
            _ => return Rules.digest_finish(state, digest),
        }
        match value.finish() {
            Ok(found) => {
                *digest = found;
                0
            }
            Err(refusal) => refusal.number(),
        }
    }
}

impl Faulty {
    /// What both ways back may do wrong; `right` is the right one.
    fn faulty_revert(
        &self,
        image: &mut [u8],
        session: &mut SessionBytes,
        right: impl Fn(&mut [u8], &mut SessionBytes) -> u64,
    ) -> u64 {
        let session_before = *session;
        let answer = right(image, session);
        let (former, latter) = match Session::from_bytes(&session_before) {
            Session::Idle { former, latter } => (former, latter),
            Session::Begun(_) if self.0 == Fault::RevertJudgesMemoryFirst && answer == 13 => return 21,
            Session::Begun(_) => return answer,
        };
        match (self.0, answer) {
            (Fault::RevertKeepsMemory, 0) => *session = session_before,
            (Fault::RevertComparesFlag, 21) => {
                let present = header_bytes(image);
                let flag = open(image).expect("it has opened").header.kind.flag_place().0;
                if latter[..8] == present[..8] && latter[flag] == present[flag] {
                    *session = Session::Idle { former, latter: present }.to_bytes();
                    let answer = right(image, session);
                    if answer != 0 {
                        *session = session_before;
                    }
                    return answer;
                }
            }
            (Fault::RevertStoresToTry, 21) if latter == header_bytes(image) => {
                image[HEADER..HEADER + HEADER_LENGTH].copy_from_slice(&former);
            }
            (Fault::RevertOpensNot, 21) if latter == header_bytes(image) => {
                image[HEADER..HEADER + HEADER_LENGTH].copy_from_slice(&former);
                *session = [0; SESSION_LENGTH];
                return 0;
            }
            _ => {}
        }
        answer
    }
}

/// A digest whose padding leaves what stands behind the waiting bytes, where zeros belong.
fn padded_with_leftovers(value: &Running, state: &RunningBytes) -> Digest {
    let mut last = state[WAITING..TOTAL].to_vec();
    last[value.waiting.len()] = 0x80;
    last[56..].copy_from_slice(&(8 * value.total).to_be_bytes());
    let words = compress(value.hash, &last);
    std::array::from_fn(|place| words[place / 4].to_be_bytes()[place % 4])
}

fn has_fields_of_b(image: &[u8]) -> bool {
    B_FIELDS.iter().any(|place| image[HEADER + place..HEADER + place + 8] != [0; 8])
}

/// Opens an image as if these fields of a DISA of one partition were zero.
fn open_without(fields: &[usize], image: &[u8], description: &mut Description) -> u64 {
    let mut image = image.to_vec();
    if image[HEADER..HEADER + 12] == *b"DISA\x00\x00\x04\x00\x01\x00\x00\x00" {
        fields.iter().for_each(|place| image[HEADER + place..HEADER + place + 8].fill(0));
    }
    Rules.open(&image, description)
}

/// Would a logarithm of A's IVFC be another number if it had eight bytes?
fn has_leftovers(image: &[u8]) -> bool {
    let opened = open(image).expect("it has opened");
    let partition = &opened.partitions[0];
    let table = opened.header.active_table().offset + partition.place.descriptor.offset;
    let ivfc = (table + partition.descriptor.ivfc.offset) as usize;
    IVFC_LEVELS.iter().any(|place| image[ivfc + place + 20..ivfc + place + 24] != [0; 4])
}

/// The faults of level 4 in the staged view, with the others as they are.
fn staged_faults(image: &[u8], list: Vec<FaultRecord>) -> Vec<FaultRecord> {
    let opened = open(image).expect("it has opened");
    let mut staged: Vec<FaultRecord> = list.into_iter().filter(|fault| fault.level < 4).collect();
    for (number, partition) in (0..).zip(&opened.partitions) {
        let table = opened.header.inactive_table().offset + partition.place.descriptor.offset;
        if image[table as usize + SELECTOR] <= 1 {
            let verified = View::staged(image, &opened, partition).verified_blocks(4);
            let bad = (0..).zip(verified).filter(|(_, verified)| !verified);
            staged.extend(bad.map(|(block, _)| FaultRecord { partition: number, level: 4, block }));
        }
    }
    staged.sort();
    staged
}

/// Is the fault a hash block above no block of the next level?
fn is_spare(image: &[u8], fault: &FaultRecord) -> bool {
    let descriptor = &open(image).expect("it has opened").partitions[fault.partition as usize].descriptor;
    let level = fault.level as usize;
    level < 4
        && ENTRY * descriptor.hash_level(level + 1).blocks()
            <= u128::from(fault.block) * descriptor.hash_level(level).block_size()
}

fn is_external(image: &[u8], partition: u64) -> bool {
    open(image).expect("it has opened").partitions[partition as usize].descriptor.external.is_some()
}

/// The positions that a write changes in place.
fn in_place(image: &[u8], partition: u64, place: u64, data: &[u8]) -> Range<usize> {
    let opened = open(image).expect("it has opened");
    Call::Write { partition, place, data: data.to_vec() }.written_in_place(&opened)
}

/// Are the first and the last touched block verified in the committed view?
fn parts_committed(image: &[u8], partition: u64, place: u64, data: &[u8]) -> bool {
    let opened = open(image).expect("it has opened");
    let partition = &opened.partitions[partition as usize];
    let view = View::committed(image, &opened, partition);
    let touched = touched_blocks(partition, Extent::new(place, data.len() as u64));
    let size = partition.descriptor.hash_level(4).block_size() as u64;
    let last = touched.end.max(1) - 1;
    let end = place + data.len() as u64;
    let first_in_part = !place.is_multiple_of(size);
    let last_in_part = !end.is_multiple_of(size) && u128::from(end) < view.data_size();
    data.is_empty()
        || ((!first_in_part || view.verified(4, touched.start)) && (!last_in_part || view.verified(4, last)))
}

/// The faults that are below no other.
fn roots_of(image: &[u8], list: Vec<FaultRecord>) -> Vec<FaultRecord> {
    let opened = open(image).expect("it has opened");
    let above = |fault: &FaultRecord| {
        let descriptor = &opened.partitions[fault.partition as usize].descriptor;
        let level = fault.level - 1;
        let entries = descriptor.hash_level(level as usize).block_size() / ENTRY;
        FaultRecord { level, block: fault.block / entries as u64, ..*fault }
    };
    list.iter().copied().filter(|fault| fault.level == 1 || list.binary_search(&above(fault)).is_err()).collect()
}

/// Is the block verified if an entry of zeros counts like any other?
fn verified_by_any_entry(image: &[u8], partition: u64, block: u64) -> bool {
    let opened = open(image).expect("it has opened");
    let view = View::committed(image, &opened, &opened.partitions[partition as usize]);
    let mut block = u128::from(block);
    (1..=4).rev().all(|level| {
        let matches = block_hash(&view.padded_block(level, block)) == *view.entry(level, block);
        block = if level == 1 { 0 } else { view.holder(level - 1, block) };
        matches
    })
}

/// What a write comes to that was not refused by its session or its range.
fn finish(before: &[u8], partition: u64, place: u64, data: &[u8]) -> Finished {
    let opened = open(before).expect("it has opened");
    let staged = View::staged(before, &opened, &opened.partitions[partition as usize]);
    finish_write(&staged, Extent::new(place, data.len() as u64), data)
}

/// Puts the old entries back into the blocks that a write has rebuilt, up to a level, but for those above written blocks.
fn restore_entries(before: &[u8], image: &mut [u8], partition: u64, place: u64, data: &[u8], deepest: usize) {
    let opened = open(before).expect("it has opened");
    let written = Extent::new(place, data.len() as u64);
    let rebuilt = finish(before, partition, place, data).rebuilt;
    let partition = &opened.partitions[partition as usize];
    let touched = touched_on_each_level(partition, written);
    for (level, block) in rebuilt.into_iter().filter(|(level, _)| *level <= deepest) {
        let start = partition.descriptor.hash_level(level).extent.offset;
        let extent = rebuilt_extent(partition, level, block);
        for at in (extent.offset..extent.end()).filter(|at| !touched[level + 1].contains(&((at - start) / ENTRY))) {
            let old = View::staged(before, &opened, partition).level3_position(at) as usize;
            let new = View::staged(image, &opened, partition).level3_position(at) as usize;
            image[new] = before[old];
        }
    }
}

/// Where a block of level 1 was rebuilt, every entry of the staged master hash becomes zero but those above the write.
fn empty_master_hash(before: &[u8], image: &mut [u8], partition: u64, place: u64, data: &[u8]) {
    let opened = open(before).expect("it has opened");
    let written = Extent::new(place, data.len() as u64);
    let rebuilt = finish(before, partition, place, data).rebuilt;
    let partition = &opened.partitions[partition as usize];
    if !rebuilt.iter().any(|(level, _)| *level == 1) {
        return;
    }
    let table = opened.header.inactive_table().offset + partition.place.descriptor.offset;
    let master = (table + partition.descriptor.master.offset) as usize;
    let touched = &touched_on_each_level(partition, written)[0];
    for entry in (0..partition.descriptor.master.size / ENTRY).filter(|entry| !touched.contains(entry)) {
        image[master + 32 * entry as usize..][..32].fill(0);
    }
}

/// Moves staged copies that hold just what the live ones do back onto those.
fn move_back(before: &[u8], image: &mut [u8], partition: u64) {
    let opened = open(before).expect("it has opened");
    let partition = &opened.partitions[partition as usize];
    for block in 0..partition.descriptor.level3.blocks() {
        let own = partition.descriptor.level3.block_extent(block);
        let old = View::staged(before, &opened, partition);
        let new = View::staged(image, &opened, partition);
        let same = old.level3_bytes(own.offset, own.end()) == new.level3_bytes(own.offset, own.end());
        if old.level3_copy(block) != new.level3_copy(block) && same {
            let (byte, mask) = bit_place(block);
            let position = new.level2_position(byte) as usize;
            image[position] ^= mask;
        }
    }
}

/// Every entry of the staged master hash that a write has changed goes to the first entry's place instead.
fn entries_into_the_first(before: &[u8], image: &mut [u8], partition: u64) {
    let opened = open(image).expect("it has opened");
    let partition = &opened.partitions[partition as usize];
    let table = opened.header.inactive_table().offset + partition.place.descriptor.offset;
    let first = (table + partition.descriptor.master.offset) as usize;
    for place in (first + 32..first + partition.descriptor.master.size as usize).step_by(32) {
        if image[place..place + 32] != before[place..place + 32] {
            image.copy_within(place..place + 32, first);
            image[place..place + 32].copy_from_slice(&before[place..place + 32]);
        }
    }
}

/// Copies every live level 3 block over its other copy: a begin that writes everything, or a write that loses the
/// writes before it.
fn copy_live_over_other(image: &mut [u8]) {
    let Ok(opened) = open(image) else { return };
    for partition in &opened.partitions {
        let level = partition.descriptor.level3;
        for place in 0..level.extent.size {
            let live = View::committed(image, &opened, partition).level3_position(place);
            let first = partition.place.area.offset + level.extent.offset + place;
            let other = if live == first { first + level.extent.size } else { first };
            image[other as usize] = image[live as usize];
        }
    }
}

#[test]
fn every_fault_is_found() {
    for &fault in FAULTS {
        let subject = Faulty(fault);
        let found = (1..=300).any(|seed| run_case(seed, Some(&subject), &mut Tally::default()).is_err());
        let found = found || run_fixed_cases(Some(&subject), &mut Tally::default()).is_err();
        assert!(found, "{fault:?} was not noticed");
    }
}
