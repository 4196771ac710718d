//! Signers and their keys, and images that they have signed.

use super::contents::put;
use super::random::Random;
use crate::rules::aes::Key;
use crate::rules::header::{read_kind, Kind};
use crate::rules::signing::{signature, Signer, SignerNumbers, SIGNER_TYPES};

/// A key, and for whom it signs.
#[derive(Clone, Copy, Debug, PartialEq, Eq)]
pub struct SigningKey {
    pub key: Key,
    pub signer: SignerNumbers,
}

impl SigningKey {
    /// Any key, and any signer of the image's kind; if the image has none, any at all.
    pub fn choose(random: &mut Random, image: &[u8]) -> SigningKey {
        let any = random.bytes(16).try_into().expect("16 bytes");
        let key = random.pick(&[any, any, any, any, any, any, [0; 16], [0xFF; 16]]);
        let signer = match read_kind(image) {
            Ok(kind) => choose_signer_of(random, kind),
            Err(_) => choose_signer(random),
        };
        SigningKey { key, signer }
    }

    /// Puts the right signature into the image's first bytes, if there is one.
    pub fn sign(&self, image: &mut [u8]) {
        if let Ok(signature) = signature(image, &self.key, Signer::from_numbers(self.signer)) {
            put(image, 0, &signature);
        }
    }

    /// What a call is handed where this signed: mostly the same, in these numbers or others; now and then a key or a
    /// signer that differs in little, a signer of the other kind, or anything.
    pub fn vary(&self, random: &mut Random) -> SigningKey {
        let SigningKey { mut key, mut signer } = *self;
        match random.below(20) {
            0..=9 => {}
            10..=12 => signer = same_signer(random, signer),
            13 => key[random.below(16) as usize] ^= 1 << random.below(8),
            14 => signer[random.between(1, 3) as usize] ^= 1 << random.below(64),
            15 => signer = choose_signer_of(random, Signer::from_numbers(signer).kind()),
            16..=17 => signer[0] = signer[0] % SIGNER_TYPES + SIGNER_TYPES / 2,
            18 => signer = choose_signer(random),
            _ => key = random.bytes(16).try_into().expect("16 bytes"),
        }
        SigningKey { key, signer }
    }
}

/// Any signer: each type as often as another, now and then one that is taken modulo six.
pub fn choose_signer(random: &mut Random) -> SignerNumbers {
    let kind = random.below(SIGNER_TYPES);
    let (next, any) = (kind + SIGNER_TYPES, random.number());
    let kind = if random.chance(75) { kind } else { random.pick(&[next, any, any, u64::MAX]) };
    [kind, choose_id(random), choose_id(random), choose_id(random)]
}

fn choose_signer_of(random: &mut Random, kind: Kind) -> SignerNumbers {
    loop {
        let signer = choose_signer(random);
        if Signer::from_numbers(signer).kind() == kind {
            return signer;
        }
    }
}

fn choose_id(random: &mut Random) -> u64 {
    let any = random.number();
    random.pick(&[any, any, any, any & 0xFFFF_FFFF, any << 32, 0, 1, 0xFFFF_FFFF, 1 << 32, u64::MAX])
}

/// The same signer in other numbers, where its type leaves a choice.
fn same_signer(random: &mut Random, numbers: SignerNumbers) -> SignerNumbers {
    let mut same = numbers;
    same[0] = same[0] % SIGNER_TYPES + SIGNER_TYPES * random.below(1 << 60);
    for place in 1..4 {
        for bits in [random.number(), random.number() << 32] {
            let mut changed = same;
            changed[place] ^= bits;
            if Signer::from_numbers(changed) == Signer::from_numbers(numbers) {
                same = changed;
            }
        }
    }
    same
}

#[cfg(test)]
mod tests {
    use super::*;
    use crate::generate::shape::Wanted;
    use crate::generate::valid_image;
    use crate::rules::opening::open_signed;

    /// Of what calls are handed on a signed image, each answer has its share.
    #[test]
    fn signed_images_and_varied_keys() {
        let mut accepted = 0;
        let mut other_kind = 0;
        let mut other_numbers = 0;
        for seed in 0..300 {
            let random = &mut Random::new(seed);
            let mut image = valid_image(random, &Wanted::default()).image;
            let signed = SigningKey::choose(random, &image);
            signed.sign(&mut image);
            assert!(open_signed(&image, &signed.key, Signer::from_numbers(signed.signer)).is_ok(), "seed {seed}");
            let SigningKey { key, signer } = signed.vary(random);
            match open_signed(&image, &key, Signer::from_numbers(signer)) {
                Ok(_) if signer != signed.signer => other_numbers += 1,
                Ok(_) => accepted += 1,
                Err(refusal) if refusal.number() == 15 => other_kind += 1,
                Err(refusal) => assert_eq!(refusal.number(), 16, "seed {seed}"),
            }
        }
        assert!(accepted > 100 && other_numbers > 20 && other_kind > 20, "{accepted} {other_numbers} {other_kind}");
    }
}
