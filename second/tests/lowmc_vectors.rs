//! LowMC over the drawn tables against the encryptions that are known from
//! elsewhere, bit by bit and by words.

use second::hex::to_hex;
use second::known::{Source, KNOWN};
use second::sets::SETS;

/// Holds every known encryption of a cipher against both ways to compute it,
/// and says how many there are.
fn check_cipher(cipher: (usize, usize, usize)) -> usize {
    let mut checked = 0;
    for known in KNOWN.iter().filter(|known| known.cipher == cipher) {
        let (lowmc, tables) = (known.lowmc(), known.lowmc().tables());
        let expected = to_hex(&known.ciphertext());
        let by_bits = lowmc.encrypt(&tables, &known.key(), &known.block());
        let by_words = lowmc.encrypt_by_words(&tables, &known.key(), &known.block());
        assert_eq!(to_hex(&by_bits), expected, "{known:?}");
        assert_eq!(to_hex(&by_words), expected, "{known:?}");
        checked += 1;
    }
    checked
}

#[test]
fn sets_meet_the_published_and_the_recalled_vectors() {
    for set in &SETS {
        assert_eq!(check_cipher((set.n, set.s, set.r)), 2, "{}", set.name);
    }
}

/// The full sets, whose S-boxes cover the whole state. Two of them have an n
/// that does not divide by eight.
#[test]
fn full_sets_meet_their_vectors() {
    for cipher in [(129, 43, 4), (192, 64, 4), (255, 85, 4)] {
        assert_eq!(check_cipher(cipher), 1, "{cipher:?}");
    }
}

/// No line is passed over by the tests above.
#[test]
fn every_known_encryption_is_of_these_ciphers() {
    let of = |source| KNOWN.iter().filter(|known| known.source == source).count();
    assert_eq!(of(Source::Published), 5);
    assert_eq!(of(Source::Computed), 1);
    assert_eq!(of(Source::Recalled), 3);
}
