//! LowMC encryptions whose ciphertexts are known from elsewhere.

use crate::hex::from_hex;
use crate::lowmc::Lowmc;

/// How a ciphertext is known.
#[derive(Clone, Copy, Debug, PartialEq, Eq)]
pub enum Source {
    /// It was published.
    Published,
    /// It was computed elsewhere and has not been seen published.
    Computed,
    /// It is recalled from the reference implementation's own tests, of which
    /// no copy is at hand.
    Recalled,
}

/// An encryption over the drawn tables.
#[derive(Clone, Copy, Debug, PartialEq, Eq)]
pub struct Known {
    /// How it is known.
    pub source: Source,
    /// n, s and r of the cipher.
    pub cipher: (usize, usize, usize),
    /// The first bytes of the key and of the block in hex; the others are
    /// zero.
    key: &'static str,
    block: &'static str,
    ciphertext: &'static str,
}

impl Known {
    /// The cipher.
    pub fn lowmc(&self) -> Lowmc {
        let (n, s, r) = self.cipher;
        Lowmc::new(n, s, r).expect("the numbers suit a cipher")
    }

    /// The key.
    pub fn key(&self) -> Vec<u8> {
        self.filled(self.key)
    }

    /// The block that is encrypted.
    pub fn block(&self) -> Vec<u8> {
        self.filled(self.block)
    }

    /// What it is encrypted to.
    pub fn ciphertext(&self) -> Vec<u8> {
        from_hex(self.ciphertext).expect("the ciphertext is hex")
    }

    fn filled(&self, start: &str) -> Vec<u8> {
        let mut bytes = from_hex(start).expect("the start is hex");
        bytes.resize(self.lowmc().width(), 0);
        bytes
    }
}

/// The encryption that is known of every cipher.
const fn usual(source: Source, cipher: (usize, usize, usize), ciphertext: &'static str) -> Known {
    Known {
        source,
        cipher,
        key: "80",
        block: "ABFF",
        ciphertext,
    }
}

/// All that are known. The usual key reads column 0 of the key matrices and no
/// other; the keys of the recalled ones have more ones. In that of 256 bits,
/// which text is the key and which the block was found by trying.
pub const KNOWN: [Known; 9] = [
    usual(
        Source::Published,
        (128, 10, 20),
        "0E30720B9F64D5C2A7771C8C238D8F70",
    ),
    usual(
        Source::Published,
        (192, 10, 30),
        "A85B8244344A2E1B10A17BAB043073F6BB649AE6AF659F6F",
    ),
    usual(
        Source::Published,
        (256, 10, 38),
        "B8F20A888A0A9EC4E495F1FB439ABDDE18C1D3D29CF20DF4B10A567AA02C7267",
    ),
    usual(
        Source::Published,
        (129, 43, 4),
        "2FD7D5425EE35E667C972F12FB153E9D80",
    ),
    usual(
        Source::Computed,
        (192, 64, 4),
        "F8F7A225DE77123129107A20F5543AFA7833076653BA2B29",
    ),
    usual(
        Source::Published,
        (255, 85, 4),
        "D4721D846DD14DBA3A2C41501C02DA282ECAFD72DF77992F3967EFD6E8F3F356",
    ),
    Known {
        source: Source::Recalled,
        cipher: (128, 10, 20),
        key: "B5DF537B",
        block: "F77DB57B",
        ciphertext: "0E5961E9992153B13245AF243DD7DDC0",
    },
    Known {
        source: Source::Recalled,
        cipher: (192, 10, 30),
        key: "B5DF537B",
        block: "F77DB57B",
        ciphertext: "210BBC4A434B32DB1E85AE7A27FEE9E41582FAC21D035AA1",
    },
    Known {
        source: Source::Recalled,
        cipher: (256, 10, 38),
        key: "F77DB57B",
        block: "B5DF537B",
        ciphertext: "EEECCE6A584A93306DAEA07519B47AD6402C11DD942AA3166541444977A214C5",
    },
];
