//! The second program: Picnic written once more, from the documents alone.
//!
//! It shares no code and no table file with the signing library. Where both
//! give the same bytes, an error would have to have been made twice.
//!
//! The rules followed are those of the scope paper ("01") as the change requests
//! ("02") mend it, of the Picnic specification 2.1 ("001") where these leave
//! them standing, and of FIPS 202.

#![forbid(unsafe_code)]
#![warn(missing_docs)]

pub mod answers;
pub mod bench;
pub mod bits;
pub mod calls;
pub mod challenge;
pub mod hashing;
pub mod hex;
pub mod keccak;
pub mod known;
pub mod known_answers;
pub mod lowmc;
pub mod noise;
pub mod picnic;
pub mod round;
pub mod sets;
pub mod sha256;
pub mod shake;
pub mod signature;
pub mod signed;
pub mod work;
