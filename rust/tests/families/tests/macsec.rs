// @generated from crates/linkinfo_families_tests/src/tests/macsec.rt by rust/translate/run.

//! Rows of `macsec` links.

use super::rows::{
    HasExample, HoldsOthers, UNLISTED, has_rows_and_others, is_list, is_list_of_other, keeps_other,
};
use linkinfo::layers::devices::InfoMacSec;
use linkinfo::layers::nla_frame::DefaultNla;
use linkinfo::layers::numbers::MacSecCipherId;

/// Canonical attributes, and their values as `Debug` writes them.
const ROWS: &[(&[u8], &str)] = &[
    (
        &[12, 0, 1, 0, 8, 7, 6, 5, 4, 3, 2, 1],
        "Sci(72623859790382856)",
    ),
    (&[6, 0, 2, 0, 1, 2, 0, 0], "Port(258)"),
    (&[5, 0, 3, 0, 16, 0, 0, 0], "IcvLen(16)"),
    (
        &[12, 0, 4, 0, 1, 0, 0, 1, 0, 0xc2, 0x80, 0],
        "CipherSuite(GcmAes128)",
    ),
    (
        &[12, 0, 4, 0, 2, 0, 0, 1, 0, 0xc2, 0x80, 0],
        "CipherSuite(GcmAes256)",
    ),
    (
        &[12, 0, 4, 0, 8, 7, 6, 5, 4, 3, 2, 1],
        "CipherSuite(Other(72623859790382856))",
    ),
    (&[8, 0, 5, 0, 4, 3, 2, 1], "Window(16909060)"),
    (&[5, 0, 6, 0, 3, 0, 0, 0], "EncodingSa(3)"),
    (&[5, 0, 7, 0, 1, 0, 0, 0], "Encrypt(1)"),
    (&[5, 0, 8, 0, 1, 0, 0, 0], "Protect(1)"),
    (&[5, 0, 9, 0, 1, 0, 0, 0], "IncSci(1)"),
    (&[5, 0, 10, 0, 1, 0, 0, 0], "Es(1)"),
    (&[5, 0, 11, 0, 2, 0, 0, 0], "Scb(2)"),
    (&[5, 0, 12, 0, 1, 0, 0, 0], "ReplayProtect(1)"),
    (&[5, 0, 13, 0, 2, 0, 0, 0], "Validation(Strict)"),
    (&[5, 0, 13, 0, 9, 0, 0, 0], "Validation(Other(9))"),
    (&[5, 0, 15, 0, 1, 0, 0, 0], "Offload(Phy)"),
    (&[5, 0, 15, 0, 9, 0, 0, 0], "Offload(Other(9))"),
];

/// The canonical attribute of the cipher suite GCM-AES-128.
const SUITE: &[u8] = &[12, 0, 4, 0, 1, 0, 0, 1, 0, 0xc2, 0x80, 0];

impl HoldsOthers for InfoMacSec {
    fn from_other(nla: DefaultNla) -> InfoMacSec {
        InfoMacSec::Other(nla)
    }
}

impl HasExample for InfoMacSec {
    fn example() -> InfoMacSec {
        InfoMacSec::CipherSuite(MacSecCipherId::GcmAes128)
    }
}

#[test]
fn rows_of_macsec() {
    has_rows_and_others::<InfoMacSec>(ROWS, UNLISTED, SUITE);
    is_list::<InfoMacSec>((), SUITE, "[CipherSuite(GcmAes128)]");
    // Type 14 has no row.
    keeps_other::<InfoMacSec>(&[4, 0, 14, 0], 14, &[]);
    is_list_of_other::<InfoMacSec>((), &[4, 0, 14, 0], 14, &[]);
}
