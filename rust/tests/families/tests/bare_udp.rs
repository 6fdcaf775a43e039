// @generated from crates/linkinfo_families_tests/src/tests/bare_udp.rt by rust/translate/run.

//! Rows of bare UDP tunnels.

use super::rows::{
    HasExample, HoldsOthers, UNLISTED, has_marks, has_rows_and_others, is_list, is_rejected,
};
use linkinfo::layers::nla_frame::{Cause, DefaultNla};
use linkinfo::layers::numbers::EthernetProtocol;
use linkinfo::layers::tunnels::InfoBareUdp;

/// Canonical attributes, and their values as `Debug` writes them.
const ROWS: &[(&[u8], &str)] = &[
    (&[6, 0, 1, 0, 1, 2, 0, 0], "Port(258)"),
    (&[6, 0, 2, 0, 0x88, 71, 0, 0], "Ethertype(MplsUc)"),
    (&[6, 0, 3, 0, 2, 1, 0, 0], "SrcPortMin(258)"),
];

/// Canonical attributes of presence flags, and their values as `Debug` writes them.
const MARKS: &[(&[u8; 4], &str)] = &[(&[4, 0, 4, 0], "MultiprotoMode")];

impl HoldsOthers for InfoBareUdp {
    fn from_other(nla: DefaultNla) -> InfoBareUdp {
        InfoBareUdp::Other(nla)
    }
}

impl HasExample for InfoBareUdp {
    fn example() -> InfoBareUdp {
        InfoBareUdp::Ethertype(EthernetProtocol::MplsUc)
    }
}

#[test]
fn rows_of_bare_udp() {
    has_rows_and_others::<InfoBareUdp>(ROWS, UNLISTED, &[6, 0, 2, 0, 0x88, 71, 0, 0]);
    has_marks::<InfoBareUdp>(MARKS);
    let short = [5, 0, 3, 0, 7, 0, 0, 0];
    is_rejected::<InfoBareUdp>((), &short, Cause::Length);
    let data = [6, 0, 1, 0, 0x19, 0xeb, 0, 0, 6, 0, 2, 0, 0x88, 0x47, 0, 0];
    let text = "[Port(6635), Ethertype(MplsUc)]";
    is_list::<InfoBareUdp>((), &data, text);
}
