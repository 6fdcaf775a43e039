// @generated from crates/linkinfo_payloads/src/records.rt by rust/translate/run.

// Written by tables/generate from tables/records.
//! Records: payloads with fields at fixed places.

use crate::layers::nla_frame::{DecodeError, ExactEq, Family, HeaderCount};
use crate::layers::payloads::exact::{
    ExactPayload, exact_check, exact_difference, exact_error, exact_len, exact_read, exact_same,
    exact_unmet, exact_write,
};
use crate::layers::payloads::fixed::{BigEndian, big_endian};
use crate::layers::payloads::record::Record;
use crate::layers::table::{Difference, LinkPayload, PlacedNla, Unmet};

/// The identifier of a bridge (`struct ifla_bridge_id`), eight bytes.
#[derive(Clone, Copy, Debug, PartialEq, Eq, Hash, PartialOrd, Ord)]
pub struct BridgeId {
    /// The priority, big-endian.
    pub priority: u16,
    /// The hardware address.
    pub address: [u8; 6],
}

impl ExactEq for BridgeId {}

impl Record for BridgeId {
    type Fields = (BigEndian, [u8; 6]);

    const LEN: usize = 8;

    fn from_fields(fields: Self::Fields) -> BridgeId {
        let (priority, address) = fields;
        BridgeId {
            priority: priority.number,
            address,
        }
    }

    fn to_fields(&self) -> Self::Fields {
        (big_endian(self.priority), self.address)
    }
}

/// A payload of any other length is rejected with the cause `Length`.
impl LinkPayload for BridgeId {
    fn read(
        payload: &[u8],
        family: Family,
        kind: u16,
        count: &mut HeaderCount,
    ) -> Result<BridgeId, DecodeError> {
        exact_read(payload, family, kind, count)
    }

    fn check(
        payload: &[u8],
        family: Family,
        kind: u16,
        count: &mut HeaderCount,
    ) -> Result<(), DecodeError> {
        exact_check::<BridgeId>(payload, family, kind, count)
    }

    fn same(a: &[u8], b: &[u8], count: &mut HeaderCount) -> bool {
        exact_same(a, b, count)
    }

    fn fit_len(&self) -> Option<usize> {
        self.fit_payload()
    }

    fn emit(&self, buffer: &mut [u8]) -> usize {
        self.to_payload(buffer)
    }

    fn canonical_len(payload: &[u8]) -> Option<usize> {
        exact_len::<BridgeId>(payload)
    }

    fn write_canonical(payload: &[u8], buffer: &mut [u8]) -> usize {
        exact_write::<BridgeId>(payload, buffer)
    }

    fn error_offset(payload: &[u8]) -> Option<usize> {
        exact_error::<BridgeId>(payload)
    }

    fn difference(family: Family, a: &PlacedNla<'_>, b: &PlacedNla<'_>) -> Option<Difference> {
        exact_difference(family, a, b)
    }

    fn unmet(
        family: Family,
        have: &PlacedNla<'_>,
        want: &PlacedNla<'_>,
        from: usize,
    ) -> Option<Unmet> {
        exact_unmet(family, have, want, from)
    }
}

/// The error counters of a CAN bus (`struct can_berr_counter`), four bytes.
#[derive(Clone, Copy, Debug, PartialEq, Eq, Hash, PartialOrd, Ord)]
pub struct CanBerrCounter {
    /// The number of errors in transmission, little-endian.
    pub txerr: u16,
    /// The number of errors in reception, little-endian.
    pub rxerr: u16,
}

impl ExactEq for CanBerrCounter {}

impl Record for CanBerrCounter {
    type Fields = (u16, u16);

    const LEN: usize = 4;

    fn from_fields(fields: Self::Fields) -> CanBerrCounter {
        let (txerr, rxerr) = fields;
        CanBerrCounter { txerr, rxerr }
    }

    fn to_fields(&self) -> Self::Fields {
        (self.txerr, self.rxerr)
    }
}

/// A payload of any other length is rejected with the cause `Length`.
impl LinkPayload for CanBerrCounter {
    fn read(
        payload: &[u8],
        family: Family,
        kind: u16,
        count: &mut HeaderCount,
    ) -> Result<CanBerrCounter, DecodeError> {
        exact_read(payload, family, kind, count)
    }

    fn check(
        payload: &[u8],
        family: Family,
        kind: u16,
        count: &mut HeaderCount,
    ) -> Result<(), DecodeError> {
        exact_check::<CanBerrCounter>(payload, family, kind, count)
    }

    fn same(a: &[u8], b: &[u8], count: &mut HeaderCount) -> bool {
        exact_same(a, b, count)
    }

    fn fit_len(&self) -> Option<usize> {
        self.fit_payload()
    }

    fn emit(&self, buffer: &mut [u8]) -> usize {
        self.to_payload(buffer)
    }

    fn canonical_len(payload: &[u8]) -> Option<usize> {
        exact_len::<CanBerrCounter>(payload)
    }

    fn write_canonical(payload: &[u8], buffer: &mut [u8]) -> usize {
        exact_write::<CanBerrCounter>(payload, buffer)
    }

    fn error_offset(payload: &[u8]) -> Option<usize> {
        exact_error::<CanBerrCounter>(payload)
    }

    fn difference(family: Family, a: &PlacedNla<'_>, b: &PlacedNla<'_>) -> Option<Difference> {
        exact_difference(family, a, b)
    }

    fn unmet(
        family: Family,
        have: &PlacedNla<'_>,
        want: &PlacedNla<'_>,
        from: usize,
    ) -> Option<Unmet> {
        exact_unmet(family, have, want, from)
    }
}

/// The timing of bits on a CAN bus (`struct can_bittiming`), 32 bytes. A time quantum is the unit
/// of the lengths of segments.
#[derive(Clone, Copy, Debug, PartialEq, Eq, Hash, PartialOrd, Ord)]
pub struct CanBitTiming {
    /// The bit rate, in bits per second, little-endian.
    pub bitrate: u32,
    /// The sample point, in tenths of a percent, little-endian.
    pub sample_point: u32,
    /// The time quantum, in nanoseconds, little-endian.
    pub tq: u32,
    /// The length of the propagation segment, in time quanta, little-endian.
    pub prop_seg: u32,
    /// The length of the first phase buffer segment, in time quanta, little-endian.
    pub phase_seg1: u32,
    /// The length of the second phase buffer segment, in time quanta, little-endian.
    pub phase_seg2: u32,
    /// The synchronization jump width, in time quanta, little-endian.
    pub sjw: u32,
    /// The prescaler of the bit rate, little-endian.
    pub brp: u32,
}

impl ExactEq for CanBitTiming {}

impl Record for CanBitTiming {
    type Fields = (((u32, u32), (u32, u32)), ((u32, u32), (u32, u32)));

    const LEN: usize = 32;

    fn from_fields(fields: Self::Fields) -> CanBitTiming {
        let (((bitrate, sample_point), (tq, prop_seg)), ((phase_seg1, phase_seg2), (sjw, brp))) =
            fields;
        CanBitTiming {
            bitrate,
            sample_point,
            tq,
            prop_seg,
            phase_seg1,
            phase_seg2,
            sjw,
            brp,
        }
    }

    fn to_fields(&self) -> Self::Fields {
        (
            ((self.bitrate, self.sample_point), (self.tq, self.prop_seg)),
            ((self.phase_seg1, self.phase_seg2), (self.sjw, self.brp)),
        )
    }
}

/// A payload of any other length is rejected with the cause `Length`.
impl LinkPayload for CanBitTiming {
    fn read(
        payload: &[u8],
        family: Family,
        kind: u16,
        count: &mut HeaderCount,
    ) -> Result<CanBitTiming, DecodeError> {
        exact_read(payload, family, kind, count)
    }

    fn check(
        payload: &[u8],
        family: Family,
        kind: u16,
        count: &mut HeaderCount,
    ) -> Result<(), DecodeError> {
        exact_check::<CanBitTiming>(payload, family, kind, count)
    }

    fn same(a: &[u8], b: &[u8], count: &mut HeaderCount) -> bool {
        exact_same(a, b, count)
    }

    fn fit_len(&self) -> Option<usize> {
        self.fit_payload()
    }

    fn emit(&self, buffer: &mut [u8]) -> usize {
        self.to_payload(buffer)
    }

    fn canonical_len(payload: &[u8]) -> Option<usize> {
        exact_len::<CanBitTiming>(payload)
    }

    fn write_canonical(payload: &[u8], buffer: &mut [u8]) -> usize {
        exact_write::<CanBitTiming>(payload, buffer)
    }

    fn error_offset(payload: &[u8]) -> Option<usize> {
        exact_error::<CanBitTiming>(payload)
    }

    fn difference(family: Family, a: &PlacedNla<'_>, b: &PlacedNla<'_>) -> Option<Difference> {
        exact_difference(family, a, b)
    }

    fn unmet(
        family: Family,
        have: &PlacedNla<'_>,
        want: &PlacedNla<'_>,
        from: usize,
    ) -> Option<Unmet> {
        exact_unmet(family, have, want, from)
    }
}

/// The limits of the timing of bits (`struct can_bittiming_const`), 48 bytes.
#[derive(Clone, Copy, Debug, PartialEq, Eq, Hash, PartialOrd, Ord)]
pub struct CanBitTimingConst {
    /// The name of the controller, which ends at the first zero byte.
    pub name: [u8; 16],
    /// The least length of the segment before the sample, little-endian.
    pub tseg1_min: u32,
    /// The greatest length of that segment, little-endian.
    pub tseg1_max: u32,
    /// The least length of the segment after it, little-endian.
    pub tseg2_min: u32,
    /// The greatest length of that segment, little-endian.
    pub tseg2_max: u32,
    /// The greatest synchronization jump width, little-endian.
    pub sjw_max: u32,
    /// The least prescaler, little-endian.
    pub brp_min: u32,
    /// The greatest prescaler, little-endian.
    pub brp_max: u32,
    /// The step between prescalers, little-endian.
    pub brp_inc: u32,
}

impl ExactEq for CanBitTimingConst {}

impl Record for CanBitTimingConst {
    type Fields = (
        [u8; 16],
        (((u32, u32), (u32, u32)), ((u32, u32), (u32, u32))),
    );

    const LEN: usize = 48;

    fn from_fields(fields: Self::Fields) -> CanBitTimingConst {
        let (
            name,
            (
                ((tseg1_min, tseg1_max), (tseg2_min, tseg2_max)),
                ((sjw_max, brp_min), (brp_max, brp_inc)),
            ),
        ) = fields;
        CanBitTimingConst {
            name,
            tseg1_min,
            tseg1_max,
            tseg2_min,
            tseg2_max,
            sjw_max,
            brp_min,
            brp_max,
            brp_inc,
        }
    }

    fn to_fields(&self) -> Self::Fields {
        (
            self.name,
            (
                (
                    (self.tseg1_min, self.tseg1_max),
                    (self.tseg2_min, self.tseg2_max),
                ),
                ((self.sjw_max, self.brp_min), (self.brp_max, self.brp_inc)),
            ),
        )
    }
}

/// A payload of any other length is rejected with the cause `Length`.
impl LinkPayload for CanBitTimingConst {
    fn read(
        payload: &[u8],
        family: Family,
        kind: u16,
        count: &mut HeaderCount,
    ) -> Result<CanBitTimingConst, DecodeError> {
        exact_read(payload, family, kind, count)
    }

    fn check(
        payload: &[u8],
        family: Family,
        kind: u16,
        count: &mut HeaderCount,
    ) -> Result<(), DecodeError> {
        exact_check::<CanBitTimingConst>(payload, family, kind, count)
    }

    fn same(a: &[u8], b: &[u8], count: &mut HeaderCount) -> bool {
        exact_same(a, b, count)
    }

    fn fit_len(&self) -> Option<usize> {
        self.fit_payload()
    }

    fn emit(&self, buffer: &mut [u8]) -> usize {
        self.to_payload(buffer)
    }

    fn canonical_len(payload: &[u8]) -> Option<usize> {
        exact_len::<CanBitTimingConst>(payload)
    }

    fn write_canonical(payload: &[u8], buffer: &mut [u8]) -> usize {
        exact_write::<CanBitTimingConst>(payload, buffer)
    }

    fn error_offset(payload: &[u8]) -> Option<usize> {
        exact_error::<CanBitTimingConst>(payload)
    }

    fn difference(family: Family, a: &PlacedNla<'_>, b: &PlacedNla<'_>) -> Option<Difference> {
        exact_difference(family, a, b)
    }

    fn unmet(
        family: Family,
        have: &PlacedNla<'_>,
        want: &PlacedNla<'_>,
        from: usize,
    ) -> Option<Unmet> {
        exact_unmet(family, have, want, from)
    }
}
