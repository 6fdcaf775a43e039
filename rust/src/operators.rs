//! The operators of the flag sets. Each is one call of `bitflags`.

use crate::{
    GreEncapFlags, GreIOFlags, Ip6TunnelFlags, IpVlanFlags, MacVlanFlags, RmNetFlags,
    TunnelEncapFlags,
};
use bitflags::Flags;
use core::ops::{BitAnd, BitAndAssign, BitOr, BitOrAssign, Not, Sub};

macro_rules! operators {
    ($($set:ident),*) => {$(
        /// The flags of either set.
        impl BitOr for $set {
            type Output = $set;

            fn bitor(self, other: $set) -> $set {
                Flags::union(self, other)
            }
        }

        impl BitOrAssign for $set {
            fn bitor_assign(&mut self, other: $set) {
                *self = Flags::union(*self, other);
            }
        }

        /// The flags of both sets.
        impl BitAnd for $set {
            type Output = $set;

            fn bitand(self, other: $set) -> $set {
                Flags::intersection(self, other)
            }
        }

        impl BitAndAssign for $set {
            fn bitand_assign(&mut self, other: $set) {
                *self = Flags::intersection(*self, other);
            }
        }

        /// The flags of the first set that are not in the second.
        impl Sub for $set {
            type Output = $set;

            fn sub(self, other: $set) -> $set {
                Flags::difference(self, other)
            }
        }

        /// The flags that are not in the set.
        impl Not for $set {
            type Output = $set;

            fn not(self) -> $set {
                Flags::complement(self)
            }
        }
    )*};
}

operators! {
    GreEncapFlags, GreIOFlags, Ip6TunnelFlags, IpVlanFlags, MacVlanFlags, RmNetFlags,
    TunnelEncapFlags
}
