//! The calls of `AddressBits`, for each family.

pub(crate) mod v4 {
    use crate::addr::v4::Ipv4Addr;
    use crate::arithmetic::halves::Halves;
    use crate::arithmetic;
    use crate::num::NumberOfAddresses;

    #[inline]
    pub(crate) const fn first_in(this: Ipv4Addr, len: u8) -> Ipv4Addr {
        Ipv4Addr::from_bits(arithmetic::first_number(this.to_bits(), len))
    }

    #[inline]
    pub(crate) const fn last_in(this: Ipv4Addr, len: u8) -> Ipv4Addr {
        Ipv4Addr::from_bits(arithmetic::last_number(this.to_bits(), len))
    }

    #[inline]
    pub(crate) const fn mask_of(len: u8) -> Ipv4Addr {
        Ipv4Addr::from_bits(u32::MAX - arithmetic::host_mask(len))
    }

    #[inline]
    pub(crate) const fn is_first_in(this: Ipv4Addr, len: u8) -> bool {
        arithmetic::host_part(this.to_bits(), len) == 0
    }

    #[inline]
    pub(crate) const fn shares(this: Ipv4Addr, other: Ipv4Addr, len: u8) -> bool {
        arithmetic::same_first_bits(this.to_bits(), other.to_bits(), len)
    }

    #[inline]
    pub(crate) const fn step_up(this: Ipv4Addr, len: u8, step: u128) -> (Ipv4Addr, bool) {
        let (stepped, wraps) = arithmetic::step_up(this.to_bits(), len, step);
        (Ipv4Addr::from_bits(stepped), wraps)
    }

    #[inline]
    pub(crate) const fn step_down(this: Ipv4Addr, len: u8, step: u128) -> (Ipv4Addr, bool) {
        let (stepped, wraps) = arithmetic::step_down(this.to_bits(), len, step);
        (Ipv4Addr::from_bits(stepped), wraps)
    }

    #[inline]
    pub(crate) const fn count_to(this: Ipv4Addr, last: Ipv4Addr) -> NumberOfAddresses {
        NumberOfAddresses::between(
            Halves::new(0, ((this.to_bits()) as u64)),
            Halves::new(0, ((last.to_bits()) as u64)),
        )
    }
}

pub(crate) mod v6 {
    use crate::addr::v6::{Ipv6Addr, from_halves, halves};
    use crate::arithmetic::halves::Halves;
    use crate::arithmetic;
    use crate::num::NumberOfAddresses;

    #[inline]
    pub(crate) const fn first_in(this: Ipv6Addr, len: u8) -> Ipv6Addr {
        from_halves(halves(this).first_number(len))
    }

    #[inline]
    pub(crate) const fn last_in(this: Ipv6Addr, len: u8) -> Ipv6Addr {
        from_halves(halves(this).last_number(len))
    }

    #[inline]
    pub(crate) const fn mask_of(len: u8) -> Ipv6Addr {
        from_halves(Halves::network_mask(len))
    }

    #[inline]
    pub(crate) const fn is_first_in(this: Ipv6Addr, len: u8) -> bool {
        halves(this).host_part(len).is_zero()
    }

    #[inline]
    pub(crate) const fn shares(this: Ipv6Addr, other: Ipv6Addr, len: u8) -> bool {
        halves(this).same_first_bits(halves(other), len)
    }

    #[inline]
    pub(crate) const fn step_up(this: Ipv6Addr, len: u8, step: u128) -> (Ipv6Addr, bool) {
        let (stepped, wraps) = halves(this).step_up(len, step);
        (from_halves(stepped), wraps)
    }

    #[inline]
    pub(crate) const fn step_down(this: Ipv6Addr, len: u8, step: u128) -> (Ipv6Addr, bool) {
        let (stepped, wraps) = halves(this).step_down(len, step);
        (from_halves(stepped), wraps)
    }

    #[inline]
    pub(crate) const fn count_to(this: Ipv6Addr, last: Ipv6Addr) -> NumberOfAddresses {
        NumberOfAddresses::between(halves(this), halves(last))
    }
}
