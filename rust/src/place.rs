//! What placing and looking up answer, and their bytes.

/// Where an address stands, and the parity of its stripe.
#[derive(Clone, Copy, Debug, Default, PartialEq, Eq, Hash)]
pub struct Place {
    /// The disk of the data unit.
    pub disk: u64,
    /// Its offset on that disk, in units.
    pub offset: u64,
    /// The disk of the stripe's parity unit.
    pub parity_disk: u64,
    /// Its offset on that disk, in units.
    pub parity_offset: u64,
}

/// What stands at a place.
#[derive(Clone, Copy, Debug, PartialEq, Eq, Hash)]
pub struct Found {
    /// The stripe that the unit belongs to.
    pub stripe: u64,
    /// What the unit is in it.
    pub unit: Unit,
}

/// A unit of a stripe.
#[derive(Clone, Copy, Debug, PartialEq, Eq, Hash)]
pub enum Unit {
    /// The data unit of this address.
    Data(u64),
    /// The parity.
    Parity,
}

impl Place {
    pub(crate) fn of(bytes: &[u8]) -> Place {
        Place {
            disk: number(bytes, 0),
            offset: number(bytes, 1),
            parity_disk: number(bytes, 2),
            parity_offset: number(bytes, 3),
        }
    }
}

impl Found {
    pub(crate) fn of(bytes: &[u8]) -> Found {
        let unit = match number(bytes, 2) {
            0 => Unit::Data(number(bytes, 1)),
            _ => Unit::Parity,
        };
        let stripe = number(bytes, 0);
        Found { stripe, unit }
    }
}

/// The number at this place of a row of numbers of 4 bytes, most significant first.
pub(crate) fn number(bytes: &[u8], place: usize) -> u64 {
    let mut own = [0; 4];
    own.copy_from_slice(&bytes[4 * place..][..4]);
    u64::from(u32::from_be_bytes(own))
}
