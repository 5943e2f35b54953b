use separation_kernel_sys::sk_place;

/// A place in the schedule: where a Run begins, and where it ended. [`Policy::start`](crate::Policy::start) gives the first one.
///
/// A later version of the kernel keeps more in it, so it shows its numbers by functions. To store all of it, take the boundary's `sk_place` by `From`.
#[derive(Clone, Copy, PartialEq, Eq, Hash, Debug)]
pub struct Place(sk_place);

impl Place {
    /// The place that Start gives: slot 0, no tick used, count 0.
    pub const FIRST: Place = Place(sk_place::FIRST);

    /// The place in this slot with so many of its ticks used, at this count. Whether the schedule has it is seen by [`Policy::run`](crate::Policy::run); every
    /// count is a good one.
    pub const fn new(slot: u32, used: u32, count: u32) -> Place {
        Place(sk_place { slot, used, count })
    }

    /// The present slot.
    pub const fn slot(self) -> u32 {
        self.0.slot
    }

    /// The ticks used in it.
    pub const fn used(self) -> u32 {
        self.0.used
    }

    /// The ticks since Start, modulo 4,294,967,296.
    pub const fn count(self) -> u32 {
        self.0.count
    }
}

impl From<sk_place> for Place {
    fn from(place: sk_place) -> Place {
        Place(place)
    }
}

impl From<Place> for sk_place {
    fn from(place: Place) -> sk_place {
        place.0
    }
}
