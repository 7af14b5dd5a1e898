//! Errors. If the library returns a code that the call doesn't have, this crate panics.
use crate::ffi;
use core::error::Error;
use core::fmt;

/// Defines an error: a variant for each code that a call returns, with its text.
macro_rules! error {
    (
        $(#[$about:meta])*
        $name:ident { $($(#[$when:meta])* $variant:ident = $code:ident: $text:literal,)* }
    ) => {
        $(#[$about])*
        #[non_exhaustive]
        #[derive(Clone, Copy, Debug, PartialEq, Eq)]
        pub enum $name {
            $($(#[$when])* $variant,)*
        }

        impl $name {
            pub(crate) fn of(code: u32) -> $name {
                match code {
                    $(ffi::$code => $name::$variant,)*
                    _ => no_such_answer(code),
                }
            }

            #[allow(dead_code)]
            pub(crate) fn unless_ok(code: u32) -> Result<(), $name> {
                if code == ffi::OK { Ok(()) } else { Err($name::of(code)) }
            }
        }

        impl fmt::Display for $name {
            fn fmt(&self, f: &mut fmt::Formatter<'_>) -> fmt::Result {
                f.write_str(match self {
                    $($name::$variant => $text,)*
                })
            }
        }

        impl Error for $name {}
    };
}

/// Panics because the library and this crate have different versions.
#[cold]
pub(crate) fn no_such_answer(code: u32) -> ! {
    panic!("bb_memory returned code {code}, which this call doesn't have")
}

error! {
    /// The reason why a request failed.
    AllocationError {
        /// The size is 0. Only bumps refuse it.
        SizeIsZero = SIZE_IS_ZERO: "the size is zero",
        /// The size is greater than that of the pool's buckets.
        SizeTooLarge = SIZE_TOO_LARGE: "the size is greater than a bucket's",
        /// The alignment is greater than that of the pool's buckets.
        AlignmentFailure = ALIGNMENT_FAILURE: "the alignment is greater than a bucket's",
        /// The region has no room left; in a pool, no bucket is free.
        OutOfMemory = OUT_OF_MEMORY: "no room is left in the region",
    }
}

error! {
    /// The reason why a chunk didn't grow. It is unchanged.
    AllocationGrowError {
        /// The new size isn't greater than the old one.
        GrowWouldShrink = GROW_WOULD_SHRINK: "the new size is not greater than the old one",
        /// The new alignment is greater than the old one, or than that of a pool's buckets.
        AlignmentFailure = ALIGNMENT_FAILURE: "the alignment is too great",
        /// The new size is greater than what is reserved: the region from the chunk's place on, or
        /// the bucket.
        OutOfMemory = MORE_THAN_RESERVED: "the new size is greater than what is reserved",
        /// No allocated chunk begins at the place.
        NotHeld = NOT_HELD: "the caller holds nothing at the place",
        /// The place isn't a multiple of the old alignment.
        LayoutMismatch = LAYOUT_MISMATCH: "the chunk cannot have the old layout",
    }
}

error! {
    /// The reason why a chunk didn't shrink. It is unchanged.
    AllocationShrinkError {
        /// The new size isn't smaller than the old one.
        ShrinkWouldGrow = SHRINK_WOULD_GROW: "the new size is not smaller than the old one",
        /// The new alignment is greater than the old one, or than that of a pool's buckets.
        AlignmentFailure = ALIGNMENT_FAILURE: "the alignment is too great",
        /// No allocated chunk begins at the place.
        NotHeld = NOT_HELD: "the caller holds nothing at the place",
        /// The place isn't a multiple of the old alignment, or the old size is greater than what is
        /// reserved.
        LayoutMismatch = LAYOUT_MISMATCH: "the chunk cannot have the old layout",
    }
}

error! {
    /// The reason why no chunk was freed.
    DeallocationError {
        /// No allocated chunk begins at the place; for a party, no bucket that it holds.
        NotHeld = NOT_HELD: "the caller holds nothing at the place",
    }
}

error! {
    /// The reason why an allocator or a `DetachedBucket` wasn't made.
    InitError {
        /// The region would end after the last address, a bucket would have no bytes, or there
        /// would be `u32::MAX` buckets or more, or no party.
        InvalidArgument = INVALID_ARGUMENT: "the region, the buckets or the parties are invalid",
        /// The region has no room for one bucket.
        NoBucket = NO_BUCKET: "the region has no room for one bucket",
        /// `malloc` failed.
        MallocRefused = MALLOC_REFUSED: "malloc failed",
    }
}

error! {
    /// The reason why no party joined.
    JoinError {
        /// Every party has joined. For a number: the party with this number has joined, or no party
        /// has the number.
        NoParty = NO_PARTY: "no party is left to join",
        /// `malloc` failed.
        MallocRefused = MALLOC_REFUSED: "malloc failed",
    }
}

error! {
    /// The reason why a bucket wasn't detached. Nothing changed.
    DetachError {
        /// The party holds no bucket at the place.
        NotHeld = NOT_HELD: "the caller holds nothing at the place",
        /// The length is greater than the bucket's size.
        SizeTooLarge = SIZE_TOO_LARGE: "the size is greater than a bucket's",
        /// The `DetachedBucket` has a bucket already.
        DetachedFull = DETACHED_FULL: "a bucket is in the DetachedBucket already",
    }
}

error! {
    /// The reason why a bucket wasn't attached by its number. Nothing changed.
    AttachError {
        /// The bucket isn't detached by its number, or a party other than the named one detached
        /// it.
        NotHeld = NOT_HELD: "the bucket is not detached by its number and by that party",
        /// No bucket has the number.
        NotABucket = NOT_A_BUCKET: "no bucket has the number",
    }
}

error! {
    /// The reason why a bump that threads share wasn't reset. It is unchanged.
    ResetError {
        /// A party is joined.
        PartiesJoined = PARTIES_JOINED: "a party is joined",
        /// `malloc` failed.
        MallocRefused = MALLOC_REFUSED: "malloc failed",
    }
}
