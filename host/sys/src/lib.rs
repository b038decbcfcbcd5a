//! The C interface of libdihyravo.a as the header `include/dihyravo.h` has it: declarations, and the distort call's
//! parameters by name, for every member of the workspace that calls the archive. The crate `dihyravo` wraps them in
//! safe names.

#![no_std]

/// Hands the distort call's parameters to a macro, after the words that are given. In Rust they are listed here alone.
#[doc(hidden)]
#[macro_export]
macro_rules! with_parameters {
    ([$($then:tt)*] { $($words:tt)* }) => {
        $($then)*! {
            { $($words)* }
            picture: *const u8,
            picture_length: usize,
            width: u64,
            height: u64,
            channels: u64,
            method: u64,
            arguments: *const u8,
            arguments_length: usize,
            policy: u64,
            interpolation: u64,
            background: *const u8,
            matte: *const u8,
            bestfit: u64,
            viewport: u64,
            view_width: u64,
            view_height: u64,
            view_x: i64,
            view_y: i64,
            first_row: u64,
            rows: u64,
            band: *mut u8,
            band_length: usize,
            answer: *mut u8,
        }
    };
}

/// Declares the distort call, its type, and its parameters by name.
macro_rules! distort {
    ({} $($parameter:ident: $kind:ty,)*) => {
        /// The distort call's type, so that another function can stand in its place.
        pub type Distort = unsafe extern "C" fn($($parameter: $kind),*) -> u64;

        unsafe extern "C" {
            /// 0 for accepted, else the refusal's number, which changes no byte that is lent.
            ///
            /// # Safety
            /// Each pointer is to as many bytes as are said, or 16 for background and matte, or 48 for the answer; band
            /// and answer are written, and overlap nothing else.
            pub fn dihyravo_distort($($parameter: $kind),*) -> u64;
        }

        /// The distort call's parameters, by name.
        #[derive(Clone, Copy, Debug)]
        pub struct Parameters {
            $(pub $parameter: $kind,)*
        }

        impl Parameters {
            /// Calls the distort call or what stands in its place.
            ///
            /// # Safety
            /// As for [`dihyravo_distort`].
            #[inline]
            pub unsafe fn call(self, callee: Distort) -> u64 {
                // SAFETY: the caller's promise.
                unsafe { callee($(self.$parameter),*) }
            }
        }
    };
}

with_parameters! { [distort] {} }

/// Defines a function that can stand in the distort call's place. Its body has one name for all the [`Parameters`]:
/// `stand_in! { fn name(lent) { .. } }`.
#[macro_export]
macro_rules! stand_in {
    ($($definition:tt)*) => {
        $crate::with_parameters! { [$crate::stand_in_by] { $($definition)* } }
    };
}

#[doc(hidden)]
#[macro_export]
macro_rules! stand_in_by {
    (
        { $(#[$about:meta])* fn $name:ident $(<const $which:ident: usize>)? ($lent:ident) $body:block }
        $($parameter:ident: $kind:ty,)*
    ) => {
        $(#[$about])*
        unsafe extern "C" fn $name $(<const $which: usize>)? ($($parameter: $kind),*) -> u64 {
            let $lent = $crate::Parameters { $($parameter),* };
            $body
        }
    };
}

/// A name reader's type.
pub type Reader = unsafe extern "C" fn(name: *const u8, length: usize) -> i64;

unsafe extern "C" {
    /// The code of a method's name, or -3.
    ///
    /// # Safety
    /// The pointer is to as many bytes as are said.
    pub fn dihyravo_method(name: *const u8, length: usize) -> i64;

    /// The code of a policy's name, or -3.
    ///
    /// # Safety
    /// As above.
    pub fn dihyravo_policy(name: *const u8, length: usize) -> i64;

    /// The code of an interpolation's name, or -3.
    ///
    /// # Safety
    /// As above.
    pub fn dihyravo_interpolation(name: *const u8, length: usize) -> i64;
}
