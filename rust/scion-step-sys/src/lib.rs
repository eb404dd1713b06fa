#![doc = include_str!("../README.md")]
#![no_std]
#![deny(unsafe_op_in_unsafe_fn, missing_docs)]

mod numbers;

pub use numbers::*;

use core::mem::{align_of, offset_of, size_of};

/// The version of the calls, which is also in the name of [`scion_step_version_2`].
pub const SCION_STEP_VERSION: u32 = 2;

// ---- answers

/// An answer.
#[repr(C)]
#[derive(Debug, Clone, Copy, PartialEq, Eq)]
pub struct ScionReply {
    /// For a refusal the scope document's number, below 100; else 100 or above. Each has a name that starts with `SCION_`.
    pub number: u16,
    /// How many values there are.
    pub count: u16,
    /// The values in the order that stands beside the number, and 0 behind them.
    pub values: [u64; 4],
    /// The type of the SCMP error that a refusal is answered with, 4 or 5, or 0 for none.
    pub scmp_type: u8,
    /// Its code.
    pub scmp_code: u8,
    /// Its pointer (type 4) or the interface (type 5).
    pub scmp_pointer: u32,
}

// As the archive lays it out.
const _: () = {
    assert!(size_of::<ScionReply>() == 48 && align_of::<ScionReply>() == 8);
    assert!(offset_of!(ScionReply, number) == 0);
    assert!(offset_of!(ScionReply, count) == 2);
    assert!(offset_of!(ScionReply, values) == 8);
    assert!(offset_of!(ScionReply, scmp_type) == 40);
    assert!(offset_of!(ScionReply, scmp_code) == 41);
    assert!(offset_of!(ScionReply, scmp_pointer) == 44);
};

// ---- calls

/// What the whole step and its two halves share: [`scion_handle_standard_path`] says what the arguments are.
pub type ScionStep = unsafe extern "C" fn(
    ids: *const u16,
    ids_length: usize,
    states: *const u8,
    states_length: usize,
    path: *mut u8,
    path_length: usize,
    interface_id: u16,
    time: u32,
    forwarding_key: *const [u8; 16],
    ignore_macs: bool,
) -> ScionReply;

/// The same in an edition: [`scion_handle_standard_path_in_edition`] says which.
pub type ScionStepInEdition = unsafe extern "C" fn(
    is_second: bool,
    ids: *const u16,
    ids_length: usize,
    states: *const u8,
    states_length: usize,
    path: *mut u8,
    path_length: usize,
    interface_id: u16,
    time: u32,
    forwarding_key: *const [u8; 16],
    ignore_macs: bool,
) -> ScionReply;

/// The version's function by its address.
static VERSION: unsafe extern "C" fn() -> u32 = archive::scion_step_version_2;

/// Makes the program refer to the version's symbol, so that it does not link with an archive of another version. The read
/// is volatile, because `#[used]` on the static would leave a linker free to drop it.
#[inline]
fn need_version() {
    // SAFETY: a static is there to be read.
    unsafe { core::ptr::read_volatile(&VERSION) };
}

/// Declares each call, and around it a function of the same name that needs the version.
macro_rules! calls {
    ($($(#[$meta:meta])* fn $name:ident($($argument:ident: $type:ty),* $(,)?) $(-> $reply:ty)?;)*) => {
        mod archive {
            use super::ScionReply;
            extern "C" {
                $(pub(super) fn $name($($argument: $type),*) $(-> $reply)?;)*
            }
        }
        $(
            $(#[$meta])*
            ///
            /// # Safety
            ///
            /// The pointers are as [the crate](crate#safety) asks for.
            #[allow(clippy::too_many_arguments)]
            #[inline]
            pub unsafe extern "C" fn $name($($argument: $type),*) $(-> $reply)? {
                need_version();
                // SAFETY: the caller's pointers, handed on.
                unsafe { archive::$name($($argument),*) }
            }
        )*
    };
}

calls! {
    /// The version of the archive, 2.
    fn scion_step_version_2() -> u32;

    /// The whole step, on `path` in place.
    ///
    /// `ids` are the AS's interface numbers, ascending; `states` a byte for each: the link (0 core, 1 parent, 2 child,
    /// 3 peer), plus 4 if it is up.
    fn scion_handle_standard_path(
        ids: *const u16,
        ids_length: usize,
        states: *const u8,
        states_length: usize,
        path: *mut u8,
        path_length: usize,
        ingress_interface_id: u16,
        time: u32,
        as_forwarding_key: *const [u8; 16],
        ignore_macs: bool,
    ) -> ScionReply;

    /// The ingress half alone.
    fn scion_standard_path_ingress(
        ids: *const u16,
        ids_length: usize,
        states: *const u8,
        states_length: usize,
        path: *mut u8,
        path_length: usize,
        ingress_interface_id: u16,
        time: u32,
        forwarding_key: *const [u8; 16],
        ignore_macs: bool,
    ) -> ScionReply;

    /// The egress half alone, leaving by `egress_if_id`.
    fn scion_standard_path_egress(
        ids: *const u16,
        ids_length: usize,
        states: *const u8,
        states_length: usize,
        path: *mut u8,
        path_length: usize,
        egress_if_id: u16,
        time: u32,
        forwarding_key: *const [u8; 16],
        ignore_macs: bool,
    ) -> ScionReply;

    /// Turns the path around, in place.
    fn scion_try_reverse(path: *mut u8, path_length: usize) -> ScionReply;

    /// When the path expires.
    fn scion_expiration(path: *const u8, path_length: usize) -> ScionReply;

    /// The segment that a hop lies in, or a refusal by 2, 3, 4, or by 5 with the index if there is no such hop.
    fn scion_calculate_segment_index(path: *const u8, path_length: usize, hop_idx: u8) -> ScionReply;

    /// Whether the path travels over the itinerary's stations whatever their clocks read from `earliest` to `latest`:
    /// [`SCION_PASSED`], [`SCION_NOT_PASSED`], or a refusal by 2, 3, 4, 23, 24 or 25.
    fn scion_check_journey(
        path: *const u8,
        path_length: usize,
        itinerary: *const u8,
        itinerary_length: usize,
        earliest: u32,
        latest: u32,
    ) -> ScionReply;

    /// The whole step in an edition: false is the first, in which P has no meaning, true the second, which has the draft's
    /// rule for peering paths. In the first it is [`scion_handle_standard_path`].
    fn scion_handle_standard_path_in_edition(
        is_second: bool,
        ids: *const u16,
        ids_length: usize,
        states: *const u8,
        states_length: usize,
        path: *mut u8,
        path_length: usize,
        ingress_interface_id: u16,
        time: u32,
        as_forwarding_key: *const [u8; 16],
        ignore_macs: bool,
    ) -> ScionReply;

    /// The ingress half alone, in an edition.
    fn scion_standard_path_ingress_in_edition(
        is_second: bool,
        ids: *const u16,
        ids_length: usize,
        states: *const u8,
        states_length: usize,
        path: *mut u8,
        path_length: usize,
        ingress_interface_id: u16,
        time: u32,
        forwarding_key: *const [u8; 16],
        ignore_macs: bool,
    ) -> ScionReply;

    /// The egress half alone, in an edition.
    fn scion_standard_path_egress_in_edition(
        is_second: bool,
        ids: *const u16,
        ids_length: usize,
        states: *const u8,
        states_length: usize,
        path: *mut u8,
        path_length: usize,
        egress_if_id: u16,
        time: u32,
        forwarding_key: *const [u8; 16],
        ignore_macs: bool,
    ) -> ScionReply;

    /// The journey check in an edition. In the second a peering path has a station for each of its hops.
    fn scion_check_journey_in_edition(
        is_second: bool,
        path: *const u8,
        path_length: usize,
        itinerary: *const u8,
        itinerary_length: usize,
        earliest: u32,
        latest: u32,
    ) -> ScionReply;

    /// AES-CMAC (RFC 4493) of a message of any length.
    fn scion_aes_cmac(key: *const [u8; 16], message: *const u8, message_length: usize, mac: *mut [u8; 16]);

    /// The hop MAC: the first six bytes of the AES-CMAC of SCION's MAC input.
    fn scion_calculate_hop_mac(
        segment_id: u16,
        timestamp: u32,
        exp_time: u8,
        cons_ingress: u16,
        cons_egress: u16,
        key: *const [u8; 16],
        mac: *mut [u8; 6],
    );
}
