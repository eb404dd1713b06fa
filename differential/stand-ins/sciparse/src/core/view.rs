//! Stands for sciparse/src/core/view.rs: views over bytes, and the macros that make their field functions.
//!
//! Assumes that a view covers as many bytes as its layout asks for, and that the bytes behind them are handed back; and
//! that a field function reads or writes the field's range of the view's bytes, no more. The required methods are those
//! of the impls in the published files.

use crate::core::layout::LayoutParseError;

/// Why bytes are not a view.
#[derive(Debug, Clone, Copy, PartialEq, Eq)]
pub enum ViewConversionError {
    BufferTooSmall {
        at: &'static str,
        required: usize,
        actual: usize,
    },
    Other(&'static str),
}

impl From<LayoutParseError> for ViewConversionError {
    fn from(error: LayoutParseError) -> Self {
        match error {
            LayoutParseError::BufferTooSmall {
                at,
                required,
                actual,
            } => Self::BufferTooSmall {
                at,
                required,
                actual,
            },
            _ => Self::Other("layout"),
        }
    }
}

/// Bytes looked at as a header or a field.
pub trait View {
    fn has_required_size(buf: &[u8]) -> Result<usize, ViewConversionError>;

    /// # Safety
    /// The bytes have the size required.
    unsafe fn from_slice_unchecked(buf: &[u8]) -> &Self;

    /// # Safety
    /// The bytes have the size required.
    unsafe fn from_mut_slice_unchecked(buf: &mut [u8]) -> &mut Self;

    /// # Safety
    /// The bytes have the size required.
    unsafe fn from_boxed_unchecked(buf: Box<[u8]>) -> Box<Self>;

    /// # Safety
    /// What is written keeps the size required.
    unsafe fn as_slice_mut(&mut self) -> &mut [u8];

    fn as_slice_boxed(self: Box<Self>) -> Box<[u8]>;

    fn as_slice(&self) -> &[u8];

    #[inline]
    fn try_from_slice(buf: &[u8]) -> Result<(&Self, &[u8]), ViewConversionError> {
        let (view, rest) = buf.split_at(Self::has_required_size(buf)?);
        // SAFETY: just asked
        Ok((unsafe { Self::from_slice_unchecked(view) }, rest))
    }

    #[inline]
    fn try_from_mut_slice(buf: &mut [u8]) -> Result<(&mut Self, &mut [u8]), ViewConversionError> {
        let (view, rest) = buf.split_at_mut(Self::has_required_size(buf)?);
        // SAFETY: just asked
        Ok((unsafe { Self::from_mut_slice_unchecked(view) }, rest))
    }
}

pub mod macros {
    /// `View` for a type that is transparent over `[u8]`, its size by a layout.
    macro_rules! gen_view_impl {
        ($view:ty, $layout:ty) => {
            impl $crate::core::view::View for $view {
                #[inline]
                fn has_required_size(
                    buf: &[u8],
                ) -> Result<usize, $crate::core::view::ViewConversionError> {
                    let layout = <$layout>::try_from_slice(buf)?;
                    Ok($crate::core::layout::Layout::size_bytes(&layout))
                }

                #[inline]
                unsafe fn from_slice_unchecked(buf: &[u8]) -> &Self {
                    // SAFETY: transparent over [u8]
                    unsafe { &*(buf as *const [u8] as *const Self) }
                }

                #[inline]
                unsafe fn from_mut_slice_unchecked(buf: &mut [u8]) -> &mut Self {
                    // SAFETY: transparent over [u8]
                    unsafe { &mut *(buf as *mut [u8] as *mut Self) }
                }

                #[inline]
                unsafe fn from_boxed_unchecked(buf: Box<[u8]>) -> Box<Self> {
                    // SAFETY: transparent over [u8]
                    unsafe { Box::from_raw(Box::into_raw(buf) as *mut Self) }
                }

                #[inline]
                unsafe fn as_slice_mut(&mut self) -> &mut [u8] {
                    &mut self.0
                }

                #[inline]
                fn as_slice_boxed(self: Box<Self>) -> Box<[u8]> {
                    // SAFETY: transparent over [u8]
                    unsafe { Box::from_raw(Box::into_raw(self) as *mut [u8]) }
                }

                #[inline]
                fn as_slice(&self) -> &[u8] {
                    &self.0
                }
            }
        };
    }

    macro_rules! gen_field_read {
        ($name:ident, $range:expr, $number:ty) => {
            #[inline]
            pub fn $name(&self) -> $number {
                // SAFETY: the view's size was asked when it was made
                unsafe {
                    $crate::core::read::unchecked_bit_range_be_read::<$number>(&self.0, $range)
                }
            }
        };
    }

    macro_rules! gen_field_write {
        ($name:ident, $range:expr, $number:ty) => {
            #[inline]
            pub fn $name(&mut self, value: $number) {
                // SAFETY: the view's size was asked when it was made
                unsafe {
                    $crate::core::write::unchecked_bit_range_be_write::<$number>(
                        &mut self.0,
                        $range,
                        value,
                    )
                }
            }
        };
    }

    /// As `gen_field_write!`, for a field on which the view's size depends.
    macro_rules! gen_unsafe_field_write {
        ($name:ident, $range:expr, $number:ty) => {
            /// # Safety
            /// The view's size stays as it is.
            #[inline]
            pub unsafe fn $name(&mut self, value: $number) {
                // SAFETY: the view's size was asked when it was made
                unsafe {
                    $crate::core::write::unchecked_bit_range_be_write::<$number>(
                        &mut self.0,
                        $range,
                        value,
                    )
                }
            }
        };
    }

    pub(crate) use {gen_field_read, gen_field_write, gen_unsafe_field_write, gen_view_impl};
}
