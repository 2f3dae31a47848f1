//! The archive's eighteen functions, as C declares them.

use chirpsteeple_tests::bench::Answer;
use std::marker::PhantomData;
use std::ptr::null_mut;

#[repr(C)]
#[derive(Clone, Copy, Debug, Default, PartialEq, Eq)]
pub struct TokenAnswer {
    pub code: u64,
    pub page: u64,
}

#[repr(C)]
#[derive(Clone, Copy, Debug, Default, PartialEq, Eq)]
pub struct ScanAnswer {
    pub code: u64,
    pub next: u64,
    pub first: u64,
    pub last: u64,
}

#[repr(C)]
#[derive(Clone, Copy, Debug, Default, PartialEq, Eq)]
pub struct ExportAnswer {
    pub code: u64,
    pub info: u64,
    pub errors: u64,
    pub buffers: u64,
}

#[repr(C)]
#[derive(Clone, Copy, Debug, Default, PartialEq, Eq)]
pub struct ListAnswer {
    pub code: u64,
    pub info: u64,
}

impl From<TokenAnswer> for Answer {
    fn from(TokenAnswer { code, page }: TokenAnswer) -> Answer {
        Answer { code, page, ..Answer::default() }
    }
}

impl From<ScanAnswer> for Answer {
    fn from(ScanAnswer { code, next, first, last }: ScanAnswer) -> Answer {
        Answer { code, next, first, last, ..Answer::default() }
    }
}

impl From<ExportAnswer> for Answer {
    fn from(ExportAnswer { code, info, errors, buffers }: ExportAnswer) -> Answer {
        Answer { code, info, errors, buffers, ..Answer::default() }
    }
}

impl From<ListAnswer> for Answer {
    fn from(ListAnswer { code, info }: ListAnswer) -> Answer {
        Answer { code, info, ..Answer::default() }
    }
}

/// A slice in C: a pointer and a number of bytes. It is lent for as long as it lives, so that no two of them overlap.
pub struct Slice<'a> {
    pointer: *mut u8,
    length: usize,
    lent: PhantomData<&'a mut [u8]>,
}

impl Slice<'_> {
    /// No bytes, and no pointer to them.
    pub const NULL: Slice<'static> = Slice { pointer: null_mut(), length: 0, lent: PhantomData };
}

impl<'a> From<&'a mut [u8]> for Slice<'a> {
    #[inline(always)]
    fn from(bytes: &'a mut [u8]) -> Self {
        Slice { pointer: bytes.as_mut_ptr(), length: bytes.len(), lent: PhantomData }
    }
}

/// Each function is declared, and wrapped: its slices with what it may do to their bytes, its numbers, and for DSCAN, whose list stands between its
/// numbers, the list and the last number.
macro_rules! functions {
    ($($name:ident is $symbol:ident(
        $($access:tt $slice:ident),*; $($number:ident),* $(; $list:ident; $last:ident)?
    ) -> $answer:ty;)*) => {
        extern "C" {
            $(fn $symbol(
                $($slice: *$access u8, _: usize,)* $($number: u64,)* $($list: *mut u8, _: usize, $last: u64)?
            ) -> $answer;)*
        }
        $(
            #[inline(always)]
            #[allow(clippy::too_many_arguments)]
            pub fn $name<'a>(
                $($slice: impl Into<Slice<'a>>,)* $($number: u64,)* $($list: impl Into<Slice<'a>>, $last: u64)?
            ) -> $answer {
                $(let $slice = $slice.into();)*
                $(let $list = $list.into();)?
                // SAFETY: each slice is lent to this call alone, and is as long as is said.
                unsafe {
                    $symbol(
                        $($slice.pointer, $slice.length,)* $($number,)* $($list.pointer, $list.length, $last)?
                    )
                }
            }
        )*
    };
}

functions! {
    new is chirp_new(mut session, mut table; streams) -> u64;
    write is chirp_write(const session, mut table; page, mark) -> u64;
    add is chirp_add(const session, mut table; page) -> u64;
    accept is chirp_accept(const session, mut table; page) -> u64;
    block is chirp_block(const session, mut table; page) -> u64;
    unblock is chirp_unblock(const session, mut table; page) -> u64;
    remove is chirp_remove(const session, mut table; page) -> u64;
    track is chirp_track(mut session, mut table;) -> u64;
    start is chirp_start(mut session, mut table;) -> u64;
    pause is chirp_pause(mut session, mut table;) -> u64;
    abort is chirp_abort(mut session, const table;) -> u64;
    new_epoch is chirp_new_epoch(mut session, const table;) -> u64;
    reset is chirp_reset(mut session, const table;) -> u64;
    start_token is chirp_start_token(mut session, const table;) -> TokenAnswer;
    dscan is chirp_dscan(const session, mut table; first, count; list; budget) -> ScanAnswer;
    dcheck is chirp_dcheck(mut session, mut table, mut list; budget) -> ScanAnswer;
    export is chirp_export(mut session, mut table, mut list, mut buffer; stream, resume, info, budget) -> ExportAnswer;
    restore is chirp_restore(const session, mut table, mut list; info, budget) -> ListAnswer;
}
