//! How a C function is called: the one unsafe block of this crate.

/// Calls a function of [`raw`](crate::raw). An argument is a value, `in` and a slice that is read, or `out` and a slice
/// that is written; a slice is handed over as its pointer and its length.
///
/// ```text
/// call!(zopredil_inverse_wht(in input, out answer))
/// ```
macro_rules! call {
    ($name:ident($($arguments:tt)*)) => { $crate::call::call!(@ $name {} () $($arguments)*) };

    // argument by argument: what is bound, what is handed over, what is left
    (@ $name:ident {$($bound:tt)*} ($($given:tt)*) in $slice:expr $(, $($left:tt)*)?) => {
        $crate::call::call!(@ $name
            {$($bound)* let slice = &$slice[..]; let length = slice.len();}
            ($($given)* slice.as_ptr(), length,) $($($left)*)?)
    };
    (@ $name:ident {$($bound:tt)*} ($($given:tt)*) out $slice:expr $(, $($left:tt)*)?) => {
        $crate::call::call!(@ $name
            {$($bound)* let slice = &mut $slice[..]; let length = slice.len();}
            ($($given)* slice.as_mut_ptr(), length,) $($($left)*)?)
    };
    (@ $name:ident {$($bound:tt)*} ($($given:tt)*) $value:expr $(, $($left:tt)*)?) => {
        $crate::call::call!(@ $name {$($bound)* let value = $value;} ($($given)* value,) $($($left)*)?)
    };
    (@ $name:ident {$($bound:tt)*} ($($given:tt)*)) => {{
        $($bound)*
        // SAFETY: a C function asks that each pointer has as many elements behind it as its length says, and that a slice
        // which is written overlaps no other. Each pointer and its length are those of one slice. All slices are borrowed
        // above before the first is used, those that are written by `&mut`, so the compiler has refused any overlap.
        unsafe { $crate::raw::$name($($given)*) }
    }};
}

pub(crate) use call;
