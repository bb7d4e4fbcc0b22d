//! Questions put to one sheet (document 02, request 3): which answers or which refusal is due, and what is tried on the call.
//!
//! A question is met by all assignments of the sheet or it is not, and that is decided on the question as it is written, a doubled
//! term too: by the least bound of its term, by the sheet with the question's opposite put in, and on small sheets by trying all
//! integers.

pub mod call;
pub mod check;
pub mod counts;
pub(crate) mod damage;
pub mod due;
pub mod examples;
pub mod given;
pub(crate) mod kinds;
pub(crate) mod lists;
pub mod run;
