//! The calls of the proved library, as exported and as wrapped, beside the plain reading of them: layouts and hand-made
//! witnesses (`layouts`), the refusals and their order (`refusals`), the answer buffer and empty buffers (`buffers`),
//! the words of a refusal (`words`), and random damaged calls (`random`). `support` makes a call in all three ways,
//! every lent buffer between guards, and compares all that is left. What `improve` leaves is open in part, and has its
//! own tests (`improve`).
mod buffers;
mod improve;
mod layouts;
mod random;
mod refusals;
mod support;
mod words;
