//! `improve`, as exported and as wrapped: the layouts of the scope and every small graph (`layouts`), the refusals,
//! their order and the answer buffer (`refusals`), and random calls (`random`) on graphs of many kinds (`graphs`).
//! Which pairing of the promised size comes out is open, and so is which of the witnesses, so there is no second answer
//! to compare byte for byte. `held` says all that is promised of a call instead, and holds every call to it.
mod graphs;
mod held;
mod layouts;
mod random;
mod refusals;
