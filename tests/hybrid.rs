//! A hybrid compared with a PikeVM: over samples, patterns, random NFAs and long haystacks, and with full caches. Windows
//! of the lazy DFA.

mod full;
mod long;
mod pair;
mod patterns;
mod random;
mod rows;
mod samples;
mod sets;
mod windows;
