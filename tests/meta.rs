//! A regex compared with a choice over the samples; windows of the lazy DFA; captures and half matches; texts that are
//! split or replaced, also by templates and functions; settings of a regex; sets of patterns; and what the front page of
//! the crate regex shows.

mod alike;
mod built;
mod captures;
mod ends;
mod front_page;
mod groups;
mod lines;
mod rewrites;
mod samples;
mod sets;
mod starts;
mod templates;
mod terminators;
mod texts;
mod which_captures;
mod whole;
mod windows;
mod written;
