//! Tests of the crates below the engines.
mod bounds;
mod captures;
mod dense;
mod edges;
mod finders;
mod fixtures;
mod flaws;
mod iteration;
mod looks;
mod nfas;
mod samples;
mod shown;
mod steps;
mod values;
