//! Patterns that are large, deep or many, and each way to compile.

use super::refused::error_text;
use anyhow::Result;
use nfa_compiler::{CompileError, Compiler, Config, ErrorKind, Syntax};
use regex_syntax::parse;
use std::alloc::Global;
use std::process::Abort;

/// Returns a pattern of `depth` groups, each inside another.
fn nested(alloc: Global, depth: usize) -> Result<String> {
    let (open, close) = ("(".repeat(alloc, depth)?, ")".repeat(alloc, depth)?);
    Ok(format!(in alloc; "{open}a{close}")?)
}

/// Nested repetitions, classes of all of Unicode, a text of ten thousand characters, and nested groups.
#[test]
fn large_patterns_are_compiled_or_refused(rt: HostRuntime) -> Result<()> {
    let alloc = rt.alloc();
    let long = "0123456789".repeat(alloc, 1000)?;
    let deep = nested(alloc, 200)?;
    for (pattern, count) in [
        ("(a{100}){100}", 10000),
        ("a{1000}", 1000),
        (r"[^a]\p{L}(?s:.)", 100),
        (long.as_str(), 10000),
        (deep.as_str(), 400),
    ] {
        let nfa = Compiler::new().build(alloc, pattern)?;
        assert!(rt; nfa.states().len() > count, "{pattern}");
    }
    for (pattern, limit) in [("a{1000}", 1000), (r"\w{1000}{1000}", 10485760)] {
        let compiler = Compiler::new().configure(Config::new().size_limit(limit));
        let text = error_text(alloc, compiler.build(alloc, pattern).err())?;
        let wanted = format!(in alloc; "pattern 0 exceeds the size limit of {limit} bytes")?;
        assert_eq!(rt; text, wanted, "{pattern}");
    }
    for depth in [1000, 10000] {
        let built = Compiler::new().build(alloc, nested(alloc, depth)?.as_str());
        let is_refused = match &built {
            Err(CompileError::Syntax(error)) => error.kind() == ErrorKind::NestLimitExceeded,
            _ => false,
        };
        assert!(rt; is_refused, "{depth} groups");
    }
    Ok(())
}

#[test]
fn many_patterns_texts_and_trees_are_compiled(rt: HostRuntime) -> Result<()> {
    expect_texts(&rt, rt.alloc())?;
    expect_many(&rt, rt.alloc())?;
    expect_trees(&rt, rt.alloc())
}

/// The texts of errors about depth and memory.
fn expect_texts(rt: &impl Abort, alloc: Global) -> Result<()> {
    let syntax = Syntax {
        nest_limit: 1,
        ..Syntax::default()
    };
    let built = Compiler::new().syntax(syntax).build(alloc, "a((b))");
    let wanted = concat!(
        "pattern 0, at 2..3: groups, classes or repetitions nest deeper than the nesting limit allows\n",
        "    a((b))\n      ^",
    );
    assert_eq!(rt; error_text(alloc, built.err())?.as_str(), wanted);
    let text = error_text(alloc, Some(CompileError::Memory))?;
    assert_eq!(rt; text.as_str(), "out of memory");
    Ok(())
}

/// A hundred patterns in one NFA.
fn expect_many(rt: &impl Abort, alloc: Global) -> Result<()> {
    let mut texts = Vec::new(alloc);
    for number in 0..100usize {
        texts.push(format!(in alloc; "number {number}")?)?;
    }
    let patterns: Vec<&str> = texts.iter().map(|text| text.as_str()).collect(alloc)?;
    let nfa = Compiler::new().build_many(alloc, &patterns)?;
    assert_eq!(rt; nfa.pattern_len(), 100);
    Ok(())
}

/// Syntax trees that were parsed before, with settings of syntax and of the NFA.
fn expect_trees(rt: &impl Abort, alloc: Global) -> Result<()> {
    let syntax = Syntax::default();
    let compiler = Compiler::new()
        .syntax(syntax)
        .configure(Config::new().anchored(true).utf8(false));
    let trees = [
        parse(alloc, "(?<a>b)", &syntax)?,
        parse(alloc, "c", &syntax)?,
    ];
    let nfa = compiler.build_from_hir(alloc, &trees[0])?;
    assert_eq!(rt; nfa.start_anchored(), nfa.start_unanchored());
    assert_eq!(rt; nfa.group_info().slot_len(), 4);
    let nfa = compiler.build_many_from_hir(alloc, &trees)?;
    assert!(rt; !nfa.is_utf8());
    assert_eq!(rt; nfa.pattern_len(), 2);
    assert_eq!(rt; nfa.group_info().slot_len(), 6);
    Ok(())
}
