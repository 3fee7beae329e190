//! Stand-in for the crate `bitmatch`, over std's `proc_macro` alone.
//!
//! It covers what cores.rs uses: `#[bitmatch]` on a function, and inside it `#[bitmatch] match WORD { .. }` on a `u16`. An arm's pattern is
//! a text of sixteen bits, most significant first, or `_`. In a text `0` and `1` are fixed bits, a letter is a bit of the field of that
//! name, and `_` separates. The first pattern that fits is taken, and in its arm each field is a `u16` of its bits in their order.

use proc_macro::{Delimiter, Group, TokenStream, TokenTree};

mod pattern;

#[proc_macro_attribute]
pub fn bitmatch(_: TokenStream, item: TokenStream) -> TokenStream {
    rewrite(item)
}

/// `tokens` with every marked `match` replaced, at any depth.
fn rewrite(tokens: TokenStream) -> TokenStream {
    let tokens: Vec<TokenTree> = tokens.into_iter().collect();
    let mut out = TokenStream::new();
    let mut at = 0;
    while at < tokens.len() {
        if is_marked_match(&tokens[at..]) {
            let subject = at + 3;
            let arms = subject + tokens[subject..].iter().position(is_block).expect("a marked match has arms");
            out.extend(matching(&tokens[subject..arms], &tokens[arms]));
            at = arms + 1;
        } else {
            out.extend([inside(&tokens[at])]);
            at += 1;
        }
    }
    out
}

/// Whether `tokens` begin with `#[bitmatch] match`.
fn is_marked_match(tokens: &[TokenTree]) -> bool {
    tokens.len() > 3 && tokens[0].to_string() == "#" && tokens[1].to_string() == "[bitmatch]" && tokens[2].to_string() == "match"
}

fn is_block(token: &TokenTree) -> bool {
    matches!(token, TokenTree::Group(group) if group.delimiter() == Delimiter::Brace)
}

fn inside(token: &TokenTree) -> TokenTree {
    match token {
        TokenTree::Group(group) => {
            let mut new = Group::new(group.delimiter(), rewrite(group.stream()));
            new.set_span(group.span());
            new.into()
        }
        other => other.clone(),
    }
}

/// The `match` over `subject` with a guard for each pattern.
fn matching(subject: &[TokenTree], arms: &TokenTree) -> TokenStream {
    let arms = match arms {
        TokenTree::Group(arms) => arms,
        _ => unreachable!("the arms are a block"),
    };
    let mut body = TokenStream::new();
    for (text, result) in arms_of(arms.stream()) {
        body.extend(code(&pattern::guard(&text)));
        let mut block = code(&pattern::fields(&text));
        block.extend(result);
        body.extend([TokenTree::from(Group::new(Delimiter::Brace, block))]);
    }
    let mut out = code("match");
    out.extend(subject.iter().cloned());
    out.extend([TokenTree::from(Group::new(Delimiter::Brace, body))]);
    out
}

/// Each arm's pattern, as it is written, and its result.
fn arms_of(stream: TokenStream) -> Vec<(String, TokenStream)> {
    let mut tokens = stream.into_iter().peekable();
    let mut arms = Vec::new();
    while let Some(text) = tokens.next() {
        let arrow = [tokens.next(), tokens.next()].map(|token| token.map(|token| token.to_string()));
        assert_eq!(arrow, [Some("=".into()), Some(">".into())], "an arm without an arrow");
        let block = tokens.peek().map_or(false, is_block);
        let mut result = TokenStream::new();
        while let Some(token) = tokens.next_if(|token| token.to_string() != ",") {
            result.extend([token]);
            if block {
                break;
            }
        }
        tokens.next_if(|token| token.to_string() == ",");
        arms.push((text.to_string(), result));
    }
    arms
}

fn code(text: &str) -> TokenStream {
    text.parse().expect("the stand-in writes Rust")
}
