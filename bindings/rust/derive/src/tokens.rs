//! Lists of tokens, and how they are cut at commas.

use proc_macro::{TokenStream, TokenTree};
use std::iter::Peekable;

/// The tokens of an item that were not read yet.
pub type Tokens = Peekable<proc_macro::token_stream::IntoIter>;

/// Returns whether a token is this punctuation mark.
pub fn is_mark(token: &TokenTree, mark: char) -> bool {
    matches!(token, TokenTree::Punct(it) if it.as_char() == mark)
}

/// Returns the text of tokens.
pub fn text_of(tokens: &[TokenTree]) -> String {
    tokens.iter().cloned().collect::<TokenStream>().to_string()
}

/// The depth of a token in angle brackets. The `>` of an arrow closes none.
#[derive(Default)]
pub struct Depth {
    angles: usize,
    follows_dash: bool,
}

impl Depth {
    /// Advances past a token. Returns whether the token is outside all angle brackets, and is not one itself.
    pub fn pass(&mut self, token: &TokenTree) -> bool {
        let is_arrow = self.follows_dash && is_mark(token, '>');
        self.follows_dash = is_mark(token, '-');
        if is_mark(token, '<') {
            self.angles += 1;
        } else if is_mark(token, '>') && !is_arrow {
            self.angles = self.angles.saturating_sub(1);
        } else {
            return self.is_outside();
        }
        false
    }

    /// Returns whether all angle brackets are closed.
    pub fn is_outside(&self) -> bool {
        self.angles == 0
    }
}

/// Cuts tokens at the commas that `is_outside` accepts. Empty parts are left out.
fn cut(tokens: impl Iterator<Item = TokenTree>, mut is_outside: impl FnMut(&TokenTree) -> bool) -> Vec<Vec<TokenTree>> {
    let mut parts = vec![Vec::new()];
    for token in tokens {
        if is_outside(&token) && is_mark(&token, ',') {
            parts.push(Vec::new());
        } else {
            parts.last_mut().expect("it has a first part").push(token);
        }
    }
    parts.retain(|it| !it.is_empty());
    parts
}

/// Cuts tokens at the commas outside of angle brackets, as in lists of types.
pub fn cut_types(tokens: impl IntoIterator<Item = TokenTree>) -> Vec<Vec<TokenTree>> {
    let mut depth = Depth::default();
    cut(tokens.into_iter(), |token| depth.pass(token))
}

/// Cuts tokens at all commas, as in lists of variants, whose discriminants may compare and shift.
pub fn cut_variants(tokens: impl IntoIterator<Item = TokenTree>) -> Vec<Vec<TokenTree>> {
    cut(tokens.into_iter(), |_| true)
}
