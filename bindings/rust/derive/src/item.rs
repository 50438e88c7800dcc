//! A struct or an enum, as far as the macro reads it.

use crate::tokens::{Depth, Tokens, cut_types, cut_variants, is_mark, text_of};
use proc_macro::{Delimiter, Group, TokenStream, TokenTree};

/// The representations that fix a type's layout, beside those of integers.
const REPRESENTATIONS: [&str; 2] = ["C", "transparent"];
const INTEGERS: [&str; 12] = ["u8", "u16", "u32", "u64", "u128", "usize", "i8", "i16", "i32", "i64", "i128", "isize"];

/// The attributes of an item that matter here.
#[derive(Default)]
struct Attributes {
    is_repr: bool,
    /// The expression in `#[type_name(..)]`.
    type_name: Option<String>,
}

/// The generic parameters of an item.
#[derive(Default)]
struct Generics {
    /// The parameters with their bounds, without defaults.
    declared: Vec<String>,
    /// The names alone.
    names: Vec<String>,
}

/// A struct or an enum.
pub struct Item {
    attributes: Attributes,
    name: String,
    generics: Generics,
    /// The predicates of the where clause.
    predicates: Vec<String>,
    /// The types of all fields.
    types: Vec<String>,
}

impl Item {
    /// Reads an item.
    pub fn parse(input: TokenStream) -> Result<Item, String> {
        let mut tokens = input.into_iter().peekable();
        let mut attributes = Attributes::default();
        for attribute in read_attributes(&mut tokens) {
            attributes.note(attribute);
        }
        skip_visibility(&mut tokens);
        let kind = tokens.next().map(|it| it.to_string()).unwrap_or_default();
        let name = tokens.next().map(|it| it.to_string()).unwrap_or_default();
        if kind != "struct" && kind != "enum" {
            return Err(format!("ZeroCopySend cannot be derived for a {kind}"));
        }
        if !attributes.is_repr {
            return Err(format!("ZeroCopySend: {name} needs #[repr(C)]"));
        }
        let generics = read_generics(&mut tokens);
        let (predicates, types) = read_body(&mut tokens, kind == "enum");
        Ok(Item { attributes, name, generics, predicates, types })
    }

    /// Returns the implementation of the trait.
    pub fn implementation(self) -> String {
        let bounds = self.types.iter().map(|it| format!("{it}: ZeroCopySend"));
        let predicates: Vec<String> = self.predicates.into_iter().chain(bounds).collect();
        let type_name = self
            .attributes
            .type_name
            .map(|it| format!("unsafe fn type_name() -> &'static str {{ {it} }}"));
        format!(
            "#[automatically_derived] unsafe impl<{}> ZeroCopySend for {}<{}> where {} {{ {} }}",
            self.generics.declared.join(", "),
            self.name,
            self.generics.names.join(", "),
            predicates.join(", "),
            type_name.unwrap_or_default(),
        )
    }
}

impl Attributes {
    /// Reads what stands between an attribute's brackets.
    fn note(&mut self, attribute: Group) {
        let mut tokens = attribute.stream().into_iter();
        let name = tokens.next().map(|it| it.to_string());
        let Some(TokenTree::Group(words)) = tokens.next() else { return };
        match name.as_deref() {
            Some("repr") => {
                let mut words = words.stream().into_iter().map(|it| it.to_string());
                self.is_repr |= words.any(|it| REPRESENTATIONS.iter().chain(&INTEGERS).any(|known| *known == it));
            }
            Some("type_name") => self.type_name = Some(words.stream().to_string()),
            _ => {}
        }
    }
}

/// Reads attributes, and returns their brackets.
fn read_attributes(tokens: &mut Tokens) -> Vec<Group> {
    let mut found = Vec::new();
    while tokens.next_if(|it| is_mark(it, '#')).is_some() {
        if let Some(TokenTree::Group(attribute)) = tokens.next() {
            found.push(attribute);
        }
    }
    found
}

/// Skips `pub`, and the path behind it.
fn skip_visibility(tokens: &mut Tokens) {
    if tokens.next_if(|it| it.to_string() == "pub").is_some() {
        tokens.next_if(|it| matches!(it, TokenTree::Group(group) if group.delimiter() == Delimiter::Parenthesis));
    }
}

/// Reads `<..>`, if it stands there.
fn read_generics(tokens: &mut Tokens) -> Generics {
    let mut generics = Generics::default();
    if !matches!(tokens.peek(), Some(it) if is_mark(it, '<')) {
        return generics;
    }
    for parameter in cut_types(read_brackets(tokens)) {
        let end = parameter.iter().position(|it| is_mark(it, '=')).unwrap_or(parameter.len());
        let declared = &parameter[..end];
        let is_const = declared[0].to_string() == "const";
        let name = if is_const { &declared[1..2] } else { &declared[..1 + usize::from(is_mark(&declared[0], '\''))] };
        generics.declared.push(text_of(declared));
        generics.names.push(text_of(name));
    }
    generics
}

/// Reads what stands in angle brackets.
fn read_brackets(tokens: &mut Tokens) -> Vec<TokenTree> {
    let mut depth = Depth::default();
    let brackets = tokens.by_ref().take_while(|it| {
        depth.pass(it);
        !depth.is_outside()
    });
    brackets.skip(1).collect()
}

/// Reads the where clause and the fields, which stand before it where they stand in parentheses.
fn read_body(tokens: &mut Tokens, is_enum: bool) -> (Vec<String>, Vec<String>) {
    let (mut clause, mut types, mut is_clause) = (Vec::new(), Vec::new(), false);
    for token in tokens.by_ref() {
        match token {
            TokenTree::Group(body) if body.delimiter() == Delimiter::Brace => {
                types = if is_enum { variant_types(&body) } else { field_types(&body) };
                break;
            }
            TokenTree::Group(body) if !is_clause => types = field_types(&body),
            it if it.to_string() == "where" => is_clause = true,
            it if !is_mark(&it, ';') => clause.push(it),
            _ => {}
        }
    }
    (cut_types(clause).iter().map(|it| text_of(it)).collect(), types)
}

/// Returns the types of the fields in braces or parentheses.
fn field_types(body: &Group) -> Vec<String> {
    let is_named = body.delimiter() == Delimiter::Brace;
    let fields = cut_types(body.stream());
    fields.into_iter().map(|it| field_type(it, is_named)).collect()
}

/// Returns the type of a field.
fn field_type(field: Vec<TokenTree>, is_named: bool) -> String {
    let mut tokens = field.into_iter().collect::<TokenStream>().into_iter().peekable();
    read_attributes(&mut tokens);
    skip_visibility(&mut tokens);
    if is_named {
        // The name and the colon.
        tokens.nth(1);
    }
    text_of(&tokens.collect::<Vec<_>>())
}

/// Returns the types of the fields of all variants.
fn variant_types(body: &Group) -> Vec<String> {
    let variants = cut_variants(body.stream()).into_iter();
    variants
        .flat_map(|it| it.into_iter().take_while(|it| !is_mark(it, '=')).flat_map(types_of_variant))
        .collect()
}

/// Returns the types in a variant's braces or parentheses; brackets are an attribute's.
fn types_of_variant(token: TokenTree) -> Vec<String> {
    match token {
        TokenTree::Group(fields) if fields.delimiter() != Delimiter::Bracket => field_types(&fields),
        _ => Vec::new(),
    }
}
