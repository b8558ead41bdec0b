//! The public interface: signatures, fields, variants and traits. It compiles against the original crate too.
use std::borrow::Cow;
use std::error::Error;
use std::fmt::{Debug, Display};
use std::hash::Hash;
use std::io;
use std::panic::{RefUnwindSafe, UnwindSafe};

use bstr::{BStr, BString};
use gix_hash::{oid, ObjectId};
use gix_refspec::instruction::{Fetch, Push};
use gix_refspec::match_group::validate::{self, Fix, Issue};
use gix_refspec::match_group::{match_lhs, match_rhs, Item, Mapping, Source, SourceRef};
use gix_refspec::parse::{self, Operation};
use gix_refspec::{Instruction, MatchGroup, RefSpec, RefSpecRef};

fn moves<T: Send + Sync + Unpin + UnwindSafe + RefUnwindSafe>() {}
fn shown<T: Debug>() {}
fn copied<T: Copy + Clone>() {}
fn cloned<T: Clone>() {}
fn equal<T: Eq>() {}
fn ordered<T: Ord>() {}
fn hashed<T: Hash>() {}
fn error<T: Error + Display + 'static>() {}

#[test]
fn traits() {
    moves::<RefSpecRef<'_>>();
    moves::<RefSpec>();
    moves::<Instruction<'_>>();
    moves::<Push<'_>>();
    moves::<Fetch<'_>>();
    moves::<Operation>();
    moves::<parse::Error>();
    moves::<MatchGroup<'_>>();
    moves::<match_lhs::Outcome<'_, '_>>();
    moves::<match_rhs::Outcome<'_, '_>>();
    moves::<Item<'_>>();
    moves::<Mapping<'_, '_>>();
    moves::<SourceRef<'_>>();
    moves::<validate::Error>();
    moves::<Issue>();
    moves::<Fix>();

    copied::<RefSpecRef<'_>>();
    copied::<Instruction<'_>>();
    copied::<Push<'_>>();
    copied::<Fetch<'_>>();
    copied::<Operation>();
    copied::<Item<'_>>();
    cloned::<RefSpec>();
    cloned::<MatchGroup<'_>>();
    cloned::<match_lhs::Outcome<'_, '_>>();
    cloned::<match_rhs::Outcome<'_, '_>>();
    cloned::<Mapping<'_, '_>>();
    cloned::<SourceRef<'_>>();
    cloned::<Fix>();

    ordered::<RefSpecRef<'_>>();
    ordered::<RefSpec>();
    ordered::<Instruction<'_>>();
    ordered::<Push<'_>>();
    ordered::<Fetch<'_>>();
    ordered::<Operation>();
    equal::<SourceRef<'_>>();
    equal::<Issue>();
    equal::<Fix>();

    hashed::<RefSpecRef<'_>>();
    hashed::<RefSpec>();
    hashed::<Instruction<'_>>();
    hashed::<Push<'_>>();
    hashed::<Fetch<'_>>();
    hashed::<Operation>();
    hashed::<SourceRef<'_>>();
    hashed::<Mapping<'_, '_>>();

    shown::<RefSpecRef<'_>>();
    shown::<RefSpec>();
    shown::<Instruction<'_>>();
    shown::<parse::Error>();
    shown::<MatchGroup<'_>>();
    shown::<match_lhs::Outcome<'_, '_>>();
    shown::<match_rhs::Outcome<'_, '_>>();
    shown::<Item<'_>>();
    shown::<Mapping<'_, '_>>();
    shown::<SourceRef<'_>>();
    shown::<Issue>();
    shown::<Fix>();

    error::<parse::Error>();
    error::<validate::Error>();
    let _: fn() -> MatchGroup<'static> = Default::default;
    let _: fn(RefSpecRef<'static>) -> RefSpec = RefSpec::from;
    let _: fn(gix_validate::reference::name::Error) -> parse::Error = parse::Error::from;
    let _: fn(&SourceRef<'static>) -> String = ToString::to_string;
    let _: fn(&Issue) -> String = ToString::to_string;
}

type Parsed<'a> = Result<RefSpecRef<'a>, parse::Error>;
type Items<'i> = std::vec::IntoIter<Item<'i>>;

#[test]
fn signatures() {
    let _: for<'a> fn(&'a BStr, Operation) -> Parsed<'a> = gix_refspec::parse;
    let _: for<'a> fn(&'a RefSpec) -> RefSpecRef<'a> = RefSpec::to_ref;
    let _: fn(&RefSpec) -> bool = RefSpec::allow_non_fast_forward;
    let _: for<'s> fn(&'s RefSpecRef<'static>) -> Option<&'s BStr> = RefSpecRef::source;
    let _: for<'s> fn(&'s RefSpecRef<'static>) -> Option<&'s BStr> = RefSpecRef::destination;
    let _: for<'s> fn(&'s RefSpecRef<'static>) -> Option<&'s BStr> = RefSpecRef::remote;
    let _: for<'s> fn(&'s RefSpecRef<'static>) -> Option<&'s BStr> = RefSpecRef::local;
    let _: for<'s> fn(&'s RefSpecRef<'static>) -> Option<&'s BStr> = RefSpecRef::prefix;
    let _: fn(&RefSpecRef<'static>, &mut Vec<BString>) = RefSpecRef::expand_prefixes;
    let _: fn(&RefSpecRef<'static>) -> Instruction<'static> = RefSpecRef::instruction;
    let _: fn(&RefSpecRef<'static>) -> RefSpec = RefSpecRef::to_owned;
    let _: fn(&RefSpecRef<'static>) -> BString = RefSpecRef::to_bstring;
    let _: fn(&RefSpecRef<'static>, &mut dyn io::Write) -> io::Result<()> = RefSpecRef::write_to;
    let _: fn(&Instruction<'static>) -> Operation = Instruction::operation;
    let _: fn(&Instruction<'static>) -> BString = Instruction::to_bstring;
    let _: fn(&Instruction<'static>, &mut dyn io::Write) -> io::Result<()> = Instruction::write_to;
    let _: fn(SourceRef<'static>) -> Source = SourceRef::into_owned;
}

fn of_fetches<'a>(specs: Vec<RefSpecRef<'a>>) -> MatchGroup<'a> {
    MatchGroup::from_fetch_specs(specs)
}

fn of_pushes<'a>(specs: Vec<RefSpecRef<'a>>) -> MatchGroup<'a> {
    MatchGroup::from_push_specs(specs)
}

fn forward<'s, 'i>(group: MatchGroup<'s>, items: Items<'i>) -> match_lhs::Outcome<'s, 'i> {
    group.match_lhs(items)
}

fn backward<'s, 'i>(group: MatchGroup<'s>, items: Items<'i>) -> match_rhs::Outcome<'s, 'i> {
    group.match_rhs(items)
}

type Validated<'s, 'i> = Result<(match_lhs::Outcome<'s, 'i>, Vec<Fix>), validate::Error>;

fn validated<'s, 'i>(outcome: match_lhs::Outcome<'s, 'i>) -> Validated<'s, 'i> {
    outcome.validated()
}

/// What a spec says outlives it: an instruction borrows the text.
fn said<'a>(text: &'a BStr) -> Option<Instruction<'a>> {
    Some(gix_refspec::parse(text, Operation::Fetch).ok()?.instruction())
}

#[test]
fn lifetimes() {
    assert!(said("a:b".into()).is_some());
    let id = ObjectId::from_hex(&[b'1'; 40]).unwrap();
    let item = Item { full_ref_name: "refs/heads/a".into(), target: &id, object: Some(&id) };
    let spec = gix_refspec::parse("refs/heads/a:refs/heads/b".into(), Operation::Fetch).unwrap();
    let outcome = forward(of_fetches(vec![spec]), vec![item].into_iter());
    let destination: Cow<'static, BStr> = outcome.mappings[0].rhs.clone().unwrap();
    assert!(matches!(destination, Cow::Borrowed(name) if name == "refs/heads/b"));
    assert!(validated(outcome).unwrap().1.is_empty());
    let item = Item { full_ref_name: "refs/heads/b".into(), ..item };
    let outcome = backward(of_fetches(vec![spec]), vec![item].into_iter());
    let source: SourceRef<'static> = outcome.mappings[0].lhs.clone();
    assert!(matches!(source, SourceRef::FullName(Cow::Borrowed(name)) if name == "refs/heads/a"));
    assert!(of_pushes(vec![spec]).specs.is_empty());
}

#[test]
fn fields() {
    let name: &BStr = "refs/heads/a".into();
    let id = ObjectId::from_hex(&[b'1'; 40]).unwrap();
    let target: &oid = &id;
    let Item { full_ref_name, target: _, object } = Item { full_ref_name: name, target, object: None };
    assert!(full_ref_name == name && object.is_none());
    let mapping = Mapping {
        item_index: Some(0),
        lhs: SourceRef::ObjectId(id),
        rhs: Some(Cow::Owned(name.to_owned())),
        spec_index: 0,
    };
    let group = MatchGroup { specs: Vec::new() };
    let outcome = match_lhs::Outcome { group, mappings: vec![mapping.clone()] };
    let match_rhs::Outcome { group, mappings } = match_rhs::Outcome { group: outcome.group, mappings: vec![mapping] };
    assert_eq!((group.specs.len(), mappings.len()), (0, 1));
    let conflict = Issue::Conflict {
        destination_full_ref_name: name.into(),
        sources: vec![SourceRef::FullName(Cow::Borrowed(name)).into_owned()],
        specs: vec!["a:b".into()],
    };
    let text = "Found 1 issue that prevents the refspec mapping to be used: \n\t\
                Conflicting destination \"refs/heads/a\" would be written by refs/heads/a (\"a:b\")";
    assert_eq!(validate::Error { issues: vec![conflict] }.to_string(), text);
    let spec = gix_refspec::parse("a:b".into(), Operation::Fetch).unwrap().to_owned();
    let Fix::MappingWithPartialDestinationRemoved { name, spec } =
        Fix::MappingWithPartialDestinationRemoved { name: "b".into(), spec };
    assert_eq!((name, spec.to_ref().to_bstring()), ("b".into(), "a:b".into()));
}

#[test]
fn variants() {
    for instruction in [
        Instruction::Push(Push::AllMatchingBranches { allow_non_fast_forward: true }),
        Instruction::Push(Push::Delete { ref_or_pattern: "a".into() }),
        Instruction::Push(Push::Matching { src: "a".into(), dst: "b".into(), allow_non_fast_forward: true }),
        Instruction::Push(Push::Exclude { src: "a".into() }),
        Instruction::Fetch(Fetch::Only { src: "a".into() }),
        Instruction::Fetch(Fetch::Exclude { src: "a".into() }),
        Instruction::Fetch(Fetch::AndUpdate { src: "a".into(), dst: "b".into(), allow_non_fast_forward: false }),
    ] {
        let text = instruction.to_bstring();
        let spec = gix_refspec::parse(text.as_ref(), instruction.operation()).unwrap();
        assert_eq!(spec.instruction(), instruction);
    }
    let texts = |error: parse::Error| error.to_string();
    assert_eq!(texts(parse::Error::Empty), "Empty refspecs are invalid");
    assert_eq!(
        texts(parse::Error::NegativeWithDestination),
        "Negative refspecs cannot have destinations as they exclude sources"
    );
    assert_eq!(texts(parse::Error::NegativeEmpty), "Negative specs must not be empty");
    assert_eq!(texts(parse::Error::NegativeObjectHash), "Negative specs must not be object hashes");
    assert_eq!(
        texts(parse::Error::NegativePartialName),
        "Negative specs must be full ref names, starting with \"refs/\""
    );
    assert_eq!(texts(parse::Error::NegativeGlobPattern), "Negative glob patterns are not allowed");
    assert_eq!(
        texts(parse::Error::InvalidFetchDestination),
        "Fetch destinations must be ref-names, like 'HEAD:refs/heads/branch'"
    );
    assert_eq!(texts(parse::Error::PushToEmpty), "Cannot push into an empty destination");
    assert_eq!(
        texts(parse::Error::PatternUnsupported { pattern: "a**".into() }),
        "refspec patterns may only contain a single '*' character, found \"a**\""
    );
    assert_eq!(
        texts(parse::Error::PatternUnbalanced),
        "Both sides of a two-sided specification need a pattern, like 'a/*:b/*'"
    );
    let invalid = gix_refspec::parse("a b".into(), Operation::Fetch).unwrap_err();
    assert!(matches!(&invalid, parse::Error::ReferenceName(fault) if fault.to_string() == invalid.to_string()));
}
