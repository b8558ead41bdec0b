//! Matching groups of refspecs against refs.
use std::borrow::Cow;

use bstr::{BStr, BString, ByteSlice};
use gix_hash::ObjectId;
use gix_refspec_sys::{self as sys, calls};

use crate::{answered, parse::Operation, MatchGroup, RefSpecRef};

pub(crate) mod types;
pub use types::{match_lhs, match_rhs, Item, Mapping, Source, SourceRef};

pub mod validate;

impl<'a> MatchGroup<'a> {
    /// The group of those specs that are for a fetch.
    ///
    /// ```
    /// use gix_refspec::{parse::Operation, MatchGroup};
    ///
    /// let of = |operation| gix_refspec::parse("main".into(), operation).unwrap();
    /// let group = MatchGroup::from_fetch_specs([of(Operation::Fetch), of(Operation::Push)]);
    /// assert_eq!(group.specs.len(), 1);
    /// ```
    pub fn from_fetch_specs(specs: impl IntoIterator<Item = RefSpecRef<'a>>) -> Self {
        Self::from_specs(specs, Operation::Fetch)
    }

    /// The group of those specs that are for a push.
    pub fn from_push_specs(specs: impl IntoIterator<Item = RefSpecRef<'a>>) -> Self {
        Self::from_specs(specs, Operation::Push)
    }

    fn from_specs(specs: impl IntoIterator<Item = RefSpecRef<'a>>, operation: Operation) -> Self {
        MatchGroup { specs: specs.into_iter().filter(|spec| spec.operation() == operation).collect() }
    }
}

impl<'spec> MatchGroup<'spec> {
    /// Maps items by the sources of the specs to their destinations. Each pair is listed once, and none whose source
    /// a negative spec excludes. A partial source takes the first of its six candidates that some item has.
    ///
    /// ```
    /// use gix_hash::ObjectId;
    /// use gix_refspec::{match_group::Item, parse::Operation, MatchGroup};
    ///
    /// let id = ObjectId::from_hex(&[b'1'; 40]).unwrap();
    /// let of = |text: &'static str| gix_refspec::parse(text.into(), Operation::Fetch).unwrap();
    /// let group = MatchGroup::from_fetch_specs([of("refs/heads/*:refs/remotes/o/*"), of("^refs/heads/tmp")]);
    /// let item = |name: &'static str| Item { full_ref_name: name.into(), target: &id, object: None };
    /// let outcome = group.match_lhs(["refs/heads/main", "refs/heads/tmp"].iter().map(|name| item(name)));
    /// assert_eq!(outcome.mappings.len(), 1);
    /// assert_eq!(outcome.mappings[0].rhs.as_ref().unwrap().as_ref(), "refs/remotes/o/main");
    /// ```
    pub fn match_lhs<'item>(
        self,
        items: impl Iterator<Item = Item<'item>> + Clone,
    ) -> match_lhs::Outcome<'spec, 'item> {
        if let Some((spec, item)) = self.single(&items) {
            if !spec.may_fetch_id() {
                let mapping = spec.map(item.full_ref_name);
                return match_lhs::Outcome { group: self, mappings: mapping.into_iter().collect() };
            }
        }
        let names = names_of(items);
        let matched = self.matched_names(&names, sys::FORWARD);
        let mappings = matched.iter().map(|one| {
            let item_index = (one.item != sys::NO_ITEM).then_some(one.item);
            let spec = &self.specs[one.spec];
            Mapping {
                item_index,
                lhs: match item_index {
                    Some(index) => SourceRef::FullName(Cow::Borrowed(names[index].bytes().as_bstr())),
                    None => SourceRef::ObjectId(id_of(matched.id(one))),
                },
                rhs: (one.has_destination != 0).then(|| name_of(spec.full_destination(), matched.made(one))),
                spec_index: one.spec,
            }
        });
        let mappings = mappings.collect();
        match_lhs::Outcome { group: self, mappings }
    }

    /// Maps items by the destinations of the specs back to their sources. Specs without both sides map nothing. A
    /// partial destination takes each item that has one of its six candidates, and one that is an object id each item
    /// with that target or object.
    ///
    /// ```
    /// use gix_hash::ObjectId;
    /// use gix_refspec::{match_group::Item, parse::Operation, MatchGroup};
    ///
    /// let id = ObjectId::from_hex(&[b'1'; 40]).unwrap();
    /// let spec = gix_refspec::parse("refs/heads/*:refs/remotes/o/*".into(), Operation::Fetch).unwrap();
    /// let item = Item { full_ref_name: "refs/remotes/o/main".into(), target: &id, object: None };
    /// let outcome = MatchGroup::from_fetch_specs([spec]).match_rhs(Some(item).into_iter());
    /// assert_eq!(outcome.mappings[0].lhs.to_string(), "refs/heads/main");
    /// ```
    pub fn match_rhs<'item>(
        self,
        items: impl Iterator<Item = Item<'item>> + Clone,
    ) -> match_rhs::Outcome<'spec, 'item> {
        if let Some((spec, item)) = self.single(&items) {
            if !spec.may_ask_for_id() {
                let mapping = spec.map_back(item.full_ref_name);
                return match_rhs::Outcome { group: self, mappings: mapping.into_iter().collect() };
            }
        }
        let (names, matched) = if self.specs.iter().any(RefSpecRef::may_ask_for_id) {
            let items: Vec<_> = items.collect();
            (names_of(items.iter().copied()), self.matched_ids(&items))
        } else {
            let names = names_of(items);
            let matched = self.matched_names(&names, sys::BACKWARD);
            (names, matched)
        };
        let mappings = matched.iter().map(|one| Mapping {
            item_index: Some(one.item),
            lhs: SourceRef::FullName(name_of(self.specs[one.spec].full_source(), matched.made(one))),
            rhs: Some(Cow::Borrowed(names[one.item].bytes().as_bstr())),
            spec_index: one.spec,
        });
        let mappings = mappings.collect();
        match_rhs::Outcome { group: self, mappings }
    }

    /// The only spec and the only item, if there is one of each: nothing is a duplicate then, or excluded.
    fn single<'item>(
        &self,
        items: &(impl Iterator<Item = Item<'item>> + Clone),
    ) -> Option<(RefSpecRef<'spec>, Item<'item>)> {
        match *self.specs {
            [spec] => {
                let mut items = items.clone();
                let item = items.next()?;
                items.next().is_none().then_some((spec, item))
            }
            _ => None,
        }
    }

    /// How the specs map names, where ids don't count. Fetches need less memory for it.
    fn matched_names(&self, names: &[calls::Text<'_>], direction: u32) -> calls::Mappings {
        if self.specs.iter().any(|spec| spec.operation() == Operation::Push) {
            let refs: Vec<_> = names.iter().map(|name| calls::Ref::new(name.bytes(), b"", b"")).collect();
            return self.matched(&refs, direction);
        }
        let fetches: Vec<_> = self.specs.iter().map(|spec| calls::Text::new(spec.text())).collect();
        answered(calls::matched_names(&fetches, names, direction))
    }

    /// How they map items from right to left, where ids count.
    fn matched_ids(&self, items: &[Item<'_>]) -> calls::Mappings {
        let digits: Vec<[BString; 2]> = items.iter().map(digits_of).collect();
        let refs: Vec<_> = items
            .iter()
            .zip(&digits)
            .map(|(item, [target, object])| calls::Ref::new(item.full_ref_name, target, object))
            .collect();
        self.matched(&refs, sys::BACKWARD)
    }

    fn matched(&self, refs: &[calls::Ref<'_>], direction: u32) -> calls::Mappings {
        let specs: Vec<_> = self.specs.iter().map(RefSpecRef::call).collect();
        answered(calls::matched(&specs, refs, direction))
    }
}

impl<'spec> RefSpecRef<'spec> {
    /// What the spec makes of the name of the only item, from left to right.
    fn map<'item>(&self, name: &'item BStr) -> Option<Mapping<'item, 'spec>> {
        let made = answered(calls::map(self.text(), self.number(), name))?;
        Some(Mapping {
            item_index: Some(0),
            lhs: SourceRef::FullName(Cow::Borrowed(name)),
            rhs: made.has_destination.then(|| owned_name(self.full_destination(), made.name)),
            spec_index: 0,
        })
    }

    /// What it makes of that name from right to left.
    fn map_back<'item>(&self, name: &'item BStr) -> Option<Mapping<'spec, 'item>> {
        let made = answered(calls::map_back(self.text(), self.number(), name))?;
        Some(Mapping {
            item_index: Some(0),
            lhs: SourceRef::FullName(owned_name(self.full_source(), made.name)),
            rhs: Some(Cow::Borrowed(name)),
            spec_index: 0,
        })
    }
}

fn names_of<'item>(items: impl Iterator<Item = Item<'item>>) -> Vec<calls::Text<'item>> {
    items.map(|item| calls::Text::new(item.full_ref_name)).collect()
}

fn owned_name(full: Option<&BStr>, made: Vec<u8>) -> Cow<'_, BStr> {
    match full {
        Some(name) => Cow::Borrowed(name),
        None => Cow::Owned(made.into()),
    }
}

/// The full name of the side, or the name that the spec makes.
fn name_of<'spec>(full: Option<&'spec BStr>, made: &[u8]) -> Cow<'spec, BStr> {
    match full {
        Some(name) => Cow::Borrowed(name),
        None => Cow::Owned(made.into()),
    }
}

/// The digits of the target and of the tagged object.
fn digits_of(item: &Item<'_>) -> [BString; 2] {
    let object = item.object.map(ToString::to_string).unwrap_or_default();
    [item.target.to_string().into(), object.into()]
}

fn id_of(digits: &[u8]) -> ObjectId {
    match ObjectId::from_hex(digits.as_bstr()) {
        Ok(id) => id,
        Err(_) => unreachable!("the library returns 40 or 64 digits"),
    }
}
