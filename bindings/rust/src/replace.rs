//! What stands in place of a match.
use crate::text::Text;
use crate::Captures;
use std::borrow::Cow;

/// A template (see [`Captures::expand`]), or a function of the groups.
pub trait Replacer<T: Text + ?Sized = [u8]> {
    /// Appends what stands in place of this match.
    fn replace_append(&mut self, groups: &Captures<'_, T>, to: &mut T::Owned);

    /// What stands in place of each match, if groups have no part in it.
    fn no_expansion(&mut self) -> Option<Cow<'_, T>> {
        None
    }

    /// The same, which can be used again afterwards.
    fn by_ref(&mut self) -> ReplacerRef<'_, Self> {
        ReplacerRef(self)
    }
}

/// What [`Replacer::by_ref`] returns.
#[derive(Debug)]
pub struct ReplacerRef<'a, R: ?Sized>(&'a mut R);

impl<T: Text + ?Sized, R: Replacer<T> + ?Sized> Replacer<T> for ReplacerRef<'_, R> {
    fn replace_append(&mut self, groups: &Captures<'_, T>, to: &mut T::Owned) {
        self.0.replace_append(groups, to);
    }

    fn no_expansion(&mut self) -> Option<Cow<'_, T>> {
        self.0.no_expansion()
    }
}

/// Templates of these types, for haystacks of the type after the arrow.
macro_rules! templates {
    ($([$($more:tt)*] $own:ty => $hay:ty, $bytes:expr;)*) => {$(
        impl<$($more)*> Replacer<$hay> for $own {
            fn replace_append(&mut self, groups: &Captures<'_, $hay>, to: &mut <$hay as ToOwned>::Owned) {
                let template: fn(&Self) -> &$hay = $bytes;
                groups.expand(template(self), to);
            }

            fn no_expansion(&mut self) -> Option<Cow<'_, $hay>> {
                let template: fn(&Self) -> &$hay = $bytes;
                let template = template(self);
                (!Text::bytes(template).contains(&b'$')).then_some(Cow::Borrowed(template))
            }
        }
    )*};
}

templates! {
    [] &[u8] => [u8], |own| own;
    [const N: usize] &[u8; N] => [u8], |own| *own;
    [const N: usize] [u8; N] => [u8], |own| own;
    [] Vec<u8> => [u8], |own| own;
    [] &Vec<u8> => [u8], |own| own;
    [] Cow<'_, [u8]> => [u8], |own| own;
    [] &Cow<'_, [u8]> => [u8], |own| own;
    [] &str => str, |own| own;
    [] String => str, |own| own;
    [] &String => str, |own| own;
    [] Cow<'_, str> => str, |own| own;
    [] &Cow<'_, str> => str, |own| own;
}

impl<R: AsRef<[u8]>, F: FnMut(&Captures<'_>) -> R> Replacer for F {
    fn replace_append(&mut self, groups: &Captures<'_>, to: &mut Vec<u8>) {
        to.extend_from_slice(self(groups).as_ref());
    }
}

impl<R: AsRef<str>, F: FnMut(&Captures<'_, str>) -> R> Replacer<str> for F {
    fn replace_append(&mut self, groups: &Captures<'_, str>, to: &mut String) {
        to.push_str(self(groups).as_ref());
    }
}

/// Bytes in which `$` means nothing.
///
/// ```
/// # use nfa_engines::{NoExpand, Regex};
/// assert_eq!(Regex::new("[0-9]+")?.replace_all(b"1 23", NoExpand(b"$0")), &b"$0 $0"[..]);
/// # Ok::<(), nfa_engines::Error>(())
/// ```
#[derive(Clone, Debug)]
pub struct NoExpand<'b>(pub &'b [u8]);

impl Replacer for NoExpand<'_> {
    fn replace_append(&mut self, _: &Captures<'_>, to: &mut Vec<u8>) {
        to.extend_from_slice(self.0);
    }

    fn no_expansion(&mut self) -> Option<Cow<'_, [u8]>> {
        Some(Cow::Borrowed(self.0))
    }
}
