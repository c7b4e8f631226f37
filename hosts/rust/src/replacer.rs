//! What is written for a match.

use crate::captures::Captures;
use std::borrow::Cow;

/// What may replace a match: a template (see [`Captures::expand`]), a closure, [`NoExpand`], or a type of one's own.
pub trait Replacer {
    /// Appends what replaces the match. Group 0 of the captures is set.
    fn replace_append(&mut self, caps: &Captures<'_>, dst: &mut String);

    /// The text that replaces each match, if it is the same for all of them. Then no groups are asked for.
    fn no_expansion(&mut self) -> Option<Cow<'_, str>> {
        None
    }

    /// The same replacer, by a reference, for a call that takes one.
    ///
    /// ```
    /// # fn main() -> fancy::Result<()> {
    /// use fancy::{Captures, Regex, Replacer};
    ///
    /// let mut count = 0;
    /// let mut number = |_: &Captures<'_>| {
    ///     count += 1;
    ///     count.to_string()
    /// };
    /// let regex = Regex::new("x")?;
    /// assert_eq!(regex.replace_all("x x", number.by_ref()), "1 2");
    /// assert_eq!(regex.replace_all("x", number.by_ref()), "3");
    /// # Ok(())
    /// # }
    /// ```
    fn by_ref(&mut self) -> ReplacerRef<'_, Self> {
        ReplacerRef(self)
    }
}

/// A replacer by a reference; see [`Replacer::by_ref`].
#[derive(Debug)]
pub struct ReplacerRef<'a, R: ?Sized>(&'a mut R);

impl<R: Replacer + ?Sized> Replacer for ReplacerRef<'_, R> {
    fn replace_append(&mut self, caps: &Captures<'_>, dst: &mut String) {
        self.0.replace_append(caps, dst)
    }

    fn no_expansion(&mut self) -> Option<Cow<'_, str>> {
        self.0.no_expansion()
    }
}

/// A text that replaces each match as it is: a `$` in it is a dollar.
///
/// ```
/// # fn main() -> fancy::Result<()> {
/// use fancy::{NoExpand, Regex};
///
/// assert_eq!(Regex::new("(a)")?.replace("a", NoExpand("$1")), "$1");
/// # Ok(())
/// # }
/// ```
#[derive(Clone, Debug)]
pub struct NoExpand<'t>(pub &'t str);

impl Replacer for NoExpand<'_> {
    fn replace_append(&mut self, _: &Captures<'_>, dst: &mut String) {
        dst.push_str(self.0);
    }

    fn no_expansion(&mut self) -> Option<Cow<'_, str>> {
        Some(Cow::Borrowed(self.0))
    }
}

/// A template without references to groups.
fn fixed<T: AsRef<str>>(template: &T) -> Option<Cow<'_, str>> {
    let template = template.as_ref();
    (!template.contains('$')).then_some(Cow::Borrowed(template))
}

macro_rules! templates {
    ($($kind:ty)*) => {
        $(impl Replacer for $kind {
            fn replace_append(&mut self, caps: &Captures<'_>, dst: &mut String) {
                caps.expand((*self).as_ref(), dst);
            }

            fn no_expansion(&mut self) -> Option<Cow<'_, str>> {
                fixed(&*self)
            }
        })*
    };
}

templates! { &str String &String Cow<'_, str> &Cow<'_, str> }

impl<F, T> Replacer for F
where
    F: FnMut(&Captures<'_>) -> T,
    T: AsRef<str>,
{
    fn replace_append(&mut self, caps: &Captures<'_>, dst: &mut String) {
        dst.push_str(self(caps).as_ref());
    }
}
