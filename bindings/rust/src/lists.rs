//! Lists whose memory may be refused.

use crate::error::Error;
use std::ptr::NonNull;

/// An empty list with room for so many items.
pub(crate) fn list_for<T>(room: usize) -> Result<Vec<T>, Error> {
    let mut list = Vec::new();
    list.try_reserve_exact(room).map_err(|_| Error::NoMemory)?;
    Ok(list)
}

/// A boxed list of so many, which are made one after another.
pub(crate) fn filled<T>(count: usize, made: impl FnMut() -> T) -> Result<Box<[T]>, Error> {
    let mut list = list_for(count)?;
    list.resize_with(count, made);
    Ok(list.into_boxed_slice())
}

/// The item of a list that has one, and room for one, at its place, which `Box::from_raw` takes.
pub(crate) fn placed<T>(one: Vec<T>) -> NonNull<T> {
    // a list of one item has the layout of the item
    NonNull::from(Box::leak(one.into_boxed_slice())).cast()
}

/// A list of so many items, to be written.
pub(crate) fn blank<T: Clone + Default>(length: usize) -> Result<Vec<T>, Error> {
    let mut list = list_for(length)?;
    list.resize(length, T::default());
    Ok(list)
}

/// What is made of the items, in their order, of some nothing.
pub(crate) fn each<R, T>(items: &[R], made: impl FnMut(&R) -> Option<T>) -> Result<Vec<T>, Error> {
    let mut list = list_for(items.len())?;
    list.extend(items.iter().filter_map(made));
    Ok(list)
}

/// What is made of the whole list that a call writes, with how many items it has in all: asks again with more room until all fit.
pub(crate) fn whole_list<R: Copy + Default, T>(
    made: impl FnMut(&R) -> Option<T>,
    mut ask: impl FnMut(&mut [R], &mut usize) -> Result<(), Error>,
) -> Result<Vec<T>, Error> {
    let (mut few, mut more, mut count) = ([R::default(); 8], Vec::new(), 0);
    ask(&mut few, &mut count)?;
    if let Some(whole) = few.get(..count) {
        return each(whole, made);
    }
    while more.len() < count {
        more = blank(count)?;
        ask(&mut more, &mut count)?;
    }
    each(&more[..count], made)
}
