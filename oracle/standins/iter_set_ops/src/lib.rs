// Stands in for the crate iter_set_ops, which Debian does not package.
// Certain from the four calls: names, arguments, and that inputs ascend.
// `merge_iters_detailed_by` gives, for each different value, who had it and what;
// `intersect_iters_detailed_by` gives one value of each input, in the inputs' order.
// Not known: the cost, what it does with inputs that do not ascend or repeat, and with none.

use std::cmp::Ordering;
use std::iter::from_fn;

/// The next value of each input, once looked at.
fn heads<I: Iterator>(iters: &mut [I]) -> Vec<Option<I::Item>> {
    iters.iter_mut().map(|iter| iter.next()).collect()
}

/// The places whose head is least.
fn least<T>(heads: &[Option<T>], cmp: &impl Fn(&T, &T) -> Ordering) -> Vec<usize> {
    let mut places: Vec<usize> = Vec::new();
    for (place, head) in heads.iter().enumerate() {
        let Some(value) = head else { continue };
        match places.first().map(|&first| cmp(value, heads[first].as_ref().unwrap())) {
            None | Some(Ordering::Equal) => places.push(place),
            Some(Ordering::Less) => places = vec![place],
            Some(Ordering::Greater) => (),
        }
    }
    places
}

pub fn merge_iters_detailed_by<'a, I: Iterator>(
    iters: &'a mut [I],
    cmp: impl Fn(&I::Item, &I::Item) -> Ordering + 'a,
) -> impl Iterator<Item = Vec<(usize, I::Item)>> + 'a
where
    I::Item: 'a,
{
    let mut heads = heads(iters);
    from_fn(move || {
        let places = least(&heads, &cmp);
        if places.is_empty() {
            return None;
        }
        Some(
            places
                .into_iter()
                .map(|place| {
                    let next = iters[place].next();
                    (place, std::mem::replace(&mut heads[place], next).unwrap())
                })
                .collect(),
        )
    })
}

pub fn merge_iters<'a, I: Iterator>(iters: &'a mut [I]) -> impl Iterator<Item = I::Item> + 'a
where
    I::Item: Ord + 'a,
{
    merge_iters_detailed_by(iters, |a, b| a.cmp(b)).map(|mut details| details.swap_remove(0).1)
}

pub fn intersect_iters_detailed_by<'a, I: Iterator>(
    iters: &'a mut [I],
    cmp: impl Fn(&I::Item, &I::Item) -> Ordering + 'a,
) -> impl Iterator<Item = Vec<I::Item>> + 'a
where
    I::Item: 'a,
{
    let all = iters.len();
    merge_iters_detailed_by(iters, cmp)
        .filter(move |details| details.len() == all)
        .map(|details| details.into_iter().map(|(_, value)| value).collect())
}

pub fn intersect_iters<'a, I: Iterator>(iters: &'a mut [I]) -> impl Iterator<Item = I::Item> + 'a
where
    I::Item: Ord + 'a,
{
    intersect_iters_detailed_by(iters, |a, b| a.cmp(b)).map(|mut values| values.swap_remove(0))
}
