//! The Cartesian product of lists.

/// Every array that has in each entry one of the choices for that entry, the first entry
/// weighing most. Entries without choices have the type's default.
pub fn cartesian<T: Copy + Default, const LENGTH: usize>(choices: &[Vec<T>]) -> Vec<[T; LENGTH]> {
    let mut all = vec![[T::default(); LENGTH]];
    for (k, values) in choices.iter().enumerate() {
        let with_entry = |array: [T; LENGTH]| {
            values.iter().map(move |&value| {
                let mut longer = array;
                longer[k] = value;
                longer
            })
        };
        all = all.into_iter().flat_map(with_entry).collect();
    }
    all
}

#[cfg(test)]
mod tests {
    use super::*;

    #[test]
    fn first_entry_weighs_most() {
        let all: Vec<[u8; 3]> = cartesian(&[vec![1, 2], vec![5, 6]]);
        assert_eq!(all, [[1, 5, 0], [1, 6, 0], [2, 5, 0], [2, 6, 0]]);
    }
}
