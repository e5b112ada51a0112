//! Lists of pairs and groups: broken, of every size, in every order.

use crate::questions::reading::{add, Asked};
use crate::questions::session::faults;
use crate::questions::session::sample::{some_pairs, Group, Sample, LOGOUT};
use crate::random::Random;
use crate::rules::session::List;

/// One rule of the lists broken at a time, and bytes left after them.
pub fn faulty(asked: &mut Asked, random: &mut Random, which: usize) {
    for sample in faults::broken(random, which) {
        add(asked, &sample);
    }
    for sample in faults::left(random, which) {
        add(asked, &sample);
    }
    // Zeros are bytes like others.
    for size in [1, 5, 6] {
        let mut sample = Sample::whole(random, which);
        sample.after = vec![0; size];
        add(asked, &sample);
    }
    // All units, twice in the response: the largest of each message, and it has more after it.
    let mut largest = Sample::largest(random, which);
    add(asked, &largest);
    if which != LOGOUT {
        largest.groups.reverse();
        add(asked, &largest);
        largest.group_count = 2;
        add(asked, &largest);
        largest.group_count = 4;
        add(asked, &largest);
        largest.groups.push(Group::units(0, &[]));
        add(asked, &largest);
        largest.set_groups(Vec::new());
        add(asked, &largest);
    }
}

/// Every count of units, with as many pairs and with others.
pub fn counts(asked: &mut Asked, random: &mut Random, which: usize) {
    let mut sample = Sample::least(random, which);
    for count in 0..=34 {
        let mut pairs = some_pairs(random, count);
        for more in pairs.len()..count {
            pairs.push((more as u8 + 1, 1));
        }
        if sample.has(List::Pairs) {
            sample.set_pairs(pairs);
        } else {
            sample.set_groups(vec![Group::units(0, &pairs)]);
        }
        add(asked, &sample);
    }
    let mut sample = Sample::whole(random, which);
    for count in 0..=12 {
        match sample.has(List::Pairs) {
            true => sample.unit_count = count,
            false => sample.groups[0].count = count,
        }
        add(asked, &sample);
    }
}

/// Every choice of the three groups in every order, each of them empty and not.
pub fn group_orders(asked: &mut Asked, random: &mut Random, which: usize) {
    for order in orders_of_groups() {
        for empty in 0..1 << order.len() {
            let mut sample = Sample::whole(random, which);
            let mut groups = Vec::new();
            for (place, index) in order.iter().enumerate() {
                let mut group = sample.groups[*index].clone();
                if empty >> place & 1 != 0 {
                    group.count = 0;
                    group.list.clear();
                    group.fit();
                }
                groups.push(group);
            }
            sample.set_groups(groups);
            add(asked, &sample);
        }
    }
}

/// None, each, each two and all three of the groups, in every order.
fn orders_of_groups() -> Vec<Vec<usize>> {
    let mut orders = vec![Vec::new()];
    let mut longest = orders.clone();
    for _ in 0..3 {
        let mut longer = Vec::new();
        for order in &longest {
            for index in (0..3).filter(|index| !order.contains(index)) {
                let mut order = order.clone();
                order.push(index);
                longer.push(order);
            }
        }
        orders.extend(longer.clone());
        longest = longer;
    }
    orders
}

/// Every count of bitfields, and counts of groups over groups that are there.
pub fn group_counts(asked: &mut Asked, random: &mut Random, which: usize) {
    for returned in [0x25, 0x2C] {
        let mut sample = Sample::least(random, which);
        for count in 0..=17 {
            let group = Group::bitfields(returned, &random.bytes(count));
            sample.set_groups(vec![group]);
            add(asked, &sample);
        }
    }
    let mut sample = Sample::whole(random, which);
    for count in [0, 1, 2, 3, 4, 5, 6, 16, 64, 127, 128, 254, 255] {
        sample.group_count = count;
        add(asked, &sample);
    }
}

#[cfg(test)]
mod tests {
    use super::*;
    use std::collections::BTreeSet;

    #[test]
    fn sixteen_orders_of_groups() {
        let orders = orders_of_groups();
        assert_eq!(orders.len(), 1 + 3 + 6 + 6);
        let different: BTreeSet<Vec<usize>> = orders.into_iter().collect();
        assert_eq!(different.len(), 16);
    }
}
