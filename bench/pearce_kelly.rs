//! Pearce and Kelly's way, written plainly: a map from card numbers to nodes, a rank and two lists of neighbours for each node, two searches by a stack,
//! a sort of what they came to, and the ranks dealt out anew.
use std::collections::HashMap;

#[derive(Default)]
pub struct Order {
    nodes: HashMap<u64, usize>,
    rank: Vec<usize>,
    outgoing: Vec<Vec<usize>>,
    incoming: Vec<Vec<usize>>,
    seen: Vec<bool>,
    free: Vec<usize>,
    next_rank: usize,
}

impl Order {
    fn comes(&mut self, card: u64) -> bool {
        if self.nodes.contains_key(&card) {
            return false;
        }
        let node = self.free.pop().unwrap_or_else(|| {
            self.rank.push(0);
            self.outgoing.push(Vec::new());
            self.incoming.push(Vec::new());
            self.seen.push(false);
            self.rank.len() - 1
        });
        self.rank[node] = self.next_rank;
        self.next_rank += 1;
        self.nodes.insert(card, node);
        true
    }

    fn goes(&mut self, card: u64) -> bool {
        let Some(node) = self.nodes.remove(&card) else {
            return false;
        };
        for to in std::mem::take(&mut self.outgoing[node]) {
            remove_from(&mut self.incoming[to], node);
        }
        for from in std::mem::take(&mut self.incoming[node]) {
            remove_from(&mut self.outgoing[from], node);
        }
        self.free.push(node);
        true
    }

    fn both(&self, a: u64, b: u64) -> Option<(usize, usize)> {
        Some((*self.nodes.get(&a)?, *self.nodes.get(&b)?))
    }

    fn has_link(&self, from: usize, to: usize) -> bool {
        if self.outgoing[from].len() < self.incoming[to].len() {
            self.outgoing[from].contains(&to)
        } else {
            self.incoming[to].contains(&from)
        }
    }

    fn link(&mut self, a: u64, b: u64) -> bool {
        let Some((from, to)) = self.both(a, b) else {
            return false;
        };
        if from == to || self.has_link(from, to) {
            return false;
        }
        if self.rank[to] < self.rank[from] && !self.reorder(from, to) {
            return false;
        }
        self.outgoing[from].push(to);
        self.incoming[to].push(from);
        true
    }

    fn unlink(&mut self, a: u64, b: u64) -> bool {
        let Some((from, to)) = self.both(a, b) else {
            return false;
        };
        remove_from(&mut self.outgoing[from], to) && remove_from(&mut self.incoming[to], from)
    }

    /// What is linked after `from`, up to the rank of `last`; none, if that is among them.
    fn forward(&mut self, from: usize, last: usize) -> Option<Vec<usize>> {
        let mut found = vec![from];
        let mut stack = vec![from];
        self.seen[from] = true;
        while let Some(node) = stack.pop() {
            for &next in &self.outgoing[node] {
                if next == last {
                    for node in found {
                        self.seen[node] = false;
                    }
                    return None;
                }
                if !self.seen[next] && self.rank[next] < self.rank[last] {
                    self.seen[next] = true;
                    found.push(next);
                    stack.push(next);
                }
            }
        }
        Some(found)
    }

    /// What is linked before `to`, down to the rank of `first`.
    fn backward(&mut self, to: usize, first: usize) -> Vec<usize> {
        let mut found = vec![to];
        let mut stack = vec![to];
        self.seen[to] = true;
        while let Some(node) = stack.pop() {
            for &next in &self.incoming[node] {
                if !self.seen[next] && self.rank[next] > self.rank[first] {
                    self.seen[next] = true;
                    found.push(next);
                    stack.push(next);
                }
            }
        }
        found
    }

    /// Deals ranks out anew, so that `from` stands before `to`; refuses, if links lead from `to` to `from`.
    fn reorder(&mut self, from: usize, to: usize) -> bool {
        let Some(mut after) = self.forward(to, from) else {
            return false;
        };
        let mut moved = self.backward(from, to);
        after.sort_unstable_by_key(|&node| self.rank[node]);
        moved.sort_unstable_by_key(|&node| self.rank[node]);
        moved.append(&mut after);
        let mut ranks: Vec<usize> = moved.iter().map(|&node| self.rank[node]).collect();
        ranks.sort_unstable();
        for (&node, rank) in moved.iter().zip(ranks) {
            self.rank[node] = rank;
            self.seen[node] = false;
        }
        true
    }
}

fn remove_from(list: &mut Vec<usize>, node: usize) -> bool {
    let Some(i) = list.iter().position(|&other| other == node) else {
        return false;
    };
    list.swap_remove(i);
    true
}

/// A saying as `peer.h` declares it.
#[repr(C)]
pub struct Saying {
    kind: u64,
    a: u64,
    b: u64,
}

#[no_mangle]
pub extern "C" fn pearce_kelly_new() -> *mut Order {
    Box::into_raw(Box::default())
}

/// # Safety
/// The order comes from `pearce_kelly_new`, and isn't used after.
#[no_mangle]
pub unsafe extern "C" fn pearce_kelly_free(order: *mut Order) {
    drop(unsafe { Box::from_raw(order) });
}

/// # Safety
/// The order comes from `pearce_kelly_new`; at `sayings` are so many.
#[no_mangle]
pub unsafe extern "C" fn pearce_kelly_say(order: *mut Order, sayings: *const Saying, count: usize) -> usize {
    let order = unsafe { &mut *order };
    let sayings = unsafe { std::slice::from_raw_parts(sayings, count) };
    let said = sayings.iter().filter(|saying| match saying.kind {
        0 => order.comes(saying.a),
        1 => order.goes(saying.a),
        2 => order.link(saying.a, saying.b),
        _ => order.unlink(saying.a, saying.b),
    });
    said.count()
}
