//! The order in which liveness goes over the blocks. Document 01, "A round": the order changes nothing in the result.

/// The sweep from which on the order is the post-order instead of the reverse of the block numbers.
pub const POSTORDER_ROUND: u32 = 3;

/// Every block once, a block's successors before it where no cycle forbids that. `succ(b, k)` is successor `k` of `b`.
pub fn postorder(blocks: usize, succ: impl Fn(usize, usize) -> Option<usize>) -> Vec<usize> {
    let mut order = Vec::with_capacity(blocks);
    let mut seen = vec![false; blocks];
    for root in 0..blocks {
        if seen[root] {
            continue;
        }
        seen[root] = true;
        let mut path = vec![(root, 0)];
        while let Some((block, next)) = path.last_mut() {
            match succ(*block, *next) {
                Some(s) => {
                    *next += 1;
                    if s < blocks && !seen[s] {
                        seen[s] = true;
                        path.push((s, 0));
                    }
                }
                None => {
                    order.push(*block);
                    path.pop();
                }
            }
        }
    }
    order
}

/// The block that a backward sweep takes as number `j`: of `order` where there is one, else the last block first.
pub fn back_nth(order: &[usize], blocks: usize, j: usize) -> usize {
    order.get(j).copied().unwrap_or(blocks - 1 - j)
}
