//! Transactions as the plain Rust programs have them, and their spelled bytes, by which these look up.

pub const MAX_BRANCHES: usize = 16;
const MAX_COMPONENT: usize = 64;
pub const MAX_TX_BYTES: usize = 4 + 65 + 1 + MAX_BRANCHES * 67;

#[derive(Clone, Copy)]
pub struct Component {
    len: u8,
    bytes: [u8; MAX_COMPONENT],
}

#[derive(Clone, Copy)]
pub struct Tx {
    pub format: u32,
    gtrid: Component,
    pub count: u8,
    pub branches: [(u16, Component); MAX_BRANCHES],
}

impl Tx {
    /// Its branches.
    pub fn branches(&self) -> &[(u16, Component)] {
        &self.branches[..self.count as usize]
    }
}

#[derive(Clone, Copy, PartialEq)]
pub enum Vote {
    Prepared,
    #[allow(dead_code)]
    Aborted,
}

fn component(bytes: &[u8]) -> Component {
    let mut array = [0; MAX_COMPONENT];
    array[..bytes.len()].copy_from_slice(bytes);
    Component {
        len: bytes.len() as u8,
        bytes: array,
    }
}

/// A transaction whose gtrid is a number of 4 bytes, with a branch at each of so many resource managers.
pub fn tx_of(number: u32, count: u8) -> Tx {
    let mut branches = [(0, component(b"a")); MAX_BRANCHES];
    for (rm, branch) in branches.iter_mut().enumerate() {
        branch.0 = rm as u16;
    }
    Tx {
        format: 1,
        gtrid: component(&number.to_be_bytes()),
        count,
        branches,
    }
}

pub fn spell<'b>(tx: &Tx, out: &'b mut [u8; MAX_TX_BYTES]) -> &'b [u8] {
    let mut at = 0;
    let mut put = |bytes: &[u8]| {
        out[at..at + bytes.len()].copy_from_slice(bytes);
        at += bytes.len();
    };
    put(&tx.format.to_be_bytes());
    put(&[tx.gtrid.len]);
    put(&tx.gtrid.bytes[..tx.gtrid.len as usize]);
    put(&[tx.count]);
    for (rm, bqual) in tx.branches() {
        put(&rm.to_be_bytes());
        put(&[bqual.len]);
        put(&bqual.bytes[..bqual.len as usize]);
    }
    &out[..at]
}
