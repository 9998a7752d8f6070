//! The limits of 01, 'Sizes', the two bytes of request b, the queries of request g, and the modules of request h.

pub const NODES: i64 = 512;
pub const ARCS: i64 = 2_048;
pub const WEIGHT: i64 = 1_000_000;
pub const COORDINATE: i64 = 1_000_000;
pub const TEXT_BYTES: usize = 65_536;
pub const QUERIES: i64 = 256;
pub const MODULES: i64 = 32;

pub fn is_node_count(n: i64) -> bool {
    (1..=NODES).contains(&n)
}

pub fn is_arc_count(m: i64) -> bool {
    (0..=ARCS).contains(&m)
}

pub fn is_query_count(k: i64) -> bool {
    (0..=QUERIES).contains(&k)
}

pub fn is_node(node: i64, n: i64) -> bool {
    (1..=n).contains(&node)
}

pub fn is_module(module: i64) -> bool {
    (1..=MODULES).contains(&module)
}

pub fn is_weight(weight: i64) -> bool {
    (0..=WEIGHT).contains(&weight)
}

pub fn is_closure(byte: i64) -> bool {
    (0..=1).contains(&byte)
}

pub fn is_coordinate(value: i64) -> bool {
    (-COORDINATE..=COORDINATE).contains(&value)
}
