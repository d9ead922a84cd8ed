//! The numbers of the kinds.

pub const INTEGER: u16 = 1;
pub const BOOL: u16 = 2;
pub const CHAR: u16 = 3;
pub const STR: u16 = 4;
pub const TUPLE_TYPE: u16 = 5;
pub const ADT: u16 = 6;
pub const REFERENCE: u16 = 7;
pub const ARRAY: u16 = 8;
pub const SLICE_TYPE: u16 = 9;

pub const STRUCT: u16 = 0;
pub const ENUM: u16 = 1;
pub const UNION: u16 = 2;

pub const MISSING: u16 = 0;
pub const REST: u16 = 1;
pub const NOT_NULL: u16 = 2;
pub const WILD: u16 = 3;
pub const TUPLE: u16 = 4;
pub const OR: u16 = 5;
pub const RECORD: u16 = 6;
pub const RANGE: u16 = 7;
pub const SLICE: u16 = 8;
pub const PATH: u16 = 9;
pub const LIT: u16 = 10;
pub const BIND: u16 = 11;
pub const TUPLE_STRUCT: u16 = 12;
pub const REF: u16 = 13;
pub const EXPR: u16 = 14;
pub const BOX: u16 = 15;
pub const DEREF: u16 = 16;

pub const UNRESOLVED: u16 = 0;
pub const NAMES_VARIANT: u16 = 1;
pub const NAMES_BINDING: u16 = 2;
pub const NAMES_CONSTANT: u16 = 3;
pub const NAMES_OTHER: u16 = 4;

pub const INT: u16 = 1;
pub const UINT: u16 = 2;
pub const CHARACTER: u16 = 3;
pub const BOOLEAN: u16 = 4;
pub const STRING: u16 = 5;
pub const C_STRING: u16 = 6;
pub const BYTE_STRING: u16 = 7;
pub const CONSTANT: u16 = 8;
pub const FLOAT: u16 = 9;
pub const OTHER: u16 = 10;

pub const BY_VALUE: u16 = 0;
pub const BY_REF: u16 = 1;
pub const BY_MUT: u16 = 2;
