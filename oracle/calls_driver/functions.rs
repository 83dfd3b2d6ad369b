//! The numbers of the program's functions (crates/calls/src).

pub const EPSILON: u32 = 0;
pub const EPS_TOL: u32 = 1;
pub const POLYTOPE_TOL: u32 = 2;
pub const LARGEST: u32 = 3;
pub const SQRT: u32 = 4;
pub const ABS: u32 = 5;
pub const MAX: u32 = 6;
pub const COPY_SIGN: u32 = 7;
pub const DOT: u32 = 8;
pub const LENGTH_SQUARED: u32 = 9;
pub const LENGTH: u32 = 10;
pub const LENGTH_RECIP: u32 = 11;
pub const COMPONENT: u32 = 12;
pub const NEG: u32 = 13;
pub const ADD: u32 = 14;
pub const SUB: u32 = 15;
pub const SCALE: u32 = 16;
pub const DIV: u32 = 17;
pub const CROSS: u32 = 18;
pub const NORMALIZE: u32 = 19;
pub const NORMALIZE_OR: u32 = 20;
pub const NORMALIZE_OR_ZERO: u32 = 21;
pub const WITH_COMPONENT: u32 = 22;
pub const ROTATE: u32 = 23;
pub const TRANSFORM_POINT: u32 = 24;
pub const INVERSE_TRANSFORM_VECTOR: u32 = 25;
pub const IS_FINITE: u32 = 26;
pub const EQUALS: u32 = 27;
pub const TRY_NORMALIZE: u32 = 28;
pub const NORMALIZE_AND_LENGTH: u32 = 29;
pub const INVERSE: u32 = 30;

pub const LOCAL_SUPPORT_POINT: u32 = 31;
pub const LOCAL_SUPPORT_POINT_TOWARD: u32 = 32;
pub const SUPPORT_POINT: u32 = 33;
pub const SUPPORT_POINT_TOWARD: u32 = 34;
pub const FROM_SHAPES: u32 = 35;
pub const FROM_SHAPES_TOWARD: u32 = 36;
pub const VERTEX_NEW: u32 = 37;
pub const VERTEX_NEW_WITH_POINT: u32 = 38;
pub const VERTEX_SINGLE_POINT: u32 = 39;
pub const VERTEX_ORIGIN: u32 = 40;
pub const VERTEX_TRANSLATE: u32 = 41;
pub const VERTEX_SUB: u32 = 42;

pub const PROJECT_SEGMENT: u32 = 43;
pub const PROJECT_TRIANGLE: u32 = 44;
pub const PROJECT_TETRAHEDRON: u32 = 45;
pub const IS_AFFINELY_DEPENDENT: u32 = 46;
pub const IS_INSIDE_EPS: u32 = 47;
pub const RELATIVE_EQ: u32 = 48;
pub const BARYCENTRIC_COORDINATES: u32 = 49;

pub const PROJ_COORD: u32 = 50;
pub const PREV_PROJ_COORD: u32 = 51;
pub const MAX_SQ_LEN: u32 = 52;
pub const POINT: u32 = 53;
pub const PREV_POINT: u32 = 54;
pub const DIMENSION: u32 = 55;
pub const PREV_DIMENSION: u32 = 56;
pub const IS_SIMPLEX: u32 = 57;
pub const CONTAINS_POINT: u32 = 58;
pub const PROJECT_ORIGIN: u32 = 59;

pub const RESET: u32 = 60;
pub const RESET_LENT: u32 = 61;
pub const ADD_POINT: u32 = 62;
pub const ADD_POINT_LENT: u32 = 63;
pub const APPLY_LOCATION: u32 = 64;
pub const APPLY_LOCATION_LENT: u32 = 65;
pub const MODIFY_PNTS: u32 = 66;
pub const SWAP: u32 = 67;
pub const REDUCE_LENT: u32 = 68;
pub const NEW: u32 = 69;
pub const CLOSEST_POINTS: u32 = 70;

pub const HEAP_PUSH: u32 = 71;
pub const HEAP_PEEK: u32 = 72;
pub const HEAP_POP: u32 = 73;
pub const POLYTOPE: u32 = 74;
pub const POLYTOPE_PLAIN: u32 = 75;

pub const ROOTS: u32 = 76;
pub const ROOT_CHAIN: u32 = 77;
