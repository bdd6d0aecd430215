//! Which objects are entities, by their types. What is no entity has no entity prefix, and so is not cut.

/// The type of a hatch.
pub const HATCH: u16 = 78;

/// The fixed types that are known to be entities: those of the checked facts of R2000 drawings, and the dimensions by the Rust's entities/dimension.rs.
const ENTITIES: [(u16, &str); 18] = [
    (1, "TEXT"),
    (4, "BLOCK"),
    (5, "ENDBLK"),
    (7, "INSERT"),
    (17, "ARC"),
    (18, "CIRCLE"),
    (19, "LINE"),
    (20, "DIMENSION (ORDINATE)"),
    (21, "DIMENSION (LINEAR)"),
    (22, "DIMENSION (ALIGNED)"),
    (23, "DIMENSION (ANG 3-Pt)"),
    (24, "DIMENSION (ANG 2-Ln)"),
    (25, "DIMENSION (RADIUS)"),
    (26, "DIMENSION (DIAMETER)"),
    (27, "POINT"),
    (34, "VIEWPORT"),
    (77, "LWPOLYLINE"),
    (HATCH, "HATCH"),
];

/// The name of a type that is known to be an entity's.
pub fn entity(number: u16) -> Option<&'static str> {
    ENTITIES.iter().find(|(entity, _)| *entity == number).map(|(_, name)| *name)
}
