//! Safe calls over the proved reader of DWG hatch bodies and entity prefixes.
//!
//! A payload is a slice of bytes, a place a bit of it, numbered from 0 from the top bit of each byte. A reading gives its value and the
//! place after it, or a [`Refusal`]:
//!
//! ```
//! let payload = [0x3f, 0xff, 0xc0];
//! let (value, place) = dwg_hatch::read_bs(&payload, 0)?;
//! assert_eq!((value, place), (-1, 18));
//!
//! let refusal = dwg_hatch::read_rl(&payload, 0).unwrap_err();
//! assert_eq!((refusal.reason, refusal.place), (dwg_hatch::Reason::TooFewBits, 24));
//! # Ok::<(), dwg_hatch::Refusal>(())
//! ```
//!
//! [`read_hatch`], [`read_hatch_with_strings`] and [`read_prefix`] give a whole hatch, with its paths, pattern lines and seed points as a tree
//! ([`TypedHatch`]), and a whole prefix ([`CommonEntityData`]). [`HatchBody`] reads a hatch into lists of the caller's, and [`Hatch::move_origin`] moves
//! their coordinates near an origin:
//!
//! ```
//! # let payload = [&[0xa9, 0xaa, 0x90, 0x10][..], &[0; 16]].concat();
//! let mut hatch = dwg_hatch::read_hatch(&payload, 0, dwg_hatch::Release::R2000)?;
//! hatch.move_origin(4_650_000.0, -2000.0)?;
//! assert_eq!(hatch.seed_points, [dwg_hatch::Point2D { x: -4_650_000.0, y: 2000.0 }]);
//! # Ok::<(), dwg_hatch::Refusal>(())
//! ```
//!
//! Some offices pad names with a closing zero. It is dropped, [`Text::padded`] says so, and [`Name::is_same_name`] takes names that differ in padding alone
//! for one. Before R2007 names are bytes of the drawing's code page, which is not in the body: [`Name::decoded`] has the characters of one where the page is
//! known, as [`CodePage::Ansi1252`].
//!
//! Below them are inline text and text from a string reader ([`read_tv`], [`read_string_tv`]), and the codes of document 01's section on bitcursor.rs,
//! each by its name.

mod boundary;
mod calls;

pub use calls::code_pages::{cp1252_to_bytes, cp1252_to_units, CodePage, UnknownCodePage};
pub use calls::codes::{
    read_3b, read_b, read_bb, read_bd, read_bd_bits, read_bl, read_bl_u, read_bll, read_bs, read_bs_u, read_dd, read_dd_bits, read_handle, read_rc,
    read_rd, read_rd_bits, read_rl, read_rs, Handle, Reading,
};
pub use calls::given::{GivenGradient, GivenHatch};
pub use calls::hatches::{GradientColor, GradientFill, Hatch, HatchBody, Lengths, Places, ReadHatch, StringReader};
pub use calls::outlines::{
    ControlPoint, Fits, HatchEdge, HatchPath, HatchPathSegments, PatternLine, Point2D, Vertex, FLAG_DERIVED, FLAG_EXTERNAL, FLAG_OUTERMOST,
    FLAG_POLYLINE, FLAG_TEXTBOX,
};
pub use calls::prefixes::{read_common_entity_bits, read_common_entity_data, read_prefix, CommonEntityBits, CommonEntityData, EntityMode};
pub use calls::refusal::{Reason, Refusal};
pub use calls::release::{Release, UnknownRelease};
pub use calls::texts::{read_string_tv, read_tv, Source, Text};
pub use calls::typed::{read_hatch, read_hatch_with_strings, Name, TypedHatch};
