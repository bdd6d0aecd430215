//! The entity prefix: all fields of the Rust's `CommonEntityData`.

use crate::common_entity::{self, CommonEntityData};
use crate::refusal::{self, Refusal};
use crate::request::{self, Payload};
use crate::show::{self, Show};

pub fn answer(release: u64, start: u64, main: &Payload, show: Show) -> String {
    match read(release, start, main) {
        Ok((data, place)) => reading(&data, place, show),
        Err(refusal) => refusal.line(),
    }
}

fn read(release: u64, start: u64, main: &Payload) -> Result<(CommonEntityData, usize), Refusal> {
    let Some(version) = request::version_of(release) else {
        return Err(Refusal::new(9, start, 0)); // added by document 01
    };
    if main.too_long() {
        return Err(Refusal::new(10, start, 0)); // added by document 01
    }
    let Some(mut c) = refusal::cursor_at(main.bytes(), start) else {
        return Err(Refusal::new(1, start, 0)); // added by document 01
    };
    match common_entity::read_common_entity_data(&mut c, version) {
        Ok(data) => Ok((data, c.position_bits())),
        Err(error) => Err(Refusal::new(refusal::number_of(&error), c.position_bits() as u64, 0)),
    }
}

fn reading(data: &CommonEntityData, place: usize, show: Show) -> String {
    let bit = u8::from;
    let [full, face, edge] = data.visual_style_flags.map(bit);
    let fields = [
        format!("ok {place} 0 rawmode={} mode={:?}", data.raw_mode, data.mode),
        format!("reactors={} nodict={}", data.num_reactors, bit(data.no_xdictionary)),
        format!("chain={} onlayer={}", bit(data.binary_chain), bit(data.is_on_layer)),
        format!("nonfixed={} plot={}", bit(data.non_fixed_ltype), data.plotstyle_flag),
        format!("material={} shadow={}", data.material_flag, data.shadow_flags),
        format!("invis={} nolinks={}", data.invisibility, bit(data.nolinks)),
        format!("color={} rgb={}", data.color_raw, show::presence(data.color_rgb)),
        format!("alpha={} scale={}", show::presence(data.color_alpha), show.double(data.ltype_scale)),
        format!("ltype={} vis={full},{face},{edge}", data.ltype_flags),
        format!("weight={} gfx={}", data.lineweight, bit(data.had_graphics)),
        format!("xdata={} dataend={}", bit(data.had_extended_data), show::presence(data.data_end_bits)),
    ];
    fields.join(" ")
}
