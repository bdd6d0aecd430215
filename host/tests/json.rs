//! `read --json` has everything: the record and both lists are made of it again, and compared bit by bit with what the library hands over.

mod calls;
mod json_text;
mod layouts;
mod requests;

use calls::{answers, call};
use dwg_hatch::{Hatch, HatchBody, Name, ReadHatch, Source, StringReader, Text};
use json_text::{parse, Value};
use layouts::{Numbers, Plan};
use requests::Request;

/// The bytes in hexadecimal, as a request has them.
fn hexadecimal(bytes: &[u8]) -> String {
    if bytes.is_empty() { "-".to_string() } else { bytes.iter().map(|byte| format!("{byte:02x}")).collect() }
}

/// Both lists of a hatch, from its JSON.
#[derive(Default)]
struct Lists {
    words: Vec<u32>,
    numbers: Vec<u64>,
}

impl Lists {
    fn of(hatch: &Value) -> Lists {
        let mut lists = Lists::default();
        hatch.at("paths").items().iter().for_each(|path| lists.path(path));
        for line in hatch.at("pattern_lines").items() {
            lists.count(line.at("dashes"));
            lists.numbers(&[line.at("angle")]);
            [line.at("origin"), line.at("offset"), line.at("dashes")].iter().for_each(|list| lists.all(list));
        }
        hatch.at("seed_points").items().iter().for_each(|seed| lists.all(seed));
        lists
    }

    fn path(&mut self, path: &Value) {
        self.word(path.at("flags"));
        if path.has("polyline") {
            let polyline = path.at("polyline");
            self.switches(&[polyline.at("has_bulge"), polyline.at("is_closed")]);
            self.count(polyline.at("vertices"));
            polyline.at("vertices").items().iter().for_each(|vertex| self.all(vertex));
        } else {
            self.count(path.at("edges"));
            path.at("edges").items().iter().for_each(|edge| self.edge(edge));
        }
        self.word(path.at("num_boundary_handles"));
    }

    fn edge(&mut self, edge: &Value) {
        let kinds = ["line", "arc", "ellipse", "spline"];
        let kind = kinds.iter().position(|kind| *kind == edge.at("kind").text()).expect("a kind");
        self.words.push(kind as u32 + 1);
        match kind {
            0 => [edge.at("start"), edge.at("end")].iter().for_each(|point| self.all(point)),
            3 => self.spline(edge),
            _ => {
                self.switches(&[edge.at("counter_clockwise")]);
                self.all(edge.at("center"));
                let first = if kind == 1 { edge.at("radius") } else { edge.at("axis_ratio") };
                if kind == 2 {
                    self.all(edge.at("endpoint"));
                }
                self.numbers(&[first, edge.at("start_angle"), edge.at("end_angle")]);
            }
        }
    }

    fn spline(&mut self, edge: &Value) {
        self.word(edge.at("degree"));
        self.switches(&[edge.at("is_rational"), edge.at("is_periodic")]);
        self.count(edge.at("knots"));
        self.count(edge.at("control_points"));
        self.all(edge.at("knots"));
        edge.at("control_points").items().iter().for_each(|control| self.all(control));
        let fits = edge.at("fits");
        if *fits == Value::Null {
            return self.words.push(0);
        }
        self.count(fits.at("fit_points"));
        fits.at("fit_points").items().iter().for_each(|point| self.all(point));
        [fits.at("start_tangent"), fits.at("end_tangent")].iter().for_each(|tangent| self.all(tangent));
    }

    fn word(&mut self, value: &Value) {
        self.words.push(u32::try_from(value.whole()).expect("a word"));
    }

    fn switches(&mut self, values: &[&Value]) {
        self.words.extend(values.iter().map(|value| u32::from(value.bool())));
    }

    fn count(&mut self, list: &Value) {
        self.words.push(list.items().len() as u32);
    }

    fn all(&mut self, list: &Value) {
        self.numbers.extend(list.items().iter().map(Value::bits));
    }

    fn numbers(&mut self, values: &[&Value]) {
        self.numbers.extend(values.iter().map(|value| value.bits()));
    }
}

/// A text is where it lies, with the units and the characters that its payload has there.
fn same_text(value: &Value, text: &Text, payload: &[u8], name: &Name) {
    let source = match text.source {
        Source::None => "none",
        Source::Main => "main",
        Source::String => "string",
    };
    assert_eq!(value.at("source").text(), source);
    assert_eq!(value.at("width").whole(), u64::from(text.width));
    assert_eq!((value.at("position").whole(), value.at("count").whole()), (text.position as u64, text.count as u64));
    assert_eq!(value.at("padded").bool(), text.padded);
    let digits = usize::from(text.width / 4);
    let units: String = text.units(payload).expect("units").iter().map(|unit| format!("{unit:0digits$x}")).collect();
    assert_eq!(value.at("units").text(), units);
    match name.as_str() {
        Some(characters) => assert_eq!(value.at("string").text(), characters),
        None => assert_eq!(*value.at("string"), Value::Null),
    }
}

/// The object has what was read.
fn same(value: &Value, body: &HatchBody, read: &ReadHatch<u64>) {
    let (hatch, typed) = (&read.hatch, body.typed(read.clone()).expect("the lists fit"));
    assert_eq!(value.at("payload_bits").whole(), 8 * body.payload.len() as u64);
    let string_bits = body.strings.map(|strings| 8 * strings.payload.len() as u64);
    assert_eq!((*value.at("strings") != Value::Null).then(|| value.at("strings").at("payload_bits").whole()), string_bits);
    let lists = Lists::of(value);
    assert_eq!((lists.words, lists.numbers), (read.words.clone(), read.numbers.clone()));
    let Hatch { elevation, pattern_angle, pattern_scale, pixel_size, .. } = hatch;
    let doubles = ["elevation", "pattern_angle", "pattern_scale", "pixel_size"].map(|name| value.at(name).bits());
    assert_eq!(doubles, [*elevation, *pattern_angle, *pattern_scale, *pixel_size]);
    assert_eq!(value.at("extrusion").items().iter().map(Value::bits).collect::<Vec<_>>(), hatch.extrusion);
    let switches = ["solid_fill", "associative", "pattern_double"].map(|name| value.at(name).bool());
    assert_eq!(switches, [hatch.solid_fill, hatch.associative, hatch.pattern_double]);
    let whole = ["pattern_style", "pattern_type", "words_used", "numbers_used"].map(|name| value.at(name).whole());
    let numbers = [usize::from(hatch.pattern_style), usize::from(hatch.pattern_type), hatch.words_used, hatch.numbers_used];
    assert_eq!(whole, numbers.map(|number| number as u64));
    let places = ["main", "string"].map(|name| value.at("places").at(name).whole() as usize);
    assert_eq!(places, [hatch.places.main, hatch.places.string]);
    let payload = |text: &Text| if text.source == Source::String { body.strings.expect("a reader").payload } else { body.payload };
    same_text(value.at("pattern_name"), &hatch.pattern_name, payload(&hatch.pattern_name), &typed.pattern_name);
    let fill = value.at("gradient");
    let Some(gradient) = &hatch.gradient else { return assert_eq!(*fill, Value::Null) };
    assert_eq!(["angle", "shift", "tint"].map(|name| fill.at(name).bits()), [gradient.angle, gradient.shift, gradient.tint]);
    assert_eq!(fill.at("is_single_color").whole(), u64::from(gradient.is_single_color));
    same_text(fill.at("name"), &gradient.name, payload(&gradient.name), typed.gradient_name.as_ref().expect("a name"));
    assert_eq!(fill.at("colors").items().len(), gradient.colors.len());
    for (value, color) in fill.at("colors").items().iter().zip(&gradient.colors) {
        assert_eq!((value.at("unknown_double").bits(), value.at("rgb").whole()), (color.unknown_double, u64::from(color.rgb)));
        assert_eq!(*value.at("unknown_short"), Value::Number(color.unknown_short.to_string()));
        assert_eq!(value.at("ignored_color_byte").whole(), u64::from(color.ignored_color_byte));
    }
}

/// Bodies of all releases, with and without a reader, and doubles of every sort.
#[test]
fn laid_out_hatches_are_in_their_json_bit_by_bit() {
    let mut n = Numbers(0x0123_4567_89ab_cdef);
    let bodies: Vec<_> = (0..280).map(|turn| {
        let (release, reader) = (1 + turn % 7, turn / 7 % 2 == 1);
        let [main, strings] = Plan::new(&mut n, release, reader).lay_out(&mut n, reader);
        (release, main.bytes(200), reader.then(|| (strings.bytes(0), strings.0.len())))
    }).collect();
    let lines: Vec<String> = bodies.iter().map(|(release, payload, strings)| match strings {
        Some((text, end)) => format!("hatchs {release} 0 {} 0 {end} {}\n", hexadecimal(payload), hexadecimal(text)),
        None => format!("hatch {release} 0 {}\n", hexadecimal(payload)),
    }).collect();
    let printed = answers(&["read", "--json", "--quiet"], lines.concat().as_bytes());
    assert_eq!(printed.lines().count(), bodies.len());
    for (at, (line, (release, payload, strings))) in printed.lines().zip(&bodies).enumerate() {
        let value = parse(line);
        let strings = strings.as_ref().map(|(text, end)| StringReader { payload: text, start: 0, end: *end });
        let body = HatchBody { payload, start: 0, release_number: *release, strings };
        same(&value, &body, &body.decode_bits().expect("the body is read"));
        assert_eq!(value.at("origin").text(), format!("standard input:{}", at + 1));
        assert_eq!((value.at("request").text(), value.at("release").whole()), (if strings.is_some() { "hatchs" } else { "hatch" }, *release));
    }
    for special in ["\"0x7ff0000000000001\"", "\"0xffffffffffffffff\"", "\"0xfff0000000000000\"", "-0.0", "5e-324", "0.1"] {
        assert!(printed.contains(&format!("{special},")), "{special}");
    }
}

/// Every stored request for a hatch or a prefix: an object for each, a refusal's where it is refused.
#[test]
fn stored_requests_have_an_object_each() {
    let list = include_str!("../../crates/vectors/data/list");
    let taken = |line: &&str| line.starts_with("hatch") || line.starts_with("prefix");
    let pairs: Vec<(&str, &str)> = list.lines().filter(taken).filter_map(|line| line.split_once('\t')).collect();
    let requests: String = pairs.iter().map(|pair| format!("{}\n", pair.0)).collect();
    let output = call(&["read", "--json", "--quiet"], requests.as_bytes());
    let (printed, errors) = (String::from_utf8(output.stdout).expect("UTF-8"), String::from_utf8(output.stderr).expect("UTF-8"));
    assert_eq!((output.status.code(), printed.lines().count()), (Some(1), pairs.len()));
    for (line, (request, answer)) in printed.lines().zip(&pairs) {
        let value = parse(line);
        let refusal = value.has("refusal").then(|| ["number", "place", "second_place"].map(|name| value.at("refusal").at(name).whole()));
        match (answer.strip_prefix("err "), refusal) {
            (Some(numbers), Some(refusal)) => assert_eq!(numbers, refusal.map(|number| number.to_string()).join(" "), "{request:.80}"),
            (None, None) => same_as_answered(&value, request, answer),
            _ => panic!("{request:.80}: {line:.80}"),
        }
    }
    let refused = pairs.iter().filter(|pair| pair.1.starts_with("err ")).count();
    assert_eq!(errors.lines().filter(|line| line.starts_with("dwg-hatch: standard input:") && line.contains(": refusal ")).count(), refused);
    assert_eq!(errors.lines().count(), refused);
    assert!(refused > 100 && pairs.len() - refused > 100, "{refused} of {}", pairs.len());
}

fn same_as_answered(value: &Value, line: &str, answer: &str) {
    if line.starts_with("prefix ") {
        return assert_eq!(prefix_answer(value), answer);
    }
    let request = Request::of(line);
    let body = request.body();
    same(value, &body, &body.decode_bits().expect("the body is read"));
}

/// The protocol's answer of a prefix, from its JSON.
fn prefix_answer(value: &Value) -> String {
    let number = |name: &str| match value.at(name) {
        Value::Number(digits) => digits.clone(),
        other => panic!("{name}: {other:?}"),
    };
    let bit = |name: &str| u8::from(value.at(name).bool());
    let maybe = |name: &str| if *value.at(name) == Value::Null { "0:0".to_string() } else { format!("1:{}", number(name)) };
    let styles: Vec<String> = value.at("visual_style_flags").items().iter().map(|flag| u8::from(flag.bool()).to_string()).collect();
    let parts = [
        format!("ok {} 0 rawmode={} mode={}", number("place"), number("raw_mode"), value.at("mode").text()),
        format!("reactors={} nodict={} chain={}", number("num_reactors"), bit("no_xdictionary"), bit("binary_chain")),
        format!("onlayer={} nonfixed={} plot={}", bit("is_on_layer"), bit("non_fixed_ltype"), number("plotstyle_flag")),
        format!("material={} shadow={} invis={}", number("material_flag"), number("shadow_flags"), number("invisibility")),
        format!("nolinks={} color={} rgb={}", bit("nolinks"), number("color_raw"), maybe("color_rgb")),
        format!("alpha={} scale={:016x} ltype={}", maybe("color_alpha"), value.at("ltype_scale").bits(), number("ltype_flags")),
        format!("vis={} weight={} gfx={}", styles.join(","), number("lineweight"), bit("had_graphics")),
        format!("xdata={} dataend={}", bit("had_extended_data"), maybe("data_end_bits")),
    ];
    parts.join(" ")
}

#[test]
fn a_refusal_is_an_object() {
    let output = call(&["read", "--json", "-"], b"hatchs 2 0 A9 0 16 4040\n");
    let expected = concat!(
        r#"{"origin":"standard input:1","request":"hatchs","release":2,"start":0,"payload_bits":8,"#,
        r#""strings":{"start":0,"end":16,"payload_bits":16},"refusal":{"number":6,"#,
        r#""meaning":"a text of the string payload passes the string reader's end bit","#,
        r#""advice":"check the string payload, its start bit and its end bit","place":8,"second_place":10}}"#,
        "\n"
    );
    assert_eq!((String::from_utf8_lossy(&output.stdout).as_ref(), output.status.code()), (expected, Some(1)));
}
