//! A photograph-like picture, drawn by a seeded function: a hut and stones on the shore of a lake, wooded hills, clouds, a low sun.
//!
//! The scene is in linear light without an upper end, which is its HDR picture. Its LDR picture is what a camera makes of it. Both
//! have what photographs have: detail that halves with each octave, soft shading, hard edges, channels that go together, fine
//! texture and grain; and no transparent part.

use model::random::Random;

/// The seed of the scene's noise.
const SEED: u64 = 1;

/// Light of red, green and blue.
pub type Light = [f32; 3];

const SUN: (f32, f32) = (1.08, 0.30);
/// Where the sky ends behind the lake.
const HORIZON: f32 = 0.57;

fn scaled(light: Light, by: f32) -> Light {
    light.map(|c| c * by)
}

fn plus(a: Light, b: Light) -> Light {
    std::array::from_fn(|i| a[i] + b[i])
}

/// From `a` at 0 to `b` at 1.
fn between(a: Light, b: Light, t: f32) -> Light {
    std::array::from_fn(|i| a[i] + (b[i] - a[i]) * t)
}

/// From 0 at `low` to 1 at `high`, smoothly.
fn ramp(low: f32, high: f32, x: f32) -> f32 {
    let t = ((x - low) / (high - low)).clamp(0.0, 1.0);
    t * t * (3.0 - 2.0 * t)
}

/// A number of 0 to 1 for a place of the whole numbers.
fn at_place(x: i64, y: i64, layer: u64) -> f32 {
    let place = (x as u64) << 32 ^ (y as u64 & 0xffff) << 16 ^ layer;
    (Random::new(place ^ SEED << 56).number() >> 40) as f32 / (1 << 24) as f32
}

/// Smooth noise of 0 to 1, whose waves are about 2 long.
fn waves(x: f32, y: f32, layer: u64) -> f32 {
    let (left, top) = (x.floor(), y.floor());
    let (i, j) = (left as i64, top as i64);
    let (s, t) = (ramp(0.0, 1.0, x - left), ramp(0.0, 1.0, y - top));
    let row = |j| {
        let (a, b) = (at_place(i, j, layer), at_place(i + 1, j, layer));
        a + (b - a) * s
    };
    let (a, b) = (row(j), row(j + 1));
    a + (b - a) * t
}

/// Noise of 0 to 1 with detail of so many octaves, each half as strong as the one before.
fn detail(x: f32, y: f32, octaves: u64, layer: u64) -> f32 {
    let (mut sum, mut strength, mut scale) = (0.0, 0.5, 1.0);
    for octave in 0..octaves {
        sum += strength * waves(x * scale, y * scale, 16 * layer + octave);
        strength /= 2.0;
        scale *= 2.03;
    }
    sum
}

fn sky(u: f32, v: f32) -> Light {
    let low = (v / HORIZON).clamp(0.0, 1.0);
    let clear = between([0.07, 0.17, 0.46], [0.85, 0.62, 0.42], low * low);
    let thick = |u: f32, v: f32| detail(3.0 * u, 8.0 * v + 0.6 * u, 6, 1);
    let lit = (0.55 + 5.0 * (thick(u, v) - thick(u + 0.03, v - 0.01))).clamp(0.0, 1.0);
    let cloud = between([0.22, 0.23, 0.30], [1.25, 1.05, 0.85], lit);
    let seen = between(clear, cloud, ramp(0.44, 0.66, thick(u, v)));
    let away = (u - SUN.0).hypot(v - SUN.1);
    let glow = 5.0 * (-18.0 * away).exp() + 0.5 * (-5.0 * away).exp();
    let disc = if away < 0.024 { 900.0 } else { 0.0 };
    plus(seen, scaled([1.0, 0.78, 0.5], glow + disc))
}

/// The far hills, bare and hazy, or the sky over them.
fn far(u: f32, v: f32) -> Light {
    let crest = 0.50 - 0.24 * (detail(2.2 * u, 0.5, 6, 2) - 0.28);
    if v < crest {
        return sky(u, v);
    }
    let rock = 0.6 + 1.2 * (detail(14.0 * u, 30.0 * v, 5, 3) - 0.5);
    let haze = 0.45 + 0.4 * ramp(crest, HORIZON, v);
    between(
        scaled([0.17, 0.15, 0.16], rock),
        [0.50, 0.47, 0.50],
        haze * 0.8,
    )
}

/// The near hills with their trees, or what stands behind them.
fn near(u: f32, v: f32) -> Light {
    let trees = 0.022 * waves(70.0 * u, 0.5, 900) + 0.012 * waves(170.0 * u, 0.5, 901);
    let crest = 0.545 - 0.12 * (detail(1.7 * u + 5.0, 0.5, 3, 4) - 0.4) - trees;
    if v < crest {
        return far(u, v);
    }
    let leaves = detail(60.0 * u, 45.0 * v, 4, 5);
    let autumn = ramp(0.45, 0.60, detail(30.0 * u, 40.0 * v, 3, 13));
    let hue = between([0.03, 0.06, 0.02], [0.14, 0.06, 0.015], autumn);
    let edge = ramp(0.05, 0.0, v - crest);
    scaled(hue, 0.2 + 3.2 * leaves * leaves + edge)
}

/// The lake: the land and the sky upside down, in ripples, with the sun's path on it.
fn lake(u: f32, v: f32) -> Light {
    let nearness = (v - HORIZON) / 0.25;
    let ripple = detail(9.0 * u, 110.0 * v, 4, 6) - 0.47;
    let mirrored = near(
        u + 0.02 * ripple,
        2.0 * HORIZON - v + 0.16 * ripple * nearness,
    );
    let mirrored = mirrored.map(|c| c.min(2.0));
    let path = ramp(0.05 + 0.12 * nearness, 0.0, (u - SUN.0).abs());
    let spark = ramp(0.66, 0.85, waves(95.0 * u, 330.0 * v, 902));
    let glitter = scaled([1.0, 0.8, 0.5], path * (0.3 + 60.0 * spark));
    plus(
        between(mirrored, [0.02, 0.05, 0.07], 0.25 + 0.15 * nearness),
        glitter,
    )
}

/// The flower that grows in a cell of the meadow, if one covers the place: white, yellow, red or blue.
fn flower(u: f32, v: f32) -> Option<Light> {
    let (x, y) = (58.0 * u, 80.0 * v);
    let (i, j) = (x.floor() as i64, y.floor() as i64);
    let own = |layer| at_place(i, j, layer);
    let patch = detail(3.0 * u, 6.0 * v, 3, 12);
    let away = (x.fract() - 0.3 - 0.4 * own(910)).hypot(y.fract() - 0.3 - 0.4 * own(911));
    if own(912) > 1.6 * patch - 0.35 || away > 0.16 + 0.16 * own(913) {
        return None;
    }
    let colours = [
        [0.85, 0.82, 0.75],
        [0.85, 0.62, 0.03],
        [0.70, 0.06, 0.09],
        [0.22, 0.16, 0.62],
    ];
    Some(scaled(
        colours[(4.0 * own(914)) as usize % 4],
        1.1 - 2.2 * away * away,
    ))
}

/// Grass and dry stalks over earth, each blade of its own hue.
fn meadow(u: f32, v: f32) -> Light {
    if let Some(light) = flower(u, v) {
        return light;
    }
    let (x, y) = (150.0 * u, 60.0 * v + 40.0 * u);
    let blades = detail(x, y, 3, 7);
    let dry = ramp(0.38, 0.60, detail(6.0 * u, 12.0 * v, 5, 8)) + 0.9 * waves(x, y, 915) - 0.45;
    let stalk = between([0.07, 0.14, 0.02], [0.36, 0.25, 0.09], dry.clamp(0.0, 1.0));
    let earth = scaled([0.06, 0.035, 0.03], 0.5 + waves(2.0 * x, y, 916));
    between(earth, scaled(stalk, 2.6 * blades), ramp(0.28, 0.45, blades))
}

/// A round stone's light, if it covers the place.
fn stone(u: f32, v: f32, (x, y, radius): (f32, f32, f32)) -> Option<Light> {
    let (dx, dy) = ((u - x) / radius, (v - y) / (0.7 * radius));
    let height = 1.0 - dx * dx - dy * dy;
    if height < 0.0 {
        return None;
    }
    let facing = (0.75 * dx - 0.45 * dy + 0.35 * height.sqrt()).max(0.0);
    let grain = 0.5 + detail(45.0 * u, 45.0 * v, 5, 9);
    let lichen = ramp(0.50, 0.56, detail(30.0 * u, 30.0 * v, 4, 14));
    let hue = between([0.75, 0.60, 0.45], [0.62, 0.56, 0.12], lichen);
    let lit = plus([0.05, 0.055, 0.07], scaled(hue, facing * facing));
    Some(scaled(lit, grain))
}

const STONES: [(f32, f32, f32); 6] = [
    (0.66, 0.86, 0.055),
    (0.77, 0.90, 0.090),
    (0.95, 0.83, 0.035),
    (1.22, 0.93, 0.120),
    (1.36, 0.86, 0.050),
    (0.55, 0.95, 0.040),
];

/// The hut's light, if it covers the place.
fn hut(u: f32, v: f32) -> Option<Light> {
    let (across, up) = ((u - 0.28) / 0.15, (0.86 - v) / 0.20);
    if !(0.0..=1.75).contains(&up) {
        return None;
    }
    if up > 1.0 {
        let roof = across.abs() < 1.2 - (up - 1.0) * 0.75;
        let row = (up * 16.0).fract();
        let tile = waves(90.0 * u, (up * 16.0).floor() + 0.5, 903);
        let light = 0.4 + 0.8 * tile - if row < 0.2 { 0.3 } else { 0.0 };
        return roof.then(|| scaled([0.16, 0.10, 0.09], light));
    }
    if across.abs() > 1.0 {
        return None;
    }
    let (pane, level) = ((across.abs() - 0.5).abs(), (up - 0.55).abs());
    if pane < 0.22 && level < 0.2 {
        let lit = pane > 0.02 && level > 0.015;
        let lamp = 5.0 + 7.0 * ramp(0.3, 0.0, (across - 0.4).hypot(up - 0.6));
        return Some(if lit {
            scaled([1.0, 0.62, 0.22], lamp)
        } else {
            [0.55, 0.52, 0.48]
        });
    }
    if pane < 0.27 && level < 0.25 {
        return Some([0.62, 0.60, 0.56]);
    }
    let gap = (up * 14.0).fract() < 0.12;
    let wood = 0.6 + 0.8 * detail(12.0 * u, 160.0 * v, 4, 10);
    let shade = if gap { 0.35 } else { 1.0 } * (0.75 + 0.35 * across);
    Some(scaled([0.40, 0.055, 0.035], wood * shade))
}

/// The light from a place of the scene, which is 1 high.
fn light(u: f32, v: f32) -> Light {
    let covered = hut(u, v).or_else(|| STONES.iter().rev().find_map(|&s| stone(u, v, s)));
    if let Some(light) = covered {
        return light;
    }
    let shore = 0.80 + 0.10 * (detail(4.0 * u, 0.5, 5, 11) - 0.5);
    if v > shore {
        meadow(u, v)
    } else if v > HORIZON {
        lake(u, v)
    } else {
        near(u, v)
    }
}

/// The scene in so many pixels, row by row: the light from four places of each, with the grain of a sensor.
pub fn drawn(width: usize, height: usize) -> Vec<Light> {
    const PLACES: [(f32, f32); 4] = [(0.25, 0.25), (0.75, 0.25), (0.25, 0.75), (0.75, 0.75)];
    let pixel = |k| {
        let (x, y) = (k % width, k / width);
        let seen = PLACES.iter().fold([0.0; 3], |sum, (dx, dy)| {
            let (u, v) = (x as f32 + dx, y as f32 + dy);
            plus(sum, light(u / height as f32, v / height as f32))
        });
        let grain = |layer| at_place(x as i64, y as i64, layer) - 0.5;
        let all = 0.03 * grain(904);
        std::array::from_fn(|i| 0.25 * seen[i] * (1.0 + all + 0.03 * grain(905 + i as u64)))
    };
    (0..width * height).map(pixel).collect()
}

/// Red, green, blue and alpha of each pixel, as a camera gives them: highlights roll off, and a power of the light is stored.
pub fn ldr(drawn: &[Light]) -> Vec<u8> {
    let byte = |c: f32| (255.0 * (1.0 - (-1.2 * c).exp()).powf(1.0 / 2.2) + 0.5) as u8;
    drawn
        .iter()
        .flat_map(|light| [byte(light[0]), byte(light[1]), byte(light[2]), 255])
        .collect()
}

/// Red, green, blue and alpha of each pixel, in linear light.
pub fn hdr(drawn: &[Light]) -> Vec<f32> {
    drawn
        .iter()
        .flat_map(|light| [light[0], light[1], light[2], 1.0])
        .collect()
}
