//! A scene to be looked at: a ball with a highlight and a soft shadow before a smooth ground, fine stripes, and ramps of grey and of
//! colours. It is computed by sums, products and square roots alone, which are the same on every machine.

pub const WIDTH: usize = 480;
pub const HEIGHT: usize = 320;

/// Red, green and blue, from 0 to 1.
type Colour = [f32; 3];

/// The colour between two others, the nearer to the second the larger the share.
fn mix(first: Colour, second: Colour, share: f32) -> Colour {
    std::array::from_fn(|k| first[k] + (second[k] - first[k]) * share)
}

/// From 0 to 1 while a number goes from one limit to the other, smoothly at both ends.
fn smooth(from: f32, to: f32, number: f32) -> f32 {
    let t = ((number - from) / (to - from)).clamp(0.0, 1.0);
    t * t * (3.0 - 2.0 * t)
}

/// A wall that darkens upwards and to the sides, and a floor that it turns into without an edge.
fn ground(x: f32, y: f32) -> Colour {
    let wall = mix(
        [0.10, 0.14, 0.24],
        [0.46, 0.55, 0.66],
        smooth(-40.0, 230.0, y),
    );
    let floor = mix(
        [0.87, 0.80, 0.70],
        [0.60, 0.51, 0.42],
        smooth(215.0, 330.0, y),
    );
    let side = (x - 200.0) / 420.0;
    let colour = mix(wall, floor, smooth(195.0, 245.0, y));
    colour.map(|channel| channel * (1.0 - 0.9 * side * side))
}

const CENTRE: [f32; 2] = [168.0, 142.0];
const RADIUS: f32 = 92.0;

/// How much light the ball takes from the floor: a flat disc below it, soft at its edge, away from the light.
fn shade(x: f32, y: f32) -> f32 {
    let (dx, dy) = ((x - CENTRE[0] - 34.0) / 138.0, (y - 240.0) / 30.0);
    0.78 * smooth(1.0, 0.0, (dx * dx + dy * dy).sqrt())
}

/// Where the light comes from, and where a surface looks that would mirror it to the eye, halfway between the two. Both have about the
/// length 1.
const LIGHT: [f32; 3] = [-0.50, -0.62, 0.60];
const HALFWAY: [f32; 3] = [-0.28, -0.347, 0.895];

fn product(a: [f32; 3], b: [f32; 3]) -> f32 {
    a[0] * b[0] + a[1] * b[1] + a[2] * b[2]
}

/// The colour of the ball where its surface looks in a direction: red, lit from one side and by the floor, with a highlight.
fn surface(normal: [f32; 3]) -> Colour {
    let lit = product(normal, LIGHT).max(0.0);
    let from_floor = 0.22 * smooth(0.1, 1.0, normal[1]);
    let edge = 1.0 - normal[2];
    let paint = [0.86, 0.13, 0.10].map(|channel| channel * (0.16 + 0.92 * lit));
    let reflected = mix(paint, [0.87, 0.72, 0.58], from_floor);
    let rimmed = mix(reflected, [0.55, 0.64, 0.76], 0.35 * edge * edge * edge);
    let mut shine = product(normal, HALFWAY).max(0.0);
    for _ in 0..6 {
        shine *= shine;
    }
    mix(rimmed, [1.0, 0.98, 0.94], 0.95 * shine)
}

/// The ball's colour at a pixel, and how much of the pixel it covers.
fn ball(x: f32, y: f32) -> (Colour, f32) {
    let (dx, dy) = ((x - CENTRE[0]) / RADIUS, (y - CENTRE[1]) / RADIUS);
    let distance = (dx * dx + dy * dy).sqrt();
    let covered = (RADIUS * (1.0 - distance) + 0.5).clamp(0.0, 1.0);
    let depth = (1.0 - distance * distance).max(0.0).sqrt();
    (surface([dx, dy, depth]), covered)
}

/// A card of stripes: upright ones in four columns, each finer than the one before, and slanted ones of three colours below them.
fn card(x: usize, y: usize) -> Option<Colour> {
    const PAPER: Colour = [0.95, 0.95, 0.92];
    const COLOURS: [Colour; 3] = [[0.10, 0.36, 0.60], [0.95, 0.78, 0.22], [0.16, 0.52, 0.40]];
    let (x, y) = (x.checked_sub(310)?, y.checked_sub(44)?);
    match (x, y) {
        (4..140, 4..75) => {
            let (column, across) = ((x - 4) / 34, (x - 4) % 34);
            let half = 4 - column;
            Some(if across / half % 2 == 0 {
                [0.08; 3]
            } else {
                PAPER
            })
        }
        (4..140, 75..146) => Some(COLOURS[(x + y) / 5 % 3]),
        (0..144, 0..150) => Some(PAPER),
        _ => None,
    }
}

/// A colour of the rainbow, from 0 to 6.
fn hue(place: f32) -> Colour {
    let channel = |peak: f32| {
        let away = (place - peak).abs();
        (2.0 - away.min(6.0 - away)).clamp(0.0, 1.0)
    };
    [channel(0.0), channel(2.0), channel(4.0)]
}

/// Two bars at the foot: grey from black to white, and the rainbow.
fn bars(x: usize, y: usize) -> Option<Colour> {
    let along = x.checked_sub(24).filter(|&x| x < 432)? as f32 / 431.0;
    match y {
        276..288 => Some([along; 3]),
        290..302 => Some(hue(6.0 * along)),
        _ => None,
    }
}

/// The word of a pixel.
pub fn pixel(x: usize, y: usize) -> u32 {
    let (at_x, at_y) = (x as f32, y as f32);
    let floor = smooth(205.0, 240.0, at_y);
    let dark = 1.0 - floor * shade(at_x, at_y);
    let ground = ground(at_x, at_y).map(|channel| channel * dark);
    let behind = bars(x, y).or_else(|| card(x, y)).unwrap_or(ground);
    let (colour, covered) = ball(at_x, at_y);
    let [red, green, blue] =
        mix(behind, colour, covered).map(|channel| (255.0 * channel.clamp(0.0, 1.0) + 0.5) as u8);
    u32::from_le_bytes([blue, green, red, 255])
}
