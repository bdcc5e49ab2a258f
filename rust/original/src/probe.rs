
/// Probes: the private functions above, called as `decode_astc_block` calls them.
pub mod probe {
    use super::*;
    use std::array;
    use std::sync::LazyLock;

    /// What `decode_block_params` finds.
    pub struct Params {
        pub width: usize,
        pub height: usize,
        pub part_num: usize,
        pub dual_plane: bool,
        pub plane_selector: usize,
        pub weight_range: usize,
        pub weight_num: usize,
        pub cem: [usize; 4],
        pub cem_range: usize,
        pub endpoint_value_num: usize,
    }

    pub fn params(buf: &[u8], bw: usize, bh: usize) -> Params {
        let mut d = BlockData::default();
        d.bw = bw;
        d.bh = bh;
        decode_block_params(buf, &mut d);
        Params {
            width: d.width,
            height: d.height,
            part_num: d.part_num,
            dual_plane: d.dual_plane,
            plane_selector: d.plane_selector,
            weight_range: d.weight_range,
            weight_num: d.weight_num,
            cem: d.cem,
            cem_range: d.cem_range,
            endpoint_value_num: d.endpoint_value_num,
        }
    }

    /// The values of a sequence, each its digit and its plain bits, from `offset` upwards or downwards.
    pub fn intseq(buf: &[u8], offset: usize, a: usize, b: usize, count: usize, reverse: bool) -> Vec<(u64, u64)> {
        let mut out = vec![IntSeqData::default(); count];
        decode_intseq(buf, offset, a, b, count, reverse, &mut out);
        out.iter().map(|v| (v.nonbits, v.bits)).collect()
    }

    /// The trit or quint count of a range of endpoints, by the original's number, and its plain bits.
    pub fn cem_kind(cem_range: usize) -> (usize, usize) {
        (CEM_TABLE_A[cem_range], CEM_TABLE_B[cem_range])
    }

    /// The same for a range of weights.
    pub fn weight_kind(weight_range: usize) -> (usize, usize) {
        (
            WEIGHT_PREC_TABLE_A[weight_range] as usize,
            WEIGHT_PREC_TABLE_B[weight_range] as usize,
        )
    }

    pub fn endpoints(buf: &[u8], part_num: usize, cem: [usize; 4], cem_range: usize, count: usize) -> [[i32; 8]; 4] {
        let mut d = BlockData::default();
        d.part_num = part_num;
        d.cem = cem;
        d.cem_range = cem_range;
        d.endpoint_value_num = count;
        decode_endpoints(buf, &mut d);
        d.endpoints
    }

    pub fn weights(
        buf: &[u8],
        bw: usize,
        bh: usize,
        width: usize,
        height: usize,
        dual_plane: bool,
        weight_range: usize,
    ) -> [[i32; 2]; 144] {
        let mut d = BlockData::default();
        d.bw = bw;
        d.bh = bh;
        d.width = width;
        d.height = height;
        d.dual_plane = dual_plane;
        d.weight_range = weight_range;
        d.weight_num = if dual_plane { width * height * 2 } else { width * height };
        decode_weights(buf, &mut d);
        d.weights
    }

    pub fn partition(buf: &[u8], bw: usize, bh: usize, part_num: usize) -> [usize; 144] {
        let mut d = BlockData::default();
        d.bw = bw;
        d.bh = bh;
        d.part_num = part_num;
        select_partition(buf, &mut d);
        d.partition
    }

    pub fn reversed(x: u64, bits: usize) -> u64 {
        bit_reverse_u64(x, bits)
    }

    pub fn blend(v0: i32, v1: i32, weight: i32) -> u8 {
        select_color(v0, v1, weight)
    }

    pub fn blend_hdr(v0: i32, v1: i32, weight: i32) -> u8 {
        select_color_hdr(v0, v1, weight)
    }

    /// The last lines of `select_color_hdr`, of any half.
    pub fn hdr_half(h: u16) -> u8 {
        let f: f32 = fp16_ieee_to_fp32_value(h);
        if f32::is_finite(f) {
            (floor(f * 255.0) as i32).clamp(0, 255) as u8
        } else {
            255
        }
    }

    pub fn void_half(h: u16) -> u8 {
        f16ptr_to_u8(&h.to_le_bytes())
    }

    /// What `applicate_color` makes a channel of: two endpoints and a weight, by `select_color_hdr` or by `select_color`.
    #[derive(Clone, Copy)]
    pub struct Channel {
        pub hdr: bool,
        pub v0: i32,
        pub v1: i32,
        pub weight: i32,
    }

    impl Channel {
        /// The half of an HDR channel: the lines of `select_color_hdr` up to it.
        pub fn half(self) -> u16 {
            let Channel { v0, v1, weight, .. } = self;
            let c: u16 = (((v0 << 4) * (64 - weight) + (v1 << 4) * weight + 32) >> 6) as u16;
            let mut m: u16 = c & 0x7ff;
            if m < 512 {
                m *= 3;
            } else if m < 1536 {
                m = 4 * m - 512;
            } else {
                m = 5 * m - 2048;
            }
            (c >> 1 & 0x7c00) | m >> 3
        }

        /// The byte of an LDR channel.
        pub fn byte(self) -> u8 {
            select_color(self.v0, self.v1, self.weight)
        }
    }

    /// A texel's partition, and its red, green, blue and alpha.
    pub struct Texel {
        pub partition: usize,
        pub channels: [Channel; 4],
    }

    /// Whether the channels of an endpoint mode are HDR, by `applicate_color`'s own tables: it paints a texel whose endpoints are all
    /// 32, which is 32 of an LDR channel and 0 of an HDR one.
    pub fn hdr(mode: usize) -> [bool; 4] {
        let mut d = BlockData::default();
        d.bw = 1;
        d.bh = 1;
        d.part_num = 1;
        d.cem[0] = mode;
        d.endpoints[0] = [32; 8];
        let mut word = [0];
        applicate_color(&mut d, &mut word);
        let [blue, green, red, alpha] = word[0].to_le_bytes();
        [red, green, blue, alpha].map(|byte| byte == 0)
    }

    static HDR: LazyLock<[[bool; 4]; 16]> = LazyLock::new(|| array::from_fn(hdr));

    /// The texels of a block that is neither void nor reserved, as `applicate_color` finds them.
    pub fn texels(buf: &[u8], bw: usize, bh: usize) -> Vec<Texel> {
        let mut d = BlockData::default();
        d.bw = bw;
        d.bh = bh;
        decode_block_params(buf, &mut d);
        decode_endpoints(buf, &mut d);
        decode_weights(buf, &mut d);
        if d.part_num > 1 {
            select_partition(buf, &mut d);
        }
        let mut planes = [0; 4];
        if d.dual_plane {
            planes[d.plane_selector] = 1;
        }
        let texel = |i: usize| {
            let partition = d.partition[i];
            let ends = d.endpoints[partition];
            let channel = |k: usize| Channel {
                hdr: HDR[d.cem[partition]][k],
                v0: ends[k],
                v1: ends[4 + k],
                weight: d.weights[i][planes[k]],
            };
            Texel {
                partition,
                channels: array::from_fn(channel),
            }
        };
        (0..bw * bh).map(texel).collect()
    }
}
