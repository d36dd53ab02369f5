
// Appended to a copy of fuji_compressed.rs: a child module sees its parent's private items.
pub mod leaves {
    use super::*;

    pub fn k(sum: i32, n: i32) -> u32 {
        bit_diff(sum, n)
    }

    /// The tables of one depth: the main ones of every base, and the three flat ones.
    pub struct Tables(Common);

    /// What a table says of itself, and the sum that its statistics start with.
    pub struct Numbers {
        pub base: i32,
        pub weight: i32,
        pub total: i32,
        pub raw: u32,
        pub limit: i32,
        pub start: i32,
    }

    /// A sample that was read, the statistics that it changed, and where the reader then stands.
    pub struct Sample {
        pub value: u16,
        /// 0 for the main statistics, 1 to 3 for those of a flat table.
        pub table: u32,
        pub index: u32,
        pub sum: i32,
        pub n: u32,
        pub position: u64,
        pub overrun: bool,
    }

    /// The line, the statistics and the differences of a sample that is to be read.
    pub struct Given {
        pub lossy: bool,
        pub base: u32,
        pub sum: i32,
        pub n: u32,
        pub flat: i32,
        pub v1: i32,
        pub v2: i32,
        pub prediction: i32,
    }

    /// What neighbours give: the prediction, the statistics used, and the sample of the code 2.
    pub struct Context {
        pub prediction: u16,
        pub table: u32,
        pub index: u32,
        pub second: u16,
    }

    impl Tables {
        pub fn new(bits: u32) -> Tables {
            let header = FujiHeader {
                lossless: false,
                xtrans: false,
                bits,
                height: 6,
                rounded_width: 768,
                width: 768,
                block_size: 768,
                blocks: 1,
                lines: 1,
            };
            let bases: Vec<u8> = (0..=255).collect();
            Tables(Common::new(&header, &[&bases]).unwrap())
        }

        fn main(&self, base: u32) -> &QTable {
            self.0.main[base as usize].as_ref().unwrap()
        }

        fn table(&self, flat: u32, base: u32) -> &QTable {
            if flat == 0 { self.main(base) } else { &self.0.extra[flat as usize - 1] }
        }

        pub fn level(&self, flat: u32, base: u32, v: i32) -> i32 {
            self.table(flat, base).level(v)
        }

        pub fn numbers(&self, flat: u32, base: u32) -> Numbers {
            let t = self.table(flat, base);
            let line = [base as u8];
            let mut d = BlockDecoder::<true>::new(&self.0, &[], &line).unwrap();
            d.init_main_grads();
            let g = &d.grads[0][0];
            let stat = if flat == 0 { g.main[0] } else { g.lossy[flat as usize - 1][0] };
            Numbers {
                base: t.q_base,
                weight: t.grad_mult,
                total: t.total_values,
                raw: t.raw_bits,
                limit: t.max_zeros,
                start: stat.sum,
            }
        }

        fn sampler<'a>(&'a self, base: u32, data: &'a [u8], position: u64) -> Sampler<'a, 'a> {
            Sampler { c: &self.0, qt: self.main(base), bits: BitPumpMsb::at_bit(data, position), overrun: false }
        }

        /// The next sample of `data` from a bit on. All statistics begin alike.
        pub fn residual(&self, data: &[u8], position: u64, g: &Given) -> Sample {
            let mut st = self.sampler(g.base, data, position);
            let mut grads = alike(g.sum, g.n);
            let value = if g.lossy {
                st.decode_residual::<true>(&mut grads, g.flat, g.v1, g.v2, g.prediction)
            } else {
                st.decode_residual::<false>(&mut grads, g.flat, g.v1, g.v2, g.prediction)
            };
            let (table, index, stat) = changed(&grads, g.n);
            Sample {
                value,
                table,
                index,
                sum: stat.sum,
                n: stat.n as u32,
                position: st.bits.bit_position(),
                overrun: st.overrun,
            }
        }

        pub fn even(&self, base: u32, rf: u16, rc: u16, rb: u16, rd: u16) -> Context {
            let (rf32, rc32, rb32, rd32) = (rf as i32, rc as i32, rb as i32, rd as i32);
            let lines = [0, rf, 0, rc, rb, rd, 0, 0, 0];
            let r = self.context(base, &lines, 0);
            assert_eq!(r.prediction as i32, even_prediction(rf32, rc32, rb32, rd32) >> 2);
            let mut drawn = lines;
            let mut interpolated = Lines::new(&mut drawn, 3);
            interpolated.interp_even(0);
            assert_eq!(r.prediction, interpolated.cur[1]);
            r
        }

        pub fn odd(&self, base: u32, ra: u16, rg: u16, rb: u16, rc: u16, rd: u16) -> Context {
            self.context(base, &[0, 0, 0, 0, 0, rc, rb, rd, 0, ra, 0, rg], 1)
        }

        /// The sample at a position of three lines is read twice, with k 0: by the code 0, whose
        /// residual is 0, so that the sample is the prediction, and by the code 2, whose residual is 1.
        fn context(&self, base: u32, lines: &[u16], position: usize) -> Context {
            let (prediction, table, index) = self.coded(base, lines, position, &[0x80; 1]);
            let (second, table2, index2) = self.coded(base, lines, position, &[0x20; 1]);
            assert_eq!((table, index), (table2, index2));
            Context { prediction, table, index, second }
        }

        fn coded(&self, base: u32, lines: &[u16], position: usize, code: &[u8]) -> (u16, u32, u32) {
            let mut block = lines.to_vec();
            let mut window = Lines::new(&mut block, lines.len() / 3);
            let mut st = self.sampler(base, code, 0);
            let mut grads = alike(0, 1);
            match (position % 2, base) {
                (0, 0) => window.decode_even::<false>(&mut st, &mut grads, position),
                (0, _) => window.decode_even::<true>(&mut st, &mut grads, position),
                (_, 0) => window.decode_odd::<false>(&mut st, &mut grads, position),
                (_, _) => window.decode_odd::<true>(&mut st, &mut grads, position),
            }
            assert!(!st.overrun);
            let (table, index, _) = changed(&grads, 1);
            (window.cur[position + 1], table, index)
        }
    }

    fn alike(sum: i32, n: u32) -> Grads {
        let stat = new_stat(sum, n as i32);
        Grads { main: [stat; 41], lossy: [[stat; 5]; 3] }
    }

    /// The one record whose count is not n any more, and its table and index.
    fn changed(grads: &Grads, n: u32) -> (u32, u32, Stat) {
        let mut all: Vec<(u32, u32, Stat)> = Vec::new();
        for (i, s) in grads.main.iter().enumerate() {
            all.push((0, i as u32, *s));
        }
        for (t, set) in grads.lossy.iter().enumerate() {
            for (i, s) in set.iter().enumerate() {
                all.push((t as u32 + 1, i as u32, *s));
            }
        }
        all.retain(|(_, _, s)| s.n as u32 != n);
        assert_eq!(all.len(), 1);
        all[0]
    }
}
