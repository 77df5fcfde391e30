//! Scripts that a generator makes, in small blocks: none makes a machine panic, and by steps each does what it does at
//! once. Sums are checked where tests are built.
use trac_t64::{Cell, Machine, Report, SliceSink, SliceSource};

const SCRIPTS: u32 = 100_000;

const PARTS: &[&[u8]] = &[
    b"#(", b"##(", b"(", b")", b")", b")", b",", b",", b"'", b"#", b"A", b"B", b"-", b"7", b"12",
    b"17014118346046923173", b"#(rs)", b"#(rc)", b"#(cm,", b"#(ps,", b"#(hl)", b"#(ds,A,",
    b"#(ds,B,", b"#(ss,A,", b"#(dd,", b"#(da)", b"#(ln,", b"#(pf,A)", b"#(cl,A,", b"##(cl,A,",
    b"#(cs,A,", b"#(cc,A,", b"#(cn,A,", b"#(in,A,", b"#(cr,A)", b"#(eq,", b"#(gr,", b"#(ad,",
    b"#(su,", b"#(ml,", b"#(dv,", b"#(bu,", b"#(bi,", b"#(bc,", b"#(bs,", b"#(br,", b"\n", b"\0",
    b"\xff",
];

/// Numbers without end, each time the same (Marsaglia's xorshift).
struct Numbers(u64);

impl Numbers {
    fn below(&mut self, most: usize) -> usize {
        self.0 ^= self.0 << 13;
        self.0 ^= self.0 >> 7;
        self.0 ^= self.0 << 17;
        (self.0 >> 11) as usize % most
    }

    fn script(&mut self) -> Vec<u8> {
        let parts = self.below(24);
        (0..parts).flat_map(|_| PARTS[self.below(PARTS.len())]).copied().collect()
    }
}

/// What a run came to, and what it printed: at once, or by single steps.
fn ran(script: &[u8], cells: usize, steps: u64, at_once: bool) -> (Report, Vec<u8>) {
    let mut block = [Cell::Byte(0); 128];
    let mut printed = [0; 64];
    let mut source = SliceSource::new(script, None);
    let mut sink = SliceSink::new(&mut printed, None);
    let mut machine = Machine::over(&mut block[..cells], steps);
    if !at_once {
        while machine.step(&mut source, &mut sink).is_none() {}
    }
    (machine.resume(&mut source, &mut sink), sink.written().to_vec())
}

#[test]
fn no_script_panics() {
    let mut numbers = Numbers(0x7472_6163);
    let mut printed = 0;
    for _ in 0..SCRIPTS {
        let (script, cells, steps) = (numbers.script(), numbers.below(129), numbers.below(400) as u64);
        let whole = ran(&script, cells, steps, true);
        assert_eq!(ran(&script, cells, steps, false), whole, "{:?}", String::from_utf8_lossy(&script));
        printed += u32::from(!whole.1.is_empty());
    }
    assert!(printed > SCRIPTS / 50, "{printed}");
}
