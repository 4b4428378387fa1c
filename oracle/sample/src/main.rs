//! Writes the bench rows of the sample to standard output: a fixed list of rows
//! for the row program that reaches every mask, field, habit and refusal of the
//! bench, and rows that are no rows in either form. The last row has no line
//! end.

use std::collections::HashSet;
use std::io::{self, Write};

/// Addresses at which sums wrap, signs change or bits are cleared.
const ADDRESSES: [u32; 9] = [
    0,
    2,
    0x100,
    0x7fff_fffc,
    0x8000_0000,
    0xffff_fff8,
    0xffff_fffc,
    0xffff_fffe,
    0xffff_ffff,
];

/// The always condition, at its place in an ARM word.
const AL: u32 = 0xe000_0000;

/// The ARM masks and values in the Rust's order, and the words that fit none.
const ARM_MASKS: [(u32, u32); 17] = [
    (0x0fff_fff0, 0x012f_ff10), // branch and exchange
    (0x0e00_0000, 0x0a00_0000), // branch
    (0x0e00_0010, 0x0600_0000), // undefined
    (0x0fb0_0ff0, 0x0100_0090), // swap
    (0x0fc0_00f0, 0x0000_0090), // multiply
    (0x0f80_00f0, 0x0080_0090), // multiply long
    (0x0fbf_0fff, 0x010f_0000), // from status
    (0x0fbf_fff0, 0x0129_f000), // to status
    (0x0dbf_f000, 0x0128_f000), // to flags
    (0x0c00_0000, 0x0400_0000), // single transfer
    (0x0e40_0f90, 0x0000_0090), // halfword transfer, register
    (0x0e40_0090, 0x0040_0090), // halfword transfer, immediate
    (0x0e00_0000, 0x0800_0000), // block transfer
    (0x0f00_0000, 0x0f00_0000), // software interrupt
    (0x0c00_0000, 0x0000_0000), // data processing
    (0x0e00_0000, 0x0c00_0000), // none: coprocessor transfer
    (0x0f00_0000, 0x0e00_0000), // none: coprocessor operation
];

/// The Thumb masks and values in the Rust's order, and some that fit none.
const THUMB_MASKS: [(u16, u16); 23] = [
    (0xf800, 0x1800), // add and subtract
    (0xe000, 0x0000), // move shifted register
    (0xe000, 0x2000), // immediate
    (0xfc00, 0x4000), // register operations
    (0xfc00, 0x4400), // high registers
    (0xf800, 0x4800), // load by pc
    (0xf200, 0x5000), // transfer, register offset
    (0xf200, 0x5200), // halfword and signed transfer
    (0xe000, 0x6000), // transfer, immediate offset
    (0xf000, 0x8000), // halfword transfer, immediate offset
    (0xf000, 0x9000), // transfer by sp
    (0xf000, 0xa000), // load address
    (0xff00, 0xb000), // add to sp
    (0xf600, 0xb400), // push and pop
    (0xf000, 0xc000), // block transfer
    (0xff00, 0xdf00), // software interrupt
    (0xf000, 0xd000), // conditional branch
    (0xf800, 0xe000), // branch
    (0xf000, 0xf000), // long branch
    (0xff00, 0xb100), // none
    (0xff00, 0xb800), // none
    (0xff00, 0xbe00), // none
    (0xf800, 0xe800), // none
];

/// Bytes that no place of a row allows: the neighbours of the digits, capitals,
/// control bytes and bytes above ASCII.
const BAD_BYTES: &[u8] = b"/:`gAF@G\0\t\r\x0b\x7f\x80\xc3\xff";

struct Sample {
    random: u64,
    turn: usize,
    seen: HashSet<Vec<u8>>,
    out: Vec<u8>,
}

impl Sample {
    /// splitmix64: the next random number, its low 32 bits.
    fn random(&mut self) -> u32 {
        self.random = self.random.wrapping_add(0x9e37_79b9_7f4a_7c15);
        let mut z = self.random;
        z = (z ^ z >> 30).wrapping_mul(0xbf58_476d_1ce4_e5b9);
        z = (z ^ z >> 27).wrapping_mul(0x94d0_49bb_1331_11eb);
        (z ^ z >> 31) as u32
    }

    /// The next address: each of the list in turn, then three random ones.
    fn address(&mut self) -> u32 {
        self.turn = (self.turn + 1) % (ADDRESSES.len() + 3);
        match self.turn.checked_sub(ADDRESSES.len()) {
            None => ADDRESSES[self.turn],
            Some(0) => self.random() & !3,
            Some(1) => self.random() & 0xfff,
            Some(_) => self.random(),
        }
    }

    /// Adds a row as it stands.
    fn raw(&mut self, row: &[u8]) {
        self.out.extend_from_slice(row);
        self.out.push(b'\n');
    }

    /// Adds a row unless it is there.
    fn row(&mut self, row: String) {
        if self.seen.insert(row.clone().into_bytes()) {
            self.raw(row.as_bytes());
        }
    }

    fn arm_at(&mut self, address: u32, word: u32) {
        self.row(format!("A {address:08x} {word:08x}"));
    }

    fn thumb_at(&mut self, address: u32, word: u16) {
        self.row(format!("T {address:08x} {word:04x}"));
    }

    fn arm(&mut self, word: u32) {
        let address = self.address();
        self.arm_at(address, word);
    }

    fn thumb(&mut self, word: u16) {
        let address = self.address();
        self.thumb_at(address, word);
    }

    /// An ARM word with random bits where `free` is set.
    fn arm_free(&mut self, word: u32, free: u32) {
        let word = word | self.random() & free;
        self.arm(word);
    }

    /// A Thumb word with random bits where `free` is set.
    fn thumb_free(&mut self, word: u16, free: u16) {
        let word = word | self.random() as u16 & free;
        self.thumb(word);
    }

    fn worked(&mut self) {
        for word in [
            0xe082_1003,
            0xe511_0004,
            0xe791_0002,
            0xf12f_ff10,
            0xe180_0090,
            0xf180_0090,
            0xe11f_0000,
            0xe3a0_0c01,
            0xe511_0000,
            0xe591_0000,
            0x0600_0000,
            0x0600_0010,
            0xe10f_0000,
            0xe3a0_0f01,
            0xe3a0_0004,
            0xf000_0000,
        ] {
            self.arm_at(0, word);
        }
        self.arm_at(0x100, 0xe59f_0004);
        self.arm_at(0x100, 0xeaff_fffe);
        for word in [0x4480, 0xc808, 0xb0ff, 0x4280, 0xf000] {
            self.thumb_at(0, word);
        }
        self.thumb_at(0x100, 0xde00);
        self.thumb_at(0x100, 0xe000);
    }

    /// Free bits all clear, all set, and from both each bit of the word turned.
    fn arm_masks(&mut self) {
        for (mask, value) in ARM_MASKS {
            for word in [AL | value, AL | value | !mask & !(0xf << 28)] {
                self.arm(word);
                for bit in 0..32 {
                    self.arm(word ^ 1 << bit);
                }
            }
        }
    }

    fn arm_conditions(&mut self) {
        for (mask, value) in ARM_MASKS {
            for condition in 0..16 {
                self.arm(condition << 28 | value);
                self.arm_free(condition << 28 | value, !mask & !(0xf << 28));
            }
        }
        // Both refusals are true of the last of these.
        for condition in 0..16 {
            self.arm_free(condition << 28 | 0x0180_0090, 0x003f_f00f);
            self.arm_free(condition << 28 | 0x0140_0090, 0x00bf_ff0f);
        }
    }

    /// Each register number in each field of four bits that a mask leaves free.
    fn arm_registers(&mut self) {
        for (mask, value) in ARM_MASKS {
            for field in [0, 8, 12, 16] {
                let place = 0xf << field;
                if mask & place == 0 {
                    for register in 0..16 {
                        let free = !mask & !place & !(0xf << 28);
                        self.arm_free(AL | value | register << field, free);
                    }
                }
            }
        }
    }

    fn arm_data_processing(&mut self) {
        for operation in 0..32 {
            let word = AL | operation << 20;
            self.arm_free(word | 0x0200_0000, 0x000f_ffff);
            self.arm_free(word, 0x000f_f00f);
            self.arm_free(word, 0x000f_ffef);
            self.arm_free(word | 0x10, 0x000f_ff6f);
        }
        // Every shift by every amount and by every register, the S flag set.
        for shift in 0..4 {
            for amount in 0..32 {
                self.arm_free(AL | 0x0010_0000 | amount << 7 | shift << 5, 0x01ef_f00f);
            }
            for register in 0..16 {
                let word = AL | 0x0010_0010 | register << 8 | shift << 5;
                self.arm_free(word, 0x01ef_f00f);
            }
        }
        for rotation in 0..16 {
            for immediate in [0, 1, 4, 0x80, 0xff] {
                let word = AL | 0x03a0_0000 | rotation << 8 | immediate;
                self.arm_free(word, 0x001f_f000);
            }
            self.arm_free(AL | 0x0280_0000 | rotation << 8, 0x011f_f0ff);
        }
        for immediate in [9, 10, 99, 100] {
            self.arm_free(AL | 0x03a0_0000 | immediate, 0x000f_f000);
        }
    }

    fn arm_status(&mut self) {
        for psr in [0, 0x0040_0000] {
            // Every N, Z, C, V, alone and with other bits.
            for flags in 0..16 {
                let word = AL | 0x0328_f000 | psr;
                self.arm(word | 0x200 | flags);
                self.arm_free(word | 0x200 | flags, 0xf0);
                self.arm_free(word | 0x300 | flags << 2, 0xc3);
                self.arm(word | flags << 8 | 0xff);
            }
            // The register may be shifted, and the word may look like a halfword
            // transfer, whose masks come later.
            for shift in 0..4 {
                let word = AL | 0x0128_f000 | psr | shift << 5;
                self.arm_free(word, 0xf);
                self.arm_free(word, 0xf8f);
                self.arm_free(word | 0x10, 0xf8f);
                self.arm_free(word | 0x90, 0x00f);
            }
        }
    }

    fn arm_transfers(&mut self) {
        let pc = 0x000f_0000;
        // Every P, U, B, W, L.
        for flags in 0..32 {
            let word = AL | 0x0400_0000 | flags << 20;
            for offset in [0, 1, 0xfff] {
                self.arm_free(word | offset, 0x000f_f000);
                self.arm_free(word | pc | offset, 0x0000_f000);
            }
            self.arm_free(word, 0x000f_ffff);
            self.arm_free(word | 0x0200_0010, 0x000f_ffef);
            self.arm_free(word | 0x0200_0010, 0x000f_ffef);
        }
        for shift in 0..4 {
            for register in 0..16 {
                let word = AL | 0x0600_0010 | register << 8 | shift << 5;
                self.arm_free(word, 0x01ff_f08f);
            }
        }
        for offset in [9, 10, 99, 100, 999, 1000] {
            self.arm(AL | 0x0590_0000 | offset);
            self.arm(AL | 0x0510_0000 | offset);
        }
        for address in ADDRESSES {
            for offset in [0, 4, 8, 0xfff] {
                self.arm_at(address, AL | 0x051f_0000 | offset);
                self.arm_at(address, AL | 0x059f_0000 | offset);
            }
            for offset in [0x0, 0x8, 0xf0f] {
                self.arm_at(address, AL | 0x015f_00b0 | offset);
                self.arm_at(address, AL | 0x01df_00d0 | offset);
            }
        }
        // Halfword transfers: every P, U, I, W, L and type.
        for flags in 0..32 {
            for kind in 0..4 {
                let word = AL | flags << 20 | 0x90 | kind << 5;
                let free = if flags & 4 == 0 { 0x00f } else { 0xf0f };
                self.arm_free(word, 0x000f_f000 | free);
                self.arm_free(word | pc, 0x0000_f000 | free);
            }
        }
        for offset in [0, 1, 0xf, 0x100, 0xf00, 0xf0f] {
            self.arm(AL | 0x0151_00b0 | offset);
            self.arm(AL | 0x01d1_00f0 | offset);
        }
    }

    fn arm_blocks(&mut self) {
        // Every P, U, S, W, L.
        for flags in 0..32 {
            let word = AL | 0x0800_0000 | flags << 20;
            self.arm_free(word, 0x000f_0000);
            self.arm_free(word | 0xffff, 0x000f_0000);
            self.arm_free(word, 0x000f_ffff);
        }
        for register in 0..16 {
            let word = AL | 0x0890_0000;
            self.arm_free(word | 1 << register, 0x006f_0000);
            self.arm_free(word | 0xffff ^ 1 << register, 0x006f_0000);
            self.arm_free(word | (3 << register) & 0xffff, 0x006f_0000);
        }
        // The longest lines there are.
        self.arm(0x086a_ffff);
        self.arm(0xd97a_ffff);
    }

    fn arm_branches(&mut self) {
        for address in ADDRESSES {
            for offset in [0, 1, 0x7f_fffe, 0x7f_ffff, 0x80_0000, 0xff_fffe, 0xff_ffff] {
                self.arm_at(address, AL | 0x0a00_0000 | offset);
                self.arm_at(address, AL | 0x0b00_0000 | offset);
            }
        }
        // Targets of every length: this branch goes to its own address.
        for digit in 0..8 {
            self.arm_at(1 << (4 * digit), 0xeaff_fffe);
            self.arm_at((1 << (4 * digit)) - 1, 0xeaff_fffe);
            self.arm(AL | 0x0f00_0000 | (1 << (4 * digit.min(5))));
            self.arm(AL | 0x0f00_0000 | ((1 << (4 * digit.min(6))) - 1));
        }
    }

    fn arm_multiplies(&mut self) {
        for flags in 0..16 {
            for _ in 0..4 {
                self.arm_free(AL | flags << 20 | 0x90, 0x000f_ff0f);
            }
        }
        for _ in 0..8 {
            self.arm_free(AL | 0x0100_0090, 0x004f_f00f);
        }
    }

    /// Rows that are no rows, in either form.
    fn malformed(&mut self) {
        let good: [&[u8]; 4] = [
            b"A 00000100 eafffffe",
            b"T 00000100 de00",
            b"a 00000100 eafffffe",
            b"t 00000100 de00",
        ];
        let mut bad_bytes = BAD_BYTES.iter().cycle();
        for row in good {
            for place in 0..row.len() {
                let (before, after) = row.split_at(place);
                for _ in 0..2 {
                    let bad = *bad_bytes.next().unwrap();
                    self.raw(&[before, &[bad], &after[1..]].concat());
                }
                self.raw(&[before, &after[1..]].concat());
                self.raw(&[before, &after[..1], after].concat());
            }
            for end in [" ", "\t", "\r", "\0", "0", "\u{e9}", " ; b"] {
                self.raw(&[row, end.as_bytes()].concat());
            }
            for start in [" ", "\r", "\u{feff}", "a", "A"] {
                self.raw(&[start.as_bytes(), row].concat());
            }
            self.raw(&[row, row].concat());
            self.raw(&row.to_ascii_uppercase());
            self.raw(&[row, &vec![b'0'; 256]].concat());
            self.raw(&[row, &vec![b'0'; 5000 - row.len()]].concat());
        }
        for row in [
            "",
            "",
            "\r",
            " ",
            "A",
            "T",
            "a",
            "t",
            "A ",
            "a ",
            "B 00000100 eafffffe",
            "b 00000100 eafffffe",
            "B 00000100 de00",
            "b 00000100 de00",
            "A 00000100 de00",
            "a 00000100 de00",
            "T 00000100 eafffffe",
            "t 00000100 eafffffe",
            "A  00000100 eafffffe",
            "A 00000100  eafffffe",
            "A 0000100 eafffffe ",
            "A 00000100 Eafffffe",
            "a 00000100 Eafffffe",
            "A 0000010A eafffffe",
            "a 0000010A eafffffe",
            "T 00000100 DE00",
            "t 00000100 DE00",
            "A 0x000100 eafffffe",
            "A -0000100 eafffffe",
            "A +0000100 eafffffe",
            "A,00000100,eafffffe",
            "A00000100eafffffe",
            "00000100 eafffffe",
            "b\t0x100",
            "b\t0x00000100",
            "!1",
            "T 00000100 de0\u{ff10}",
        ] {
            self.raw(row.as_bytes());
        }
        self.raw(&[b'a'; 5000]);
        self.raw(&[0xff; 19]);
        self.raw(&[0; 15]);
    }

    /// Free bits all clear, all set, and from both each bit of the word turned.
    fn thumb_masks(&mut self) {
        for (mask, value) in THUMB_MASKS {
            for word in [value, value | !mask] {
                self.thumb(word);
                for bit in 0..16 {
                    self.thumb(word ^ 1 << bit);
                }
            }
        }
        for top in 0..256 {
            self.thumb(top << 8);
            self.thumb(top << 8 | 0xff);
            self.thumb_free(top << 8, 0xff);
        }
    }

    fn thumb_registers(&mut self) {
        for number in 0..32 {
            // Every amount of every shift, every immediate offset.
            for operation in [0x0000, 0x0800, 0x1000] {
                self.thumb_free(operation | number << 6, 0x3f);
            }
            for operation in [0x6000, 0x6800, 0x7000, 0x7800, 0x8000, 0x8800] {
                self.thumb_free(operation | number << 6, 0x3f);
            }
            // Add and subtract with every register and immediate.
            self.thumb_free(0x1800 | number << 6, 0x3f);
        }
        for operation in 0..16 {
            for _ in 0..4 {
                self.thumb_free(0x4000 | operation << 6, 0x3f);
            }
            // High registers: every operation, H1, H2 and each register.
            for register in 0..8 {
                self.thumb_free(0x4400 | operation << 6 | register, 0x38);
                self.thumb_free(0x4400 | operation << 6 | register << 3, 0x07);
            }
        }
        for register in 0..8 {
            for operation in 0..8 {
                self.thumb_free(0x5000 | operation << 9 | register << 6, 0x3f);
                self.thumb_free(0x5000 | operation << 9 | register << 3, 0x1c7);
                self.thumb_free(0x5000 | operation << 9 | register, 0x1f8);
            }
            for operation in [0x2000, 0x2800, 0x3000, 0x3800, 0x4800] {
                self.thumb_free(operation | register << 8, 0xff);
            }
            for operation in [0x9000, 0x9800, 0xa000, 0xa800] {
                self.thumb_free(operation | register << 8, 0xff);
            }
        }
        for immediate in [0, 1, 3, 4, 0xf, 0x10, 0x3f, 0x40, 0x7f] {
            for operation in [0x2000, 0x9000, 0xa000, 0xb000, 0xb080, 0xdf00] {
                self.thumb(operation | immediate);
            }
        }
    }

    fn thumb_lists(&mut self) {
        for operation in [0xb400, 0xb500, 0xbc00, 0xbd00, 0xc000, 0xc800] {
            let base = if operation & 0xf000 == 0xc000 {
                0x700
            } else {
                0
            };
            self.thumb_free(operation, base);
            self.thumb_free(operation | 0xff, base);
            for register in 0..8 {
                self.thumb_free(operation | 1 << register, base);
                self.thumb_free(operation | 0xff ^ 1 << register, base);
            }
            for _ in 0..4 {
                self.thumb_free(operation, base | 0xff);
            }
        }
    }

    fn thumb_branches(&mut self) {
        for condition in 0..16 {
            for offset in [0, 1, 0x7f, 0x80, 0xfe, 0xff] {
                self.thumb(0xd000 | condition << 8 | offset);
            }
        }
        for address in ADDRESSES {
            for offset in [0, 1, 0x7f, 0x80, 0xfe, 0xff] {
                self.thumb_at(address, 0xd000 | offset);
                self.thumb_at(address, 0xde00 | offset);
            }
            for offset in [0, 1, 0x3ff, 0x400, 0x7fe, 0x7ff] {
                self.thumb_at(address, 0xe000 | offset);
            }
        }
        for half in [0xf000, 0xf800] {
            for offset in [0, 1, 0x3ff, 0x400, 0x7fe, 0x7ff] {
                self.thumb(half | offset);
            }
            for _ in 0..8 {
                self.thumb_free(half, 0x7ff);
            }
        }
        for address in ADDRESSES.into_iter().chain([1, 3, 4, 6, 0xffff_fc00]) {
            for offset in [0, 1, 0x7f, 0xff] {
                self.thumb_at(address, 0x4800 | offset);
            }
        }
    }

    fn random_words(&mut self) {
        for _ in 0..300 {
            self.arm_free(0, 0xffff_ffff);
            self.thumb_free(0, 0xffff);
        }
    }
}

fn main() -> io::Result<()> {
    let mut sample = Sample {
        random: 7,
        turn: 0,
        seen: HashSet::new(),
        out: Vec::new(),
    };
    sample.worked();
    sample.arm_masks();
    sample.arm_conditions();
    sample.arm_registers();
    sample.arm_data_processing();
    sample.arm_status();
    sample.arm_transfers();
    sample.arm_blocks();
    sample.arm_branches();
    sample.arm_multiplies();
    sample.malformed();
    sample.thumb_masks();
    sample.thumb_registers();
    sample.thumb_lists();
    sample.thumb_branches();
    sample.random_words();
    sample.out.pop();
    io::stdout().write_all(&sample.out)
}
