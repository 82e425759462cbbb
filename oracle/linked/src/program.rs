//! Seeded assembler programs of several modules, each with two code areas, and where each is linked.
//! Every item has a global label, so that the linker's map tells its address.
use std::fmt::Write;

/// A generator of numbers; the same seed gives the same ones.
pub struct Random(u64);

impl Random {
    /// A generator of a seed.
    pub fn new(seed: u64) -> Self {
        Self(seed)
    }

    /// A number below a bound.
    fn below(&mut self, bound: usize) -> usize {
        self.0 = self.0.wrapping_add(0x9E37_79B9_7F4A_7C15);
        let mixed = (self.0 ^ self.0 >> 30).wrapping_mul(0xBF58_476D_1CE4_E5B9);
        let mixed = (mixed ^ mixed >> 27).wrapping_mul(0x94D0_49BB_1331_11EB);
        ((mixed ^ mixed >> 31) % bound as u64) as usize
    }

    /// One of some.
    fn one<T: Copy>(&mut self, of: &[T]) -> T {
        of[self.below(of.len())]
    }
}

/// The areas of every module.
pub const AREAS: [&str; 2] = ["ONE", "TWO"];

/// A relative jump: the label of its instruction, how far behind it the displacement stands, and the label that it goes to.
pub struct Relative {
    pub at: String,
    pub displacement: u64,
    pub to: String,
}

/// A program: the assembler, the modules' names and texts, where the areas are based, and the relative jumps.
pub struct Program {
    pub flat: bool,
    pub modules: Vec<(String, String)>,
    pub bases: [u64; 2],
    pub relatives: Vec<Relative>,
}

/// Bases at edges of pages of 2 KiB and of blocks of 64 KiB and 512 KiB, for 16 and for 24 address bits.
const NEAR: [u64; 6] = [0x0, 0x7F0, 0x17C1, 0x3F90, 0x7FE7, 0xE7A3];
const FAR: [u64; 8] = [0x0, 0xFFC0, 0x1_77F1, 0x3_FFF0, 0x7_FF80, 0x8_0003, 0xF_FFA5, 0x7F_FF91];

/// How many items a module's part of an area has.
const ITEMS: usize = 36;

/// The label of an item.
fn label(module: usize, area: usize, item: usize) -> String {
    format!("_m{module}{}{item}", AREAS[area].to_lowercase())
}

/// The label where a module's part of an area begins.
pub fn first(module: usize, area: usize) -> String {
    label(module, area, 0)
}

impl Program {
    /// The program of a generator's next numbers.
    pub fn random(random: &mut Random, flat: bool) -> Self {
        let count = 2 + random.below(3);
        let base = if flat { random.one(&FAR) } else { random.one(&NEAR) };
        let apart = 0x400 * (1 + random.below(5)) as u64 + random.below(7) as u64;
        let mut program =
            Self { flat, modules: vec![], bases: [base, base + apart], relatives: vec![] };
        for module in 0..count {
            let text = program.module(random, module, count);
            program.modules.push((format!("m{module}"), text));
        }
        program
    }

    /// One module's text.
    fn module(&mut self, random: &mut Random, module: usize, count: usize) -> String {
        let mut text = format!("\t.module m{module}\n");
        if self.flat {
            text += "\t.DS80C390\n\t.amode 2\n";
        }
        for other in (0..count).filter(|other| *other != module) {
            for (area, item) in (0..2).flat_map(|area| (0..ITEMS).map(move |item| (area, item))) {
                writeln!(text, "\t.globl {}", label(other, area, item)).unwrap();
            }
        }
        for (area, name) in AREAS.iter().enumerate() {
            writeln!(text, "\t.area {name} (CODE)").unwrap();
            for item in 0..ITEMS {
                let own = label(module, area, item);
                let what = self.item(random, module, area, item, count);
                writeln!(text, "{own}::\n\t{what}").unwrap();
            }
        }
        text
    }

    /// One item: a jump or a call to anywhere, a data word, a relative jump to one of the next items, or a filler.
    fn item(
        &mut self,
        random: &mut Random,
        module: usize,
        area: usize,
        item: usize,
        count: usize,
    ) -> String {
        let near = (item + ITEMS - 4 + random.below(9)) % ITEMS;
        let close = near.abs_diff(item) <= 4;
        match random.below(10) {
            0..=4 => {
                let (there, part) = (random.below(count), random.below(2));
                let goal = label(there, part, random.below(ITEMS));
                let offset = random.one(&["", "", "+1", "+3", "-2", "-60"]);
                let word = random.one(&["ljmp", "lcall", "ajmp", "acall", "ajmp", "acall", ".dw"]);
                format!("{word} {goal}{offset}")
            }
            5..=7 if close => {
                self.relative(random, label(module, area, item), label(module, area, near))
            }
            8 if item + 1 == ITEMS && module + 1 < count => {
                self.relative(random, label(module, area, item), label(module + 1, area, 0))
            }
            8 if item % 12 == 5 => format!(".ds {}", random.one(&[1, 3, 5, 90])),
            _ => random.one(&["nop", "ret", "inc a", "mov a,#3"]).to_string(),
        }
    }

    /// A relative jump between two labels.
    fn relative(&mut self, random: &mut Random, at: String, to: String) -> String {
        let jumps = [
            ("sjmp ", 1),
            ("jz ", 1),
            ("jnz ", 1),
            ("jc ", 1),
            ("jnc ", 1),
            ("djnz r3,", 1),
            ("djnz 0x30,", 2),
            ("cjne a,#5,", 2),
            ("cjne r2,#7,", 2),
            ("jb 0x21,", 2),
            ("jnb 0x23,", 2),
        ];
        let (word, displacement) = random.one(&jumps);
        let text = format!("{word}{to}");
        self.relatives.push(Relative { at, displacement, to });
        text
    }
}
