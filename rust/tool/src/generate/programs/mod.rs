//! Random Cairo-M source, mostly sensible.

mod expressions;
mod statements;
mod types;
mod writer;

use super::Random;
use types::Items;
use writer::Writer;

/// The text of one module.
#[derive(Debug, Clone, PartialEq, Eq)]
pub struct ModuleText {
    pub name: String,
    pub text: String,
}

/// The modules of a random program. Modules import only from later ones: the builder refuses
/// import cycles.
pub fn modules(random: &mut Random) -> Vec<ModuleText> {
    let count = *random.pick(&[1, 1, 2, 3]);
    let mut items: Vec<Items> = Vec::new();
    let mut modules = Vec::new();
    for number in (0..count).rev() {
        let mut writer = Writer::new(random);
        writer.module(number, &items);
        items.push(writer.items);
        modules.push(ModuleText {
            name: format!("m{number}"),
            text: writer.text,
        });
    }
    modules.reverse();
    modules
}
