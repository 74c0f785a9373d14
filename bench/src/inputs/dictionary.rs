//! A dictionary: one save frame for each item that it explains.

use std::fmt::Write;

use super::dice::Dice;

/// So many frames, laid out as in the PDB's exchange dictionary.
pub fn frames(count: usize) -> String {
    let mut dice = Dice::new();
    let mut text = String::from("data_made.dic\n\n_dictionary.title     made.dic\n");
    text.push_str("_dictionary.version   1.0\n");
    for number in 0..count {
        frame(&mut text, &mut dice, number);
    }
    text
}

fn frame(text: &mut String, dice: &mut Dice, number: usize) {
    let category = format!("category_{}", number / 12);
    let name = format!("_{category}.item_{number}");
    let _ = writeln!(text, "\nsave_{name}\n    _item_description.description");
    description(text, dice);
    let mandatory = dice.one_of(&["yes", "no"]);
    let code = dice.one_of(&["code", "float", "int", "line"]);
    let _ = writeln!(text, "    _item.name                  '{name}'");
    let _ = writeln!(text, "    _item.category_id             {category}");
    let _ = writeln!(text, "    _item.mandatory_code          {mandatory}");
    if dice.below(3) == 0 {
        ranges(text);
    }
    if dice.below(4) == 0 {
        choices(text, dice);
    }
    let _ = writeln!(text, "    _item_type.code               {code}");
    let _ = writeln!(text, "     save_");
}

fn description(text: &mut String, dice: &mut Dice) {
    text.push(';');
    for _ in 0..3 + dice.below(10) {
        let _ = writeln!(text, "              {}", dice.line(56));
    }
    text.push_str(";\n");
}

fn ranges(text: &mut String) {
    text.push_str("     loop_\n    _item_range.maximum\n    _item_range.minimum\n");
    text.push_str("                                1.0   0.0\n");
    text.push_str("                                0.0   0.0\n");
}

fn choices(text: &mut String, dice: &mut Dice) {
    text.push_str("     loop_\n    _item_enumeration.value\n    _item_enumeration.detail\n");
    for _ in 0..2 + dice.below(6) {
        let _ = writeln!(
            text,
            "               {:<12} '{}'",
            dice.word(),
            dice.line(40)
        );
    }
}
