//! A large structure: the atoms as the PDB lists them.

use std::fmt::Write;

use super::dice::Dice;

const COLUMNS: &str = "group_PDB id type_symbol label_atom_id label_alt_id label_comp_id label_asym_id \
    label_entity_id label_seq_id pdbx_PDB_ins_code Cartn_x Cartn_y Cartn_z occupancy B_iso_or_equiv \
    pdbx_formal_charge auth_seq_id auth_comp_id auth_asym_id auth_atom_id pdbx_PDB_model_num";

/// Elements and names; those of the sugar stand in quote marks.
const ATOMS: [(&str, &str); 10] = [
    ("P", "P"),
    ("O", "OP1"),
    ("O", "\"O5'\""),
    ("C", "\"C5'\""),
    ("C", "\"C4'\""),
    ("N", "N9"),
    ("C", "C8"),
    ("N", "N"),
    ("C", "CA"),
    ("O", "O"),
];

/// One loop of 21 columns, each padded to its width, until the text has so many bytes.
pub fn table(length: usize) -> String {
    let mut dice = Dice::new();
    let mut text = String::from("data_TABLE\n#\n_entry.id   TABLE\n#\nloop_\n");
    for column in COLUMNS.split_whitespace() {
        let _ = writeln!(text, "_atom_site.{column} ");
    }
    let mut id = 0;
    let mut compound = "A";
    while text.len() < length {
        if id % ATOMS.len() == 0 {
            compound = dice.one_of(&["A", "C", "G", "U", "ALA", "GLY", "LEU"]);
        }
        row(&mut text, &mut dice, id, compound);
        id += 1;
    }
    text.push_str("#\n");
    text
}

fn row(text: &mut String, dice: &mut Dice, id: usize, compound: &str) {
    let residue = id / ATOMS.len();
    let (element, name) = ATOMS[id % ATOMS.len()];
    let chain = ["A", "B", "C", "D", "E", "F"][residue / 3_000 % 6];
    let number = residue % 3_000 + 1;
    let place = [(); 3].map(|()| dice.signed(200, 3));
    let factor = dice.decimal(100, 2);
    let _ = write!(
        text,
        "ATOM {:<6} {element} {name:<6} . {compound:<3} ",
        id + 1
    );
    let _ = write!(text, "{chain} 1  {number:<4} ? ");
    let _ = write!(
        text,
        "{:<8} {:<8} {:<8} 1.00 {factor:<5} ? ",
        place[0], place[1], place[2]
    );
    let _ = writeln!(text, "{number:<4} {compound:<3} {chain} {name:<6} 1 ");
}
