//! A small molecule: the report of a refinement, many tags and then loops of numbers with uncertainties.

use std::fmt::Write;

use super::dice::Dice;

/// The report on a molecule of so many atoms.
pub fn report(atoms: usize) -> String {
    let mut dice = Dice::new();
    let mut text = String::from("data_made\n\n");
    tags(&mut text, &mut dice);
    remarks(&mut text, &mut dice);
    symmetry(&mut text);
    sites(&mut text, &mut dice, atoms);
    displacements(&mut text, &mut dice, atoms);
    bonds(&mut text, &mut dice, atoms);
    angles(&mut text, &mut dice, atoms);
    torsions(&mut text, &mut dice, atoms);
    text
}

/// The forms of value that a tag has.
#[derive(Clone, Copy)]
enum Form {
    Word,
    Quoted,
    Decimal,
    Uncertain,
    Count,
    Unknown,
}

/// Groups of tags: how they start, what they have for a value, and how they go on.
const TAGS: [(&str, Form, &str); 14] = [
    ("audit_creation", Form::Quoted, "method"),
    (
        "chemical",
        Form::Unknown,
        "name_systematic name_common melting_point",
    ),
    ("chemical_formula", Form::Quoted, "moiety sum"),
    ("chemical_formula", Form::Decimal, "weight"),
    (
        "space_group",
        Form::Quoted,
        "crystal_system name_H-M_alt name_Hall",
    ),
    ("cell_length", Form::Uncertain, "a b c"),
    (
        "cell",
        Form::Uncertain,
        "angle_alpha angle_beta angle_gamma volume measurement_temperature",
    ),
    (
        "cell",
        Form::Count,
        "formula_units_Z measurement_reflns_used",
    ),
    ("exptl_crystal", Form::Word, "description colour"),
    (
        "exptl_crystal",
        Form::Decimal,
        "density_diffrn size_max size_mid size_min",
    ),
    (
        "diffrn",
        Form::Quoted,
        "radiation_type measurement_device_type measurement_method",
    ),
    (
        "diffrn_reflns",
        Form::Count,
        "number limit_h_min limit_h_max limit_k_min limit_k_max",
    ),
    (
        "computing",
        Form::Quoted,
        "data_collection cell_refinement structure_refinement",
    ),
    (
        "refine_ls",
        Form::Decimal,
        "R_factor_all R_factor_gt wR_factor_ref wR_factor_gt restraints",
    ),
];

fn tags(text: &mut String, dice: &mut Dice) {
    for (start, form, ends) in TAGS {
        for end in ends.split_whitespace() {
            let value = value(dice, form);
            let _ = writeln!(text, "_{:<36} {value}", format!("{start}_{end}"));
        }
    }
}

fn value(dice: &mut Dice, form: Form) -> String {
    match form {
        Form::Word => String::from(dice.word()),
        Form::Quoted => format!("'{}'", dice.line(30)),
        Form::Decimal => dice.decimal(9, 4),
        Form::Uncertain => dice.uncertain(100, 3),
        Form::Count => format!("{}", dice.below(5_000)),
        Form::Unknown => String::from("?"),
    }
}

fn remarks(text: &mut String, dice: &mut Dice) {
    for tag in [
        "refine_special_details",
        "geom_special_details",
        "exptl_absorpt_process_details",
    ] {
        let _ = writeln!(text, "_{tag}\n;");
        for _ in 0..8 {
            let _ = writeln!(text, " {}", dice.line(76));
        }
        text.push_str(";\n");
    }
}

fn symmetry(text: &mut String) {
    head(text, "space_group_symop", "operation_xyz");
    for operation in [
        "x, y, z",
        "-x, y+1/2, -z+1/2",
        "-x, -y, -z",
        "x, -y-1/2, z-1/2",
    ] {
        let _ = writeln!(text, " '{operation}'");
    }
}

/// The head of a loop whose tags share their start.
fn head(text: &mut String, start: &str, columns: &str) {
    text.push_str("\nloop_\n");
    for column in columns.split_whitespace() {
        let _ = writeln!(text, " _{start}_{column}");
    }
}

fn label(atom: usize) -> String {
    format!("{}{}", ["C", "C", "H", "N", "O"][atom % 5], atom + 1)
}

fn labels<const N: usize>(dice: &mut Dice, atoms: usize) -> String {
    [(); N].map(|()| label(dice.below(atoms))).join(" ")
}

fn sites(text: &mut String, dice: &mut Dice, atoms: usize) {
    const COLUMNS: &str =
        "label type_symbol fract_x fract_y fract_z U_iso_or_equiv adp_type occupancy \
        site_symmetry_order calc_flag refinement_flags_posn disorder_group";
    head(text, "atom_site", COLUMNS);
    for atom in 0..atoms {
        let name = label(atom);
        let place = [(); 3].map(|()| dice.uncertain(1, 5)).join(" ");
        let _ = writeln!(
            text,
            "{name} {} {place} 0.0{}(4) Uani 1 1 d . .",
            &name[..1],
            10 + dice.below(80)
        );
    }
}

fn displacements(text: &mut String, dice: &mut Dice, atoms: usize) {
    head(
        text,
        "atom_site_aniso",
        "label U_11 U_22 U_33 U_23 U_13 U_12",
    );
    for atom in 0..atoms {
        let numbers = [(); 6].map(|()| dice.uncertain(1, 4)).join(" ");
        let _ = writeln!(text, "{} {numbers}", label(atom));
    }
}

fn bonds(text: &mut String, dice: &mut Dice, atoms: usize) {
    const COLUMNS: &str = "atom_site_label_1 atom_site_label_2 distance site_symmetry_2 publ_flag";
    head(text, "geom_bond", COLUMNS);
    for _ in 0..2 * atoms {
        let _ = writeln!(
            text,
            "{} 1.{:03}(3) . ?",
            labels::<2>(dice, atoms),
            dice.below(1_000)
        );
    }
}

fn angles(text: &mut String, dice: &mut Dice, atoms: usize) {
    const COLUMNS: &str = "atom_site_label_1 atom_site_label_2 atom_site_label_3 value \
        site_symmetry_1 site_symmetry_3 publ_flag";
    head(text, "geom_angle", COLUMNS);
    for _ in 0..4 * atoms {
        let _ = writeln!(
            text,
            "{} 1{}(2) . 3_655 ?",
            labels::<3>(dice, atoms),
            dice.decimal(90, 1)
        );
    }
}

fn torsions(text: &mut String, dice: &mut Dice, atoms: usize) {
    const COLUMNS: &str =
        "atom_site_label_1 atom_site_label_2 atom_site_label_3 atom_site_label_4 value \
        site_symmetry_1 site_symmetry_2 site_symmetry_3 site_symmetry_4 publ_flag";
    head(text, "geom_torsion", COLUMNS);
    for _ in 0..4 * atoms {
        let _ = writeln!(
            text,
            "{} {} . . . . ?",
            labels::<4>(dice, atoms),
            dice.uncertain(180, 1)
        );
    }
}
