//! Document 02's paper 8, of what a finished run leaves: its result and both lists, up to their counts.

use dimple_ref::added::Run;
use dimple_ref::ground::leaf::state_of;
use dimple_ref::oracle::{CONTACT, Course, HEAD, POINT, read_sheet};

/// The first record that is earlier than the one before it.
fn turned_back(list: &[f64], width: usize) -> Option<usize> {
    (1..list.len() / width).find(|&i| !(list[(i - 1) * width] <= list[i * width]))
}

fn course_of(sheet: &[u8]) -> Course {
    let (surfaces, areas) = read_sheet(sheet).expect("an accepted sheet");
    Course { surfaces, areas, run: Run::new(state_of(&[0.0; 10]), 0, 0, 0, false) }
}

/// What is wrong with the tables of a run with answer 0, if anything is.
pub fn fault(input: &[u8], contacts: &[f64], points: &[f64], result: &[f64]) -> Option<String> {
    let course = course_of(&input[HEAD..]);
    let contacts = &contacts[..CONTACT * result[2] as usize];
    let points = &points[..POINT * result[3] as usize];
    let most = u64::from_le_bytes(input[40..48].try_into().expect("eight bytes")).max(1);
    let (termination, count, rest) = (result[1], result[2] as u64, &result[5..15]);
    if let Some(i) = turned_back(contacts, CONTACT) {
        return Some(format!("contact {i} is before the one that it follows"));
    }
    if let Some(i) = turned_back(points, POINT) {
        return Some(format!("point {i} is before the one that it follows"));
    }
    if count < 1 || count > most || termination == 3.0 && count != most {
        return Some(format!("{count} contacts of at most {most}, termination {termination}"));
    }
    for (i, c) in contacts.chunks_exact(CONTACT).enumerate().skip(1) {
        let height = course.ground_at(c[1], c[3]).height;
        if c[2].to_bits() != height.to_bits() {
            return Some(format!("contact {i} at y {:?}, the course at {height:?}", c[2]));
        }
    }
    if termination == 1.0 {
        let under = course.ground_at(rest[1], rest[3]);
        if rest[4..7].iter().any(|&v| v != 0.0) {
            return Some(format!("at rest with the velocity {:?}", &rest[4..7]));
        }
        if rest[2] != under.height {
            return Some(format!("at rest at y {:?}, the course at {:?}", rest[2], under.height));
        }
        if !under.holds_at_rest() {
            return Some("at rest where the ground does not hold a ball".to_string());
        }
        let last = points.chunks_exact(POINT).next_back();
        if !last.is_some_and(|p| p[10] == 2.0 && (0..10).all(|i| p[i].to_bits() == rest[i].to_bits())) {
            return Some("at rest, and the last point is not the final state, rolling".to_string());
        }
    }
    None
}
