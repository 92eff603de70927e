//! What the reader of the format says of a file: its records, what they declare, and in words what is wrong. That it refuses the right files is tested in `format.rs`.

use pezvoran::format::{read, records, Kind, Sheet};
use pezvoran::{Edition, Large, Small};

#[test]
fn records_end_where_the_file_has_no_whole_one() {
    let file = [3, 3, 17, 0, 0, 0, 0, 5, 23, 0, 0];
    let mut whole = records(&file);
    assert!(whole.by_ref().map(|record| (record.number, record.position, record.kind, record.body.len())).eq([
        (1, 0, Kind::Forbid, 1),
        (2, 2, Kind::Load, 5),
        (3, 8, Kind::Return, 2)
    ]));
    assert_eq!((whole.rest(), whole.position()), (&[][..], 11));
    let mut cut = records(&file[..10]);
    assert_eq!(cut.by_ref().count(), 2);
    assert_eq!((cut.rest(), cut.position()), (&[23, 0][..], 8));
    let mut unknown = records(&[3, 3, 0, 3, 3]);
    assert_eq!(unknown.by_ref().count(), 1);
    assert_eq!((unknown.rest(), unknown.position()), (&[0, 3, 3][..], 2));
}

/// Labels of every type, built-in and not, up to the last; variables of the top level and of a function; a mask; a profile.
fn the_sheet_says_what_records_declare<E: Edition>() {
    let last = (E::LABELS - 1) as u8;
    let labels = [[2, 5, 1, 0], [2, 6, 2, 0], [2, 7, 3, 1], [2, 31, 2, 1], [2, last, 1, 0]].concat();
    let variables = [[5, 2, 0, 255], [5, 3, 6, 255], [5, 4, 0, 31], [5, 255, 0, 0]].concat();
    let others = [1, 4, 3, 4, 6, 3, 0, 2, 0, 0, 0, 255, 3, 3, 3, last, 9, 5, 23, 0, 0];
    let mut file = [labels, variables, others.to_vec()].concat();
    let refused = read::<E>(&file).expect_err("a function is missing");
    assert_eq!((refused.number, refused.position), (7, file.len()));
    file.extend([4, 31, 0, 0, 0, 0, 0, 0, 0]);
    let sheet = read::<E>(&file).expect("a good file");
    assert!(sheet.labels().eq([0, 1, 2, 3, 4, 5, 6, 7, 31, last]));
    assert_eq!([0, 3, 5, 6, 7, last].map(|label| sheet.type_of(label).map(|kind| kind as u8)), [1, 2, 1, 2, 3, 1].map(Some));
    assert_eq!(sheet.type_of(8), None);
    assert!((0..=255).filter(|&label| sheet.is_built_in(label)).eq([1, 2, 4, 7, 31]));
    assert!(sheet.variables().eq([2, 3, 4, 255]));
    assert_eq!([0, 1, 2, 3, 4].map(|variable| sheet.owner(variable)), [None, None, Some(0), Some(6), Some(0)]);
    assert_eq!([2, 3, 4, 5, 255].map(|variable| sheet.name(variable)), [None, None, Some(31), None, Some(0)]);
    assert_eq!((sheet.function(6), sheet.function(5), sheet.function(3)), (Some([3, 0, 2, 0, 0, 0, 255]), None, None));
    assert_eq!((sheet.mask(4), sheet.mask(5)), (3, 1));
    assert!(sheet.forbidden().eq([3, last]) && sheet.is_forbidden(3) && !sheet.is_forbidden(5));
    assert_eq!(sheet.profile(), Some(5));
    assert_eq!((sheet.records(), sheet.length()), (records(&file).count(), file.len()));
    assert_eq!(sheet.missing().count(), 0);
}

#[test]
fn a_sheet_of_each_edition_says_what_records_declare() {
    the_sheet_says_what_records_declare::<Small>();
    the_sheet_says_what_records_declare::<Large>();
}

/// The start is that of the file that declares nothing.
#[test]
fn an_empty_sheet_has_what_is_declared_beforehand() {
    let sheet = Sheet::<Small>::new();
    assert!(sheet == read::<Small>(&[]).expect("an empty file"));
    assert!(sheet.labels().eq(0..5) && sheet.variables().next().is_none() && sheet.forbidden().next().is_none());
    assert_eq!((sheet.records(), sheet.length(), sheet.profile()), (0, 0, None));
}

#[test]
fn a_refused_record_leaves_the_sheet() {
    let mut sheet = read::<Large>(&[2, 5, 1, 0]).expect("a good file");
    let before = sheet.clone();
    for (kind, body) in [(2, &[5, 2, 1][..]), (2, &[6, 4, 0]), (5, &[1, 0, 255]), (9, &[8]), (1, &[4]), (0, &[])] {
        sheet.take(kind, body).expect_err("a bad record");
        assert!(sheet == before, "{kind} {body:?}");
    }
}

/// The words for every sort of fault, in the small edition.
#[test]
fn faults_are_told_in_words() {
    let host = [2, 5, 1, 0, 2, 6, 2, 0, 2, 9, 3, 0, 5, 2, 0, 255, 5, 3, 6, 255, 1, 4, 3, 9, 1];
    let told = |record: &[u8]| read::<Small>(&[&host, record].concat()).expect_err("a bad record").to_string();
    let cases: [(&[u8], &str); 31] = [
        (&[27], ": kind 27 is unknown"),
        (&[17, 0, 2], ", load: the body has length 2; 5 is wanted"),
        (&[17, 0, 2, 2, 4, 9], ", load: field w is 9, which is an array; a plain label from 5 up is wanted"),
        (&[17, 0, 2, 2, 4, 6], ", load: field w is 6, which is a function; a plain label from 5 up is wanted"),
        (&[17, 0, 2, 2, 4, 1], ", load: field w is 1, which is Object.prototype; a plain label from 5 up is wanted"),
        (&[17, 0, 2, 2, 4, 7], ", load: field w is 7, which no earlier record declares; a plain label from 5 up is wanted"),
        (&[17, 0, 2, 2, 4, 64], ", load: field w is 64, which only the large edition has; a plain label from 5 up is wanted"),
        (
            &[17, 0, 2, 2, 144, 5],
            ", load: field key is 144, which is no key; a name from 0 to 31, or 128 + c or 136 + c with c from 0 to 7 is wanted",
        ),
        (&[17, 5, 2, 2, 4, 5], ", load: field k is 5, which is plain; 0 or a function label from 5 up is wanted"),
        (&[17, 3, 2, 2, 4, 5], ", load: field k is 3, which is whatever the guest makes; 0 or a function label from 5 up is wanted"),
        (&[17, 0, 1, 2, 4, 5], ", load: field y is 1, which is the guest's bag; 0 or a declared variable is wanted"),
        (&[17, 0, 2, 4, 4, 5], ", load: field object is 4, which no earlier record declares; 0 or a declared variable is wanted"),
        (&[19, 0, 2, 6], ", make: field l is 6, which is a function; a plain or array label from 5 up is wanted"),
        (&[20, 0, 2, 5, 5], ", make function: field l is 5, which is plain; a function label from 5 up is wanted"),
        (&[22, 0, 2, 2, 0, 5, 0, 0, 0, 0, 0, 0], ", new: field t is 0, which stands for none; a declared variable is wanted"),
        (&[21, 0, 0, 0, 0, 0, 0, 0, 0, 0, 7], ", call: field arg6 is 7, which no earlier record declares; 0 or a declared variable is wanted"),
        (&[6, 3], ", grant: field v is 3, whose owner is scope 6; a declared variable with owner 0 is wanted"),
        (&[8, 2, 3], ", held: field l is 3, which is whatever the guest makes; a declared label other than 3 is wanted"),
        (&[7, 0, 32, 5], ", property: field n is 32, which is no name; a name from 0 to 31 is wanted"),
        (&[3, 8], ", forbid: field l is 8, which no earlier record declares; a declared label is wanted"),
        (&[2, 64, 1, 0], ", label: field l is 64, which only the large edition has; a label from 5 to 63 is wanted"),
        (&[2, 7, 4, 0], ", label: field type is 4, which is no type; 1 (plain), 2 (function) or 3 (array) is wanted"),
        (&[2, 7, 1, 2], ", label: field flag is 2, which is no flag; 0 or 1 (built-in) is wanted"),
        (&[1, 5, 2], ", name: field mask is 2, which lacks bit 0; an odd number is wanted"),
        (&[5, 4, 0, 32], ", variable: field name is 32, which is no name; 255 for none or a name from 0 to 31 is wanted"),
        (&[5, 4, 6, 32], ", variable: field name is 32, which is no name; 255 for none is wanted where the owner is not 0"),
        (&[5, 4, 6, 4], ", variable: field name is 4, and the owner is scope 6; 255 for none is wanted where the owner is not 0"),
        (&[2, 5, 1, 0], ", label: field l is 5, which the record at byte 0 declares already"),
        (&[5, 2, 0, 255], ", variable: field v is 2, which the record at byte 12 declares already"),
        (&[1, 4, 1], ", name: field n is 4, which the record at byte 20 declares already"),
        (&[9, 2], ", profile: field c is 2, and there is a profile at byte 23 already"),
    ];
    for (record, words) in cases {
        assert_eq!(told(record), format!("record 8 at byte 25{words}"));
    }
    assert_eq!(told(&[9, 8]), "record 8 at byte 25, profile: field c is 8, which is no class; a class from 0 to 7 is wanted");
    let twice = told(&[4, 6, 0, 0, 0, 0, 0, 0, 0, 4, 6, 0, 0, 0, 0, 0, 0, 0]);
    assert_eq!(twice, "record 9 at byte 34, function: field l is 6, which has a function record at byte 25 already");
    assert_eq!(told(&[]), "function label 6 has no function record");
    assert_eq!(told(&[2, 7, 2, 0]), "function labels 6, 7 have no function record");
    assert_eq!(read::<Large>(&[2, 4, 1, 0]).expect_err("a bad label").to_string(), {
        "record 1 at byte 0, label: field l is 4, which is Array.prototype; a label from 5 to 255 is wanted"
    });
}
