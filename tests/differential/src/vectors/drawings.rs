//! The paper's drawings to try, D1 to D12, with what it says of them.
use super::checks::Asked;
use super::notation::{code, drawing, map, survey};
use super::{Call, List};
use crate::catalogue::ENTRY;

/// Name, device kinds, cables, least code.
const CODED: &[(&str, &str, &str, &str)] = &[
    ("D1", "21", "017", "01172"),
    ("D2", "123", "019 024", "01143 02192"),
    ("D3", "111", "015 125", "01151 12151"),
    ("D4", "111", "015 125 205", "01151 12151 20151"),
    ("D5", "1111", "015 125 205 235", "01151 12151 20151 23151"),
    ("D6", "1111", "015 125 235 305", "01151 12151 23151 30151"),
    ("D7", "1111", "015 125 135", "01151 12151 13151"),
];

pub fn put(list: &mut List) {
    for (name, kinds, cables, least) in CODED {
        let record = drawing(kinds, cables);
        list.put(name, Call::CheckDrawing(&record));
        list.put_code(name, &record, &code(least));
        list.put_least(name, &code(least));
    }
    list.put_not_least("D8", &code("01151 02151"), 1);
    // Following one of several equal next cables ends so.
    list.put_not_least("D5 ending in 03", &code("01151 12151 20151 03151"), 3);
    list.put_code(
        "triangle with two tails",
        &drawing("11111", "025 045 145 235 245"),
        &code("01151 12151 20151 23151 14151"),
    );
    list.put_refused_code("D9", &code("01151 12151 03151 14151"), 10, 3);
    list.put_refused_code("D10", &code("01151 10151"), 10, 1);

    let (cable, d3, d4) = (
        drawing("11", "015"),
        drawing("111", "015 125"),
        drawing("111", "015 125 205"),
    );
    list.put_map("D11 D3 in D4", &d3, &d4, &map("012"), 6);
    list.put_map("D11 D4 in D3", &d4, &d3, &[], 0);
    list.put_map("one cable in D4", &cable, &d4, &map("01"), 6);
    list.put_same(
        "D3 with other numbers",
        &d3,
        &drawing("111", "205 015"),
        true,
    );
    list.put_same("D3 and D4", &d3, &d4, false);

    let survey = survey(&[&d3, &d4]);
    let d12 = Asked {
        survey: &survey,
        threshold: 1,
        limit: 4,
    };
    list.put("D12", Call::CheckSurvey(&survey));
    assert_eq!(list.put_catalogue("D12", &d12), 3);
    for (least, support, example) in [
        ("01151", 2, 0),
        ("01151 12151", 2, 0),
        ("01151 12151 20151", 1, 1),
    ] {
        list.assert_entry(&d12, &code(least), support, None);
        list.assert_example(&d12, &code(least), example);
    }
    let frequent = Asked {
        threshold: 2,
        ..d12
    };
    assert_eq!(list.put_catalogue("D12 with s 2", &frequent), 2);
    let single = Asked { limit: 1, ..d12 };
    assert_eq!(list.put_catalogue("D12 with L 1", &single), 1);
    list.put("D12", Call::UsualCatalogue(&survey, 2 * ENTRY + 2));
    list.put_fetches("D12", &survey, [0, 1, 2]);
}
