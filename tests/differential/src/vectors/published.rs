//! Published examples: of document 000 the canonical code of its G1 to G3, and the extensions with supports of its two graphs;
//! of document 001 its molecule, by both code words. Labels stand as the numbers of their letters.
use super::checks::Asked;
use super::notation::{code, drawing, map, survey};
use super::{Call, List};
use crate::drawing::{Cable, Drawing, RECORD};

/// 000, Canonical DFS Code: three DFS codes of one graph, of which the first is the canonical one. Its order puts the kind of j
/// before the cable kind; on these three both orders agree.
fn put_canonical(list: &mut List) {
    let graphs = [
        ("G1", drawing("aaab", "01q 12r 20r 13r")),
        ("G2", drawing("aaba", "01q 12r 13r 30r")),
        ("G3", drawing("aaab", "01q 12r 20r 03r")),
    ];
    let g1 = code("01aqa 12ara 20ara 13arb");
    let g2 = code("01aqa 12arb 13ara 30ara");
    let g3 = code("01aqa 12ara 20ara 03arb");
    for (k, (name, graph)) in graphs.iter().enumerate() {
        list.put_code(&format!("000 {name}"), graph, &g1);
        for (other, second) in &graphs[..k] {
            list.put_same(&format!("000 {other} and {name}"), second, graph, true);
        }
    }
    list.put_least("000 G1 canonical", &g1);
    list.put_not_least("000 G2 not canonical", &g2, 1);
    list.put_not_least("000 G3 not canonical", &g3, 3);
    list.put_order("000 G1 before G2", &g1, &g2, 1);
    list.put_order("000 G1 before G3", &g1, &g3, 3);
    list.put_order("000 G3 before G2", &g3, &g2, 1);
}

/// 000, Canonicity Checking: the three steps end in this code.
fn put_canonicity(list: &mut List) {
    list.put_least("000 canonicity, step 1", &code("01a1a"));
    list.put_least("000 canonicity, step 2", &code("01a1a 12a1b"));
    list.put_least("000 canonicity, step 3", &code("01a1a 12a1b 20b1a"));
}

/// 000, Rightmost Path Extensions: devices 10 to 40 of G1 and 50 to 80 of G2 are 0 to 3 here, and every cable has kind 1. The
/// cables follow from its tables of isomorphisms and extensions, three isomorphisms for each graph.
fn put_extensions(list: &mut List) {
    let pattern = drawing("aab", "011 121");
    let g1 = drawing("abab", "021 011 211 231");
    let g2 = drawing("baba", "131 321 121 101 201");
    list.put_map("000 C in G1", &pattern, &g1, &map("021"), 3);
    list.put_map("000 C in G2", &pattern, &g2, &map("132"), 3);

    let all = Asked {
        survey: &survey(&[&g1, &g2]),
        threshold: 1,
        limit: 8,
    };
    let c = "01a1a 12a1b";
    list.assert_entry(&all, &code(c), 2, Some(4));
    for (record, support) in [("20b1a", 2), ("23b1b", 1), ("13a1b", 2), ("03a1b", 2)] {
        list.assert_entry(&all, &code(&format!("{c} {record}")), support, None);
    }
    assert_eq!(list.put_catalogue("000 two graphs, s 1, L 8", &all), 21);
    list.put_catalogue("000 two graphs, s 1, L 3", &Asked { limit: 3, ..all });
    let both = Asked {
        threshold: 2,
        limit: 4,
        ..all
    };
    assert_eq!(list.put_catalogue("000 two graphs, s 2, L 4", &both), 10);

    let many = Asked {
        survey: &survey(&[&g1, &g2, &g1, &g2, &chain(150), &chain(200)]),
        threshold: 2,
        ..all
    };
    let name = "000 two graphs twice and many labels, s 2, L 8";
    assert_eq!(list.put_catalogue(name, &many), 21);
}

/// Ten devices in a row, of different kinds, as are the cables: 18 labels. Two of them bring a survey over the 32 up to which labels are
/// bits.
fn chain(first: u8) -> Vec<u8> {
    let cables = (0..9).map(|d| Cable {
        a: d,
        b: d + 1,
        kind: first + d as u8,
    });
    let chain = Drawing {
        kinds: (0..10).map(|d| first + d).collect(),
        cables: cables.collect(),
    };
    chain.record()
}

/// 001, A Simple Example: S before N before O before C are 1 to 4. Code word A numbers the molecule depth first, B breadth
/// first. 001 lets every cable of the tree precede one that closes a ring, so A is its least; here backward comes first.
fn put_molecule(list: &mut List) {
    let a = drawing("123444344", "01- 12- 13- 34- 45- 46= 37- 78- 80-");
    let b = drawing("124344443", "01- 02- 13- 14- 25- 45- 46- 67- 68=");
    let least = code("011-2 122-3 132-4 344-4 454-4 504-1 364-4 674-4 684=3");
    list.put_same("001 A and B", &a, &b, true);
    list.put_code("001 A", &a, &least);
    list.put_code("001 B", &b, &least);
    list.put_least("001 least", &least);

    let word = "011-2 122-3 132-4 344-4 454-4 464=3 374-4 784-4 804-1";
    list.put_not_least("001 A is a DFS code", &code(word), 5);
    put_word(list, word);
    let parts = Asked {
        survey: &survey(&[&a, &b]),
        threshold: 2,
        limit: 4,
    };
    assert_eq!(list.put_catalogue("001 parts of A and B, L 4", &parts), 47);
}

/// 001, Restricted Extensions: of A the devices 1, 2, 4, 8 and 9 may be extended, 0, 1, 3, 7 and 8 here. The others may not; at
/// 6 is 001's own example.
fn put_word(list: &mut List, word: &str) {
    let extended = [
        (1, "091-4", true),
        (2, "192-4", true),
        (3, "293-4", false),
        (4, "394-4", true),
        (5, "494-4", false),
        (6, "594-4", false),
        (7, "693-4", false),
        (8, "794-4", true),
        (9, "894-4", true),
    ];
    for (device, record, wanted) in extended {
        let name = format!("001 A extended at {device}");
        let extended = code(&format!("{word} {record}"));
        let answer = list.put(&name, Call::Decode(&extended, RECORD));
        let number = if wanted { 0 } else { 10 };
        assert_eq!(answer.refused.number, number, "{name}");
    }
}

pub fn put(list: &mut List) {
    put_canonical(list);
    put_canonicity(list);
    put_extensions(list);
    put_molecule(list);
}
