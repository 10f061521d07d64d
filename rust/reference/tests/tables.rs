//! The stored output of the program `tables`, made anew: what that program prints is held to this at every check.

use std::sync::LazyLock;

const STORED: &str = include_str!("../../../crates/tables/stdout");

static PRINTED: LazyLock<String> = LazyLock::new(reference::tables::printed);

/// The lines of one table, without its heading.
fn lines(table: &str) -> Vec<&'static str> {
    PRINTED.lines().filter(|line| line.split(' ').next() == Some(table)).collect()
}

#[test]
fn stored_tables() {
    for (number, (line, stored)) in (1..).zip(PRINTED.lines().zip(STORED.lines())) {
        assert_eq!(line, stored, "line {number}");
    }
    assert_eq!(PRINTED.len(), STORED.len());
}

/// The first number of each answer: accepted ones and refusals both stand there.
#[test]
fn refusals_in_the_tables() {
    let wanted = [
        ("ceilings", "0 3"),
        ("stored", "0 3"),
        ("step", "0 3 4 10"),
        ("row", "0"),
        ("ramp", "0 3 6 10"),
        ("sheet", "0 7"),
        ("query", "0 8 9 10"),
        ("tail", "0 2 10"),
        ("own_step", "0 4 5 10 12"),
        ("own_row", "0 10 12"),
        ("own_ramp", "0 3 5 12"),
        ("own_query", "0 10 12"),
        ("back", "0 2 7 8 9"),
        ("tie", "0 2 9"),
        ("tie_back", "0"),
    ];
    for (table, refusals) in wanted {
        let answers = lines(table)
            .into_iter()
            .map(|line| line.split(" = ").nth(1).expect("an answer").split(' ').next().expect("a number"));
        let mut seen: Vec<u32> = answers.map(|number| number.parse().expect("a number")).collect();
        seen.sort();
        seen.dedup();
        assert_eq!(seen.iter().map(u32::to_string).collect::<Vec<_>>().join(" "), refusals, "{table}");
    }
}

/// The ramp table ends with three runs at every speed, one past each end of the span included. Within it distance and
/// moment rise.
#[test]
fn ramp_runs_at_every_speed() {
    let lines = lines("ramp");
    let climbs = lines[lines.len() - 3 * 102..].chunks(102);
    for ((slope, times), climb) in
        [("100 0", "200 400"), ("45 -28", "2000 3000"), ("160 35", "2000 1")].iter().zip(climbs)
    {
        let mut last = [0, 0];
        for (v, line) in climb.iter().enumerate() {
            let answer = line.strip_prefix(&format!("ramp {slope} {v} {times} = ")).expect(line);
            let fields: Vec<u32> = answer.split(' ').map(|field| field.parse().expect("a number")).collect();
            if v == 0 || v == 101 {
                assert_eq!(fields, [3, 0, 0], "{line}");
                continue;
            }
            assert!(fields[0] == 0 && fields[1] > last[0] && fields[2] > last[1], "{line}");
            last = [fields[1], fields[2]];
        }
    }
}

/// The table's heading, under it all its lines, and in each so many fields.
fn whole(table: &str, inputs: &str, answer: &str, count: usize, fields: usize) {
    let heading = format!("# {table} {inputs} = refusal {answer}");
    let place = PRINTED.lines().position(|line| line == heading).expect(&heading);
    assert_eq!(lines(table).len(), count, "{table}");
    assert!(PRINTED.lines().skip(place + 1).take(count).eq(lines(table)), "{table}");
    for line in lines(table) {
        assert_eq!(line.split(' ').count(), fields, "{line}");
    }
}

/// Document 02, Card 5.
#[test]
fn own_tables_are_whole() {
    let coefficients = "dt h kr cr nc vc ki1 ki2 ki3 i1 i2";
    for (table, inputs, answer, count, fields) in [
        ("own_step", format!("{coefficients} V V0 i"), "EBI SBI W P", 25 * 6 * 5, 21),
        ("own_row", format!("{coefficients} V0 i"), "length distances", 25 * 2, 17 + 161),
        ("own_ramp", "ki1 ki2 ki3 i1 i2 i V".to_owned(), "distance moment", 11 * 6 * 3, 12),
    ] {
        whole(table, &inputs, answer, count, fields);
    }
}

/// Document 02, Card 4: every approach query told has the two numbers at its end.
#[test]
fn query_tables_are_whole() {
    let answer = "release permitted mark W SBI EBI overlap_stretch ahead_stretch";
    for (table, inputs, count) in [
        ("query", "freight EP BW L top TM TR i overlap signal head", 2 * 3 * 4 * 2 * 3 * 3 * 4 * 5),
        ("tail", "L i overlap head", 5 * 4 * 2 * 14),
        ("own_query", "dt h kr cr nc vc ki1 ki2 ki3 i1 i2 i overlap head", 25 * 4 * 2 * 2),
        ("tie", "L i j k overlap head", 5 * 2 * 2 * 2 * 3 * 5),
    ] {
        // Beside the inputs the table's name, the `=`, the refusal and the answer.
        whole(table, inputs, answer, count, inputs.split(' ').count() + 11);
    }
}

/// Document 02, Cards 3 and 4: the walk that is the longest stands in it at every step, and each goes on to its "end".
#[test]
fn back_table_is_whole() {
    whole("back", "place L i signal head step", "end stretch i least least_stretch", 42 * 2 * 10, 14);
    let walks: Vec<_> = lines("back").chunks(10).map(<[_]>::to_vec).collect();
    for walk in walks {
        let last = walk[9];
        assert!(last.contains(" 4294967295 = ") && !last.contains(" = 0 0 "), "{last}");
    }
    let longest = [
        "0 = 0 0 7 7 7 7",
        "1 = 0 0 6 -9 -9 6",
        "2 = 0 0 5 -21 -21 5",
        "3 = 0 0 4 3 -21 5",
        "4 = 0 0 3 -20 -21 5",
        "5 = 0 0 2 20 -21 5",
        "6 = 0 0 1 -35 -35 1",
        "7 = 0 0 0 0 -35 1",
        "65536 = 0 1 0 0 0 0",
        "4294967295 = 0 1 0 0 0 0",
    ];
    for line in longest.map(|line| format!("back 700 0 -35 3 0 {line}")) {
        assert!(lines("back").contains(&line.as_str()), "{line}");
    }
}

/// Document 02, Card 4: the two numbers worked by hand, with starts at 0, 300, 600 and 900 m and the signal at 650 m.
#[test]
fn ties_in_the_table() {
    let nested = |inputs: &[String], fields: &[i32]| -> Vec<String> {
        inputs.iter().flat_map(|input| fields.iter().map(move |field| format!("{input} {field}"))).collect()
    };
    let nests: [&[i32]; 6] =
        [&[0, 1, 51, 1000, 1001], &[-5, 3], &[-5, 3], &[-5, 3], &[0, 250, 251], &[0, 299, 301, 650, 651]];
    let inputs = nests.into_iter().fold(vec!["tie".to_owned()], |inputs, fields| nested(&inputs, fields));
    let told: Vec<(&str, &str)> = lines("tie").iter().map(|line| line.split_once(" = ").expect("an answer")).collect();
    assert!(told.iter().map(|(input, _)| *input).eq(inputs.iter().map(String::as_str)));
    for (input, numbers) in [
        ("0 -5 -5 -5 0 0", "65535 1"),
        ("0 -5 -5 -5 0 650", "65535 2"),
        ("0 -5 -5 -5 250 301", "2 1"),
        ("0 3 3 -5 250 0", "2 0"),
        ("0 3 3 -5 251 0", "3 0"),
        ("0 3 -5 -5 251 299", "2 2"),
        ("1 3 3 3 250 301", "2 1"),
        ("1 3 3 3 251 299", "2 0"),
        ("51 -5 -5 3 250 650", "1 1"),
        ("51 3 3 3 250 301", "1 0"),
        ("1000 3 3 3 251 650", "0 0"),
        ("1000 3 3 -5 251 650", "3 0"),
        ("1000 -5 3 -5 251 0", "1 1"),
        ("1000 -5 3 -5 251 651", "0 0"),
        ("1001 -5 3 -5 251 651", "0 0"),
    ] {
        let (_, answer) = told.iter().find(|(told, _)| told.strip_prefix("tie ") == Some(input)).expect(input);
        assert!(answer.ends_with(&format!(" {numbers}")), "{input} = {answer}");
    }
    let refused =
        |refusal: &str| told.iter().filter(|(_, answer)| *answer == format!("{refusal} 0 0 0 0 0 0 0 0")).count();
    assert_eq!([refused("2"), refused("9")], [120, 4 * 24]);
}

/// The same line: three steps on the way to 0, where the later of equals is the lower.
#[test]
fn walks_with_ties_in_the_table() {
    whole("tie_back", "L i j k head step", "end stretch i least least_stretch", 4 * 8 * 4 * 4, 14);
    assert_eq!(PRINTED.lines().last(), lines("tie_back").last().copied());
    for line in [
        "0 -5 -5 3 650 0 = 0 0 2 -5 -5 2",
        "0 -5 -5 3 650 1 = 0 1 0 0 0 0",
        "51 -5 -5 3 650 1 = 0 0 1 -5 -5 1",
        "1000 -5 -5 3 650 2 = 0 0 0 3 -5 1",
        "1000 -5 -5 3 650 3 = 0 1 0 0 0 0",
        "1 3 3 -5 301 1 = 0 0 1 3 3 1",
        "1 3 3 -5 299 2 = 0 0 0 3 3 0",
        "1000 3 -5 -5 0 1 = 0 0 1 3 -5 2",
        "1000 3 -5 -5 0 2 = 0 0 0 3 -5 2",
        "1000 -5 3 3 0 1 = 0 0 1 -5 -5 1",
    ] {
        assert!(lines("tie_back").contains(&format!("tie_back {line}").as_str()), "{line}");
    }
}
