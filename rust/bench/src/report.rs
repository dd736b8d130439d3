//! What is said about the times: tables, means, a plot.

use crate::plot::{plot, Curve};
use crate::questions::NAMES;
use crate::rules::{sizes, KINDS};
use crate::sheet::{Sheet, WAYS};
use crate::texts;
use crate::timing::geometric_mean;

/// Prints all tables.
pub fn print(sheet: &Sheet) {
    for (title, what) in [
        (
            "One more question in a batch, ns (a batch of 64 less the check, by 64)",
            "question",
        ),
        (
            "A batch of one question, ns (the archive checks the book first)",
            "alone",
        ),
        ("Adding, ns a rule", "add"),
        ("Removing, ns a rule", "remove"),
    ] {
        print!("{}", sheet.table(title, what));
    }
    print_check(sheet);
    print_names(sheet);
    print_texts(sheet);
    print_means(sheet);
    print_growth(sheet);
    print_full(sheet);
}

/// The check beside building the map tree anew from as many rules.
fn print_check(sheet: &Sheet) {
    println!("\nThe check alone, and building the map tree from as many rules, µs");
    println!(
        "{:<10} {:>5} {:>9} {:>9} {:>7}",
        "rules", "held", "check", "build", "ratio"
    );
    for kind in KINDS {
        for size in sizes(kind) {
            let check = sheet.time(kind, *size, "check", WAYS[0]);
            let build = sheet.time(kind, *size, "build", WAYS[2]);
            if let (Some(check), Some(build)) = (check, build) {
                println!(
                    "{kind:<10} {size:>5} {:>9.2} {:>9.2} {:>7.3}",
                    check / 1e3,
                    build / 1e3,
                    check / build
                );
            }
        }
    }
}

/// Entering names.
fn print_names(sheet: &Sheet) {
    println!("\nEntering names, ns");
    for line in sheet.lines().iter().filter(|line| line.set == "names") {
        let (count, what, who) = (line.rules, &line.what, line.who);
        println!("{count:>5} {what:<22} {who:<10} {:>10.0}", line.nanoseconds);
    }
}

/// Reading typed terms: the check apart, and what is above it by the reader written by hand.
fn print_texts(sheet: &Sheet) {
    println!("\nReading typed terms whose names are held, ns");
    println!(
        "{:>5} {:>5} {:>10} {:>10} {:>10} {:>10} {:>7}",
        "names", "cells", "archive", "check", "above it", "by hand", "ratio"
    );
    for size in texts::SIZES {
        for cells in texts::CELLS {
            let time = |who| {
                let time = sheet.time("texts", size, &texts::what(cells), who);
                time.unwrap_or(f64::NAN)
            };
            let [all, check, above, hand] = texts::WHO.map(time);
            let ratio = above / hand;
            println!(
                "{size:>5} {cells:>5} {all:>10.0} {check:>10.0} {above:>10.0} {hand:>10.0} {ratio:>7.2}"
            );
        }
    }
}

/// Geometric means of what the archive takes as a multiple of the others.
fn print_means(sheet: &Sheet) {
    println!("\nThe archive's time by the others', geometric means");
    println!(
        "{:<36} {:>10} {:>10} {:>10}",
        "", "one by one", "map tree", "arena tree"
    );
    let row = |name: String, set: &str, what: &str| {
        let mean = |who| geometric_mean(sheet.ratios(set, what, who));
        let [list, map, arena] = [WAYS[1], WAYS[2], WAYS[3]].map(mean);
        println!("{name:<36} {list:>10.3} {map:>10.3} {arena:>10.3}");
    };
    for kind in KINDS {
        row(format!("questions, {kind}"), kind, "question");
    }
    for name in NAMES {
        row(
            format!("questions, {name}"),
            "",
            &format!("question {name}"),
        );
    }
    row(String::from("all questions"), "", "question");
    for what in ["add ascending", "add in any order", "remove in any order"] {
        for batch in ["one a batch", "64 a batch", "one batch"] {
            row(format!("{what}, {batch}"), "", &format!("{what} {batch}"));
        }
    }
}

/// How many times as long a question takes with the most rules as with the fewest.
fn print_growth(sheet: &Sheet) {
    println!("\nOne more question, from the fewest rules to the most: the archive, the arena tree");
    for kind in KINDS {
        let (few, most) = (sizes(kind)[0], sizes(kind)[sizes(kind).len() - 1]);
        for name in NAMES {
            let what = format!("question {name}");
            let time = |size, who| sheet.time(kind, size, &what, who).unwrap_or(f64::NAN);
            let [ours, theirs] = [WAYS[0], WAYS[3]].map(|who| time(most, who) / time(few, who));
            println!("{kind:<10} {name:<16} {ours:>6.2} {theirs:>6.2}");
        }
    }
}

/// What a full book of adventure rules costs beside the map tree.
fn print_full(sheet: &Sheet) {
    let time = |what: &str, who| sheet.time("adventure", 512, what, who).unwrap_or(f64::NAN);
    println!("\n512 adventure rules, the archive by the map tree");
    let (check, build) = (time("check", WAYS[0]), time("build", WAYS[2]));
    println!("check by building: {:.3}", check / build);
    for batch in ["one a batch", "64 a batch", "one batch"] {
        let what = format!("add ascending {batch}");
        let ratio = time(&what, WAYS[0]) / time(&what, WAYS[2]);
        println!("{what}: {ratio:.2}");
    }
}

/// The plot: one more question over the number of rules in four ways, and the check.
pub fn picture(sheet: &Sheet) -> String {
    let colours = ["#1b6ca8", "#999999", "#c0392b", "#2e8b57"];
    let mut curves = vec![];
    for (who, colour) in WAYS.iter().zip(colours) {
        let mean = |size: usize| {
            let times = NAMES
                .iter()
                .filter_map(|name| sheet.time("adventure", size, &format!("question {name}"), who));
            geometric_mean(times)
        };
        let points = sizes("adventure").iter().map(|n| (*n as f64, mean(*n)));
        curves.push(Curve {
            name: format!("question, {who}"),
            colour,
            dashed: false,
            points: points.collect(),
        });
    }
    let check = |n: &usize| Some((*n as f64, sheet.time("adventure", *n, "check", WAYS[0])?));
    curves.push(Curve {
        name: String::from("check, archive"),
        colour: colours[0],
        dashed: true,
        points: sizes("adventure").iter().filter_map(check).collect(),
    });
    plot(
        "One more question (mean of the four) and the check of the book",
        "rules held",
        &curves,
    )
}
