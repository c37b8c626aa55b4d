//! Every outside vector, answered row by row.

mod support;

use second::admission::margin;
use second::block::{from_block, to_block, NO_PLAN};
use second::event::Event;
use second::host::{c_fresh, c_line, c_margin, c_read, c_step};
use second::image::{from_image, to_image, NO_STATE};
use second::read::read;
use second::run::run;
use second::step::step;
use std::fs;
use std::path::PathBuf;
use support::vectors::{bytes, check, file, number, rows, same, same_bytes};

#[test]
fn read_vectors() {
    check("read.tsv", &rows("read.tsv", 4, 552), |row| {
        let text = bytes(&row[0]);
        let expected: (u32, u32) = (number(&row[1]), number(&row[2]));
        let plan = read(&text);
        let got = match &plan {
            Ok(_) => (0, 0),
            Err(refusal) => (refusal.number, refusal.beside),
        };
        same("number and number beside", got, expected)?;
        let (mut block, mut beside) = (vec![0xa5; 1108], 77);
        let returned = c_read(&text, &mut block, &mut beside);
        same("c_read", (returned, beside), expected)?;
        if row[3] == "-" {
            return same_bytes("the kept block", &block, &[0xa5; 1108]);
        }
        let expected = bytes(&row[3]);
        let plan = plan.map_err(|_| "a refused plan has a block".to_owned())?;
        same_bytes("the block", &to_block(&plan), &expected)?;
        same_bytes("the block of c_read", &block, &expected)
    });
}

#[test]
fn margin_vectors() {
    check("margin.tsv", &rows("margin.tsv", 4, 840), |row| {
        let text = bytes(&row[0]);
        let expected: (u32, i64) = (number(&row[2]), number(&row[3]));
        let got = match margin(&text, number(&row[1])) {
            Ok(margin) => (0, margin),
            Err(refusal) => (refusal.number, i64::from(refusal.beside)),
        };
        same("number and margin", got, expected)?;
        let mut margin = 77;
        let returned = c_margin(&text, number(&row[1]), &mut margin);
        same("c_margin", (returned, margin), expected)
    });
}

#[test]
fn block_vectors() {
    check("block.tsv", &rows("block.tsv", 2, 300), |row| {
        let block = bytes(&row[0]);
        let plan = from_block(&block);
        let got = plan.as_ref().err().copied().unwrap_or(0);
        let expected: u32 = number(&row[1]);
        assert!(expected == 0 || expected == NO_PLAN);
        same("number", got, expected)?;
        same("c_fresh", c_fresh(&block, &mut [0; 320]), expected)?;
        match plan {
            Ok(plan) => same_bytes("the block again", &to_block(&plan), &block),
            Err(_) => Ok(()),
        }
    });
}

#[test]
fn image_vectors() {
    check("image.tsv", &rows("image.tsv", 3, 480), |row| {
        let plan = from_block(&bytes(&row[0])).map_err(|number| format!("block gives {number}"))?;
        let image = bytes(&row[1]);
        let state = from_image(&plan, &image);
        let got = state.as_ref().err().copied().unwrap_or(0);
        let expected: u32 = number(&row[2]);
        assert!(expected == 0 || expected == NO_STATE);
        same("number", got, expected)?;
        match state {
            Ok(state) => same_bytes("the image again", &to_image(&state), &image),
            Err(_) => Ok(()),
        }
    });
}

#[test]
fn step_vectors() {
    check("step.tsv", &rows("step.tsv", 10, 900), |row| {
        let (block, image) = (bytes(&row[0]), bytes(&row[1]));
        let [kind, task, resource]: [u32; 3] = [2, 3, 4].map(|place| number(&row[place]));
        let expected: [u32; 4] = [5, 6, 7, 8].map(|place| number(&row[place]));
        let after = bytes(&row[9]);

        let plan = from_block(&block).map_err(|number| format!("block gives {number}"))?;
        let mut state = from_image(&plan, &image).map_err(|number| format!("gives {number}"))?;
        let event = Event::from_numbers(kind, task, resource);
        let outcome = step(&plan, &mut state, event);
        let got = [
            outcome.answer.number(),
            outcome.subsystem.map_or(255, |row| row as u32),
            outcome.task.map_or(255, |row| row as u32),
            outcome.ended.iter().map(|row| 1 << row).sum(),
        ];
        same("answer, subsystem, task, ended", got, expected)?;
        same_bytes("the image after", &to_image(&state), &after)?;

        let mut lent = image.clone();
        let (mut subsystem, mut running, mut ended) = (77, 77, 77);
        let answer = c_step(
            &block,
            &mut lent,
            kind,
            task,
            resource,
            &mut subsystem,
            &mut running,
            &mut ended,
        );
        same("c_step", [answer, subsystem, running, ended], expected)?;
        same_bytes("the image of c_step", &lent, &after)
    });
}

/// One whole run: in memory, and once more line by line through the call for a host.
fn whole_run(name: &str) {
    let [plan, events, out] =
        ["plan", "events", "out"].map(|ending| file(&format!("runs/{name}.{ending}")));
    assert!(!out.is_empty(), "{name}.out is empty");
    let got = run(&plan, &events);
    for (place, (got, expected)) in got
        .split_inclusive(|&byte| byte == b'\n')
        .zip(out.split_inclusive(|&byte| byte == b'\n'))
        .enumerate()
    {
        assert_eq!(
            String::from_utf8_lossy(got),
            String::from_utf8_lossy(expected),
            "{name}.out, line {}",
            place + 1
        );
    }
    assert_eq!(got.len(), out.len(), "{name}.out: length");

    let (mut block, mut beside) = (vec![0; 1108], 0);
    if c_read(&plan, &mut block, &mut beside) == 0 {
        let mut image = vec![0; 320];
        assert_eq!(c_fresh(&block, &mut image), 0);
        let (mut written, mut fill) = (vec![0; out.len()], 0);
        let lines = events.split_inclusive(|&byte| byte == b'\n');
        for (line, number) in lines.zip(1..) {
            let answer = c_line(&block, &mut image, number, line, &mut written, &mut fill);
            assert!(
                answer <= 11,
                "{name}.events, line {number} answers {answer}"
            );
        }
        assert_eq!(fill, out.len());
        assert_eq!(written, out);
    }
}

macro_rules! whole_runs {
    ($($test:ident $name:literal)*) => {
        $(#[test] fn $test() { whole_run($name) })*

        /// No run in the folder is left out above.
        #[test]
        fn run_vectors_are_all_listed() {
            let folder = [env!("CARGO_MANIFEST_DIR"), "..", "vectors", "runs"];
            let mut found: Vec<String> = fs::read_dir(folder.iter().collect::<PathBuf>())
                .expect("the folder of runs")
                .map(|entry| entry.expect("an entry of the folder").path())
                .filter(|path| path.extension().is_some_and(|ending| ending == "plan"))
                .map(|path| path.file_stem().unwrap().to_string_lossy().into_owned())
                .collect();
            found.sort();
            assert_eq!(found, [$($name),*]);
        }
    };
}

whole_runs! {
    run_00_vector "00"
    run_01_vector "01"
    run_02_vector "02"
    run_03_vector "03"
    run_04_vector "04"
    run_05_vector "05"
    run_06_vector "06"
    run_07_vector "07"
    run_08_vector "08"
    run_09_vector "09"
    run_document_01_vector "document-01"
}
