//! Images, jobs and names.

use crate::{image, Folder, GOOD};

#[test]
fn an_image() {
    let folder = Folder::new("an_image");
    assert_eq!(folder.output("image good.tpal"), image());
    assert_eq!(folder.output("image good.tpal -o -"), image());
    assert_eq!(folder.output("image good.tpal -o out.tpb"), b"");
    assert_eq!(folder.read("out.tpb"), image());
    let outcome = folder.run_on(GOOD.as_bytes(), "image -");
    assert_eq!((outcome.status, outcome.out), (Some(0), image()));
}

#[test]
fn a_job_with_the_settings_of_its_source() {
    let folder = Folder::new("a_job");
    let job = model::Job::parse(&folder.output("job good.tpal")).unwrap();
    assert_eq!((job.places, job.interval), (2, 0));
    assert_eq!(job.registers[3], 4);
    assert_eq!(job.words, [1, 2]);
}

#[test]
fn a_job_with_options() {
    let folder = Folder::new("a_job_with_options");
    let words: Vec<u8> = [7_i64, -8].iter().flat_map(|w| w.to_le_bytes()).collect();
    folder.write("calls", &words);
    let options = "--places 64 --interval=8 --set a=-5 --set r15=6 --words calls";
    let job = folder.output(&format!("job {} good.tpal", options));
    let job = model::Job::parse(&job).unwrap();
    assert_eq!((job.places, job.interval), (64, 8));
    assert_eq!((job.registers[3], job.registers[15]), (-5, 6));
    assert_eq!(job.words, [7, -8]);
    let from_standard_input = folder.run_on(&words, "job good.tpal --words -");
    assert!(from_standard_input.out.ends_with(&words));
}

#[test]
fn names_of_registers() {
    let folder = Folder::new("names");
    assert_eq!(folder.output("names good.tpal"), b"r3 a\n");
    let source = "reg z = r15, left-over = r2\nreg a = r10\nmain: r1 := r0 / 0; halt\n";
    folder.write("several.tpal", source.as_bytes());
    let names = b"r2 left-over\nr10 a\nr15 z\n";
    assert_eq!(folder.output("names several.tpal"), names);
    assert_eq!(folder.output("names several.tpal -o out"), b"");
    assert_eq!(folder.read("out"), names);
    assert_eq!(folder.run_on(source.as_bytes(), "names -").out, names);
    folder.write("none.tpal", b"main: halt\n");
    assert_eq!(folder.output("names none.tpal"), b"");
}
