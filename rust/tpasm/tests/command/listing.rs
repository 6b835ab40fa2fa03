//! Listings of images and jobs.

use crate::{image, Folder};

const JOB_WITH_OFFSETS: &str = "\
// job of 193 bytes; its image has 42, 1 block and 2 instructions
// beside each line: block or instruction, offset in the file, bytes
version 1       //               5  01 00
places 2        //              44  02
interval 0      //              45  00 00
set r3 = 4      //              71  04 00 00 00 00 00 00 00
words 1 2       //             177

b0:             //   block 0    10  00 00 00 00 00 00 00 00 00 00
  r3 := r3 + 1  //         0    20  02 03 03 03 01 00 00 00 00 00 00 00
  halt          //         1    32  0e 00 00 00 00 00 00 00 00 00 00 00
";

#[test]
fn an_image() {
    let folder = Folder::new("a_listed_image");
    folder.write("good.tpb", &image());
    let listing = b"// image of 42 bytes, 1 block and 2 instructions\n\
                    version 1\n\n\
                    b0:\n  r3 := r3 + 1\n  halt\n";
    assert_eq!(folder.output("list good.tpb"), listing);
    assert_eq!(folder.run_on(&image(), "list -").out, listing);
    assert_eq!(folder.output("list -o out.tpal -- good.tpb"), b"");
    assert_eq!(folder.read("out.tpal"), listing);
    assert_eq!(folder.output("image out.tpal"), image());
}

#[test]
fn a_job() {
    let folder = Folder::new("a_listed_job");
    let job = folder.output("job good.tpal");
    folder.write("good.job", &job);
    let listing = b"// job of 193 bytes; its image has 42, 1 block and 2 instructions\n\
                    version 1\nplaces 2\ninterval 0\nset r3 = 4\nwords 1 2\n\n\
                    b0:\n  r3 := r3 + 1\n  halt\n";
    assert_eq!(folder.output("list good.job"), listing);
    folder.write("again.tpal", listing);
    assert_eq!(folder.output("job again.tpal"), job);
}

#[test]
fn offsets() {
    let folder = Folder::new("offsets");
    let job = folder.output("job good.tpal");
    folder.write("good.job", &job);
    let listing = folder.output("list good.job --offsets");
    assert_eq!(
        String::from_utf8(listing.clone()).unwrap(),
        JOB_WITH_OFFSETS
    );
    folder.write("again.tpal", &listing);
    assert_eq!(folder.output("job again.tpal"), job);
}

#[test]
fn an_image_of_version_2() {
    const TEXT: &str = "\
// image of 58 bytes, 1 block and 3 instructions
// beside each line: block or instruction, offset in the file, bytes
version 2  //               3  02 00

b0:        //   block 0     8  00 00 00 00 00 00 00 00 00 00 00 00 00 00
  push r3  //         0    22  10 00 00 01 03 00 00 00 00 00 00 00
  pop r5   //         1    34  11 05 00 00 00 00 00 00 00 00 00 00
  halt     //         2    46  0e 00 00 00 00 00 00 00 00 00 00 00
";
    let folder = Folder::new("a_listed_image_of_version_2");
    folder.write("calls.tpal", b"main:\n  push r3\n  pop r5\n  halt\n");
    let image = folder.output("image calls.tpal");
    folder.write("calls.tpb", &image);
    let listing = folder.output("list calls.tpb --offsets");
    assert_eq!(String::from_utf8(listing.clone()).unwrap(), TEXT);
    folder.write("again.tpal", &listing);
    assert_eq!(folder.output("image again.tpal"), image);
}
