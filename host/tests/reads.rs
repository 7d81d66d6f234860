//! Every line of the lists of reads, put to the proved reader and to the second one.

use tlepozaluh_host::questions::{proved, second};
use tlepozaluh_host::samples::{self, READS};

#[test]
fn every_line() {
    for (folder, count) in READS {
        let files = samples::archived(folder).expect("checks.tar");
        let path = samples::directory().join(folder).join("reads.txt");
        let lines = samples::read_lines(&path).expect("reads.txt");
        assert_eq!(lines.len(), count);
        for line in lines {
            let file = &files[&line.name];
            assert_eq!(second(file, &line.question), line.answer, "second: {line:?}");
            assert_eq!(proved(file, &line.question), line.answer, "proved: {line:?}");
        }
    }
}
