//! What the port's call promises of its buffer, by running it.

use generate::Family;

/// Some traces of every family.
fn traces() -> impl Iterator<Item = Vec<u8>> {
    Family::ALL.into_iter().flat_map(|family| (0..40).map(move |seed| family.trace(seed)))
}

/// Every room from none to one byte too many: the whole lines that fit, and zeros.
#[test]
fn whole_lines_that_fit_and_zeros() {
    for trace in traces().step_by(10) {
        let whole = port::lines(&trace);
        for room in 0..=whole.len() + 1 {
            let mut out = vec![0xAA; room];
            let length = port::replay(&trace, &mut out);
            let fits = whole.split_inclusive(|&byte| byte == b'\n').scan(0, |end, line| {
                *end += line.len();
                Some(*end)
            });
            assert_eq!(length, fits.take_while(|&end| end <= room).last().unwrap_or(0));
            assert_eq!(out[..length], whole[..length]);
            assert!(out[length..].iter().all(|&byte| byte == 0));
        }
    }
}

#[test]
fn the_same_trace_twice_gives_the_same_bytes() {
    for trace in traces() {
        let mut first = vec![0x55; 5000];
        let mut second = vec![0xAA; 5000];
        assert_eq!(port::replay(&trace, &mut first), port::replay(&trace, &mut second));
        assert_eq!(first, second);
    }
}

/// Every cut of a trace, and every byte of it changed.
#[test]
fn damaged_traces_say_what_the_second_reading_says() {
    let trace = Family::Inside.trace(7);
    let expected = |trace: &[u8]| records::lines(&reading::replay(trace)).into_bytes();
    for cut in 0..=trace.len() {
        assert_eq!(port::lines(&trace[..cut]), expected(&trace[..cut]));
    }
    for place in 0..trace.len() {
        let mut damaged = trace.clone();
        damaged[place] ^= 0x81;
        assert_eq!(port::lines(&damaged), expected(&damaged), "byte {place}");
    }
}
