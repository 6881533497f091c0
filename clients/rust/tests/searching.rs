//! Plans, scans and streams, compared with a plain search.

use fiolargu::{check, library_version, Buckets, Error, Hit, Plan, Stream};
use std::thread;

type Result<T = ()> = std::result::Result<T, Error>;

/// A hit as the plain search gives it: literal, start and end.
type Found = (usize, u64, u64);

fn found(hits: &[Hit]) -> Vec<Found> {
    hits.iter().map(|hit| (hit.literal(), hit.start(), hit.end())).collect()
}

/// The literals in their order.
fn ordered(patterns: &[Vec<u8>], is_folded: bool) -> Vec<Vec<u8>> {
    let fold = |word: &Vec<u8>| if is_folded { word.to_ascii_lowercase() } else { word.clone() };
    let mut words: Vec<Vec<u8>> = patterns.iter().filter(|word| !word.is_empty()).map(fold).collect();
    words.sort_by(|a, b| (a.len(), a).cmp(&(b.len(), b)));
    words.dedup();
    words
}

/// The hits, by trying each literal at each end.
fn plain(literals: &[Vec<u8>], is_folded: bool, text: &[u8]) -> Vec<Found> {
    let text = if is_folded { text.to_ascii_lowercase() } else { text.to_vec() };
    let ends = |end: usize| {
        let text = &text;
        literals.iter().enumerate().filter(move |(_, word)| text[..end].ends_with(word)).map(move |(number, word)| {
            (number, (end - word.len()) as u64, end as u64)
        })
    };
    (1..=text.len()).flat_map(ends).collect()
}

/// Numbers that look random, the same in each run.
struct Numbers(u64);

impl Numbers {
    fn below(&mut self, end: usize) -> usize {
        self.0 = self.0.wrapping_mul(6364136223846793005).wrapping_add(1442695040888963407);
        (self.0 >> 33) as usize % end
    }

    fn word(&mut self, alphabet: &[u8], longest: usize) -> Vec<u8> {
        (0..self.below(longest + 1)).map(|_| alphabet[self.below(alphabet.len())]).collect()
    }
}

#[test]
fn random_lists_and_texts() -> Result {
    let mut numbers = Numbers(57);
    for round in 0..400 {
        let alphabet: &[u8] = if round % 2 == 0 { b"ab" } else { b"abABc" };
        let mut patterns: Vec<Vec<u8>> = (0..numbers.below(20)).map(|_| numbers.word(alphabet, 6)).collect();
        patterns.push(b"b".to_vec());
        let (is_folded, text) = (round % 3 == 0, numbers.word(alphabet, 1500));
        let literals = ordered(&patterns, is_folded);
        let buckets = if round % 5 == 0 { Buckets::Sixteen } else { Buckets::Eight };
        let plan = Plan::builder().ignore_case(is_folded).buckets(buckets).build(&patterns)?;
        let want = plain(&literals, is_folded, &text);

        let all: Vec<Vec<u8>> = (0..plan.len()).map(|number| plan.literal(number)).collect::<Result<_>>()?;
        assert_eq!(all, literals);
        for (pattern, number) in patterns.iter().zip(plan.literal_of()) {
            let folded = ordered(std::slice::from_ref(pattern), is_folded);
            assert_eq!(number.map(|number| &literals[number]), folded.first());
        }
        let hits: Vec<Hit> = plan.scan(&text).collect();
        assert_eq!(found(&hits), want);
        assert_eq!(plan.count(&text), Ok(want.len()));
        assert_eq!(plan.next_end(&text, 0)?, want.first().map(|hit| hit.2 as usize));

        let mut stream = plan.stream()?;
        drop(plan);
        let (mut fed, mut at) = (Vec::new(), 0);
        while at < text.len() {
            let end = text.len().min(at + numbers.below(200));
            stream.feed(&text[at..end], &mut fed)?;
            at = end;
        }
        assert_eq!((found(&fed), stream.place()), (want, text.len() as u64));
    }
    Ok(())
}

#[test]
fn more_hits_than_a_call_gives() -> Result {
    let plan = Plan::new((1..355).map(|len| vec![b'a'; len]))?;
    let text = vec![b'a'; 9000];
    let want: usize = (1..=9000).map(|end: usize| end.min(354)).sum();
    let hits: Vec<Hit> = plan.scan(&text).collect();
    assert_eq!((hits.len(), plan.count(&text)?), (want, want));
    assert!(hits.windows(2).all(|two| (two[0].end(), two[0].literal()) < (two[1].end(), two[1].literal())));
    let (mut into, mut fed) = (Vec::new(), Vec::new());
    plan.scan_into(&text, &mut into)?;
    plan.stream()?.feed(&text, &mut fed)?;
    assert_eq!((&into, &fed), (&hits, &hits));
    Ok(())
}

#[test]
fn streams_are_copied_and_begun_again() -> Result {
    let plan = Plan::new(["he", "she"])?;
    let (mut stream, mut hits) = (plan.stream_at(100)?, Vec::new());
    stream.feed(b"us", &mut hits)?;
    let mut other = stream.try_clone()?;
    stream.feed(b"he", &mut hits)?;
    assert_eq!(found(&hits), [(0, 102, 104), (1, 101, 104)]);
    hits.clear();
    other.feed(b"xhe", &mut hits)?;
    assert_eq!((found(&hits), stream.place(), other.place()), (vec![(0, 103, 105)], 104, 105));
    hits.clear();
    stream.restart(u64::MAX - 2);
    stream.feed(b"he", &mut hits)?;
    assert_eq!(found(&hits), [(0, u64::MAX - 2, u64::MAX)]);
    assert_eq!(stream.feed(b"x", &mut hits), Err(Error::StreamTooLong));
    assert_eq!((stream.place(), hits.len()), (u64::MAX, 1));
    Ok(())
}

#[test]
fn refusals() -> Result {
    let none: [&str; 0] = [];
    assert_eq!(Plan::new(none).unwrap_err(), Error::NoLiterals);
    assert_eq!(Plan::new([""]).unwrap_err(), Error::NoLiterals);
    assert_eq!(Plan::new(vec!["a"; 4097]).unwrap_err(), Error::TooManyPatterns);
    assert_eq!(Plan::new([vec![b'a'], vec![b'b'; 4096]]).unwrap_err(), Error::LiteralTooLong { place: 1 });
    assert_eq!(Plan::new(vec![vec![b'a'; 4095]; 257]).unwrap_err(), Error::ListTooLarge);
    assert_eq!(Plan::from_plan_file(b"cat", 0).unwrap_err(), Error::BadPlanFile { place: 0 });
    let plan = Plan::builder().build_from_lines(b"dog\n\ncat\n")?;
    assert_eq!((plan.literal(0)?, plan.literal(2).unwrap_err()), (b"cat".to_vec(), Error::OutOfRange));
    assert_eq!(plan.next_end(b"cat", 4).unwrap_err(), Error::OutOfRange);
    assert_eq!((plan.next_end(b"cat", 3)?, plan.count(b"")?), (None, 0));
    assert_eq!(Error::LiteralTooLong { place: 7 }.to_string(), "pattern 7 has more than 4,095 bytes");
    assert_eq!(Error::OutOfRange.to_string(), "a position or a number of a literal is out of range");
    assert_eq!(Error::OutOfRange.number(), 23);
    Ok(())
}

#[test]
fn plan_files() -> Result {
    for is_ignored in [false, true] {
        let plan = Plan::builder().ignore_case(is_ignored).build(["Cat", "dog"])?;
        let mut file = plan.to_plan_file()?;
        assert_eq!(check(&file), Ok(1));
        let again = Plan::from_plan_file(&file, 0)?;
        assert_eq!((again.ignores_case(), again.cost(), again.longest()), (is_ignored, plan.cost(), 3));
        assert_eq!(again.count(b"CAT Cat dog")?, if is_ignored { 3 } else { 2 });
        assert_eq!(Plan::from_plan_file(&file, 1).unwrap_err(), Error::NoSuchPlan);
        file.push(0);
        assert_eq!(check(&file), Err(Error::BadPlanFile { place: file.len() - 1 }));
    }
    Ok(())
}

#[test]
fn threads_with_a_handle_each() -> Result {
    let plan = Plan::new(["ab", "ba", "aaaaaaaaa"])?;
    let text = b"aab".repeat(20000);
    let want = plan.count(&text)?;
    let workers: Vec<_> = (0..6)
        .map(|_| {
            let (plan, text) = (plan.clone(), text.clone());
            thread::spawn(move || -> Result<(usize, Stream)> {
                let mut stream = plan.stream()?;
                let mut hits = Vec::new();
                text.chunks(1000).try_for_each(|piece| stream.feed(piece, &mut hits))?;
                Ok((plan.count(&text)? + hits.len(), stream))
            })
        })
        .collect();
    for worker in workers {
        let (count, mut stream) = worker.join().expect("a thread")?;
        let mut hits = Vec::new();
        stream.feed(b"a", &mut hits)?;
        assert_eq!((count, found(&hits).len()), (2 * want, 1));
    }
    Ok(())
}

#[test]
fn versions() {
    let (major, minor, patch) = library_version();
    assert_eq!(format!("{major}.{minor}.{patch}"), env!("CARGO_PKG_VERSION"));
}
