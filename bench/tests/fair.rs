//! The ordinary reader, plan, audits and blob files are right ones: the same records, verdicts, rows, counts, entries and bytes as
//! the proved, on generated inputs.

use bench::{fold, ordinary::Ordinary, ordinary_audit, ordinary_blobs, ordinary_plan};
use checks::{blobfiles::BlobFile, cases::random_case, generate::Rng, naming::Naming};
use checks::{puts::Put, stretch::Stretch};
use melagbosun::{audit, blobs, judge, plan_into, FetchRow, FileNumber, Position, Reader};

#[test]
fn the_same_records_and_verdicts() {
    let mut rng = Rng::new(3);
    for _ in 0..20_000 {
        let case = random_case(&mut rng);
        let size = rng.pick(&[1, 47, 48, 49, 100, 4096]);
        let (mut ordinary, mut proved) = (Ordinary::new(&case.tag), Reader::new(&case.tag));
        let (mut sums, mut found, mut wanted) = ([0; 2], Vec::new(), Vec::new());
        for piece in case.shard.chunks(size) {
            let one = ordinary.read(piece, |record| {
                fold(&mut sums[0], &record);
                found.push(record);
            });
            let two = proved.read(piece, |record| {
                fold(&mut sums[1], &record);
                wanted.push(record);
            });
            assert_eq!(one, two, "{}", case.family);
        }
        assert_eq!((sums[0], &found), (sums[1], &wanted));
        assert_eq!(ordinary.verdict(), proved.verdict(), "{}", case.family);
    }
}

#[test]
fn the_same_rows() {
    let mut rng = Rng::new(3);
    let mut planned = 0;
    for number in 0..20_000 {
        let stretch = Stretch::random(&mut rng, number);
        let (tag, shard) = (&stretch.known.tag, &stretch.known.shard);
        if judge(tag, shard).is_err() {
            continue;
        }
        let range = stretch.a..stretch.b;
        let [mut one, mut two] = [(); 2].map(|()| vec![FetchRow::default(); stretch.room]);
        let rows = ordinary_plan::plan(shard, stretch.file, &range, &mut one);
        let wanted = plan_into(tag, shard, FileNumber(stretch.file), range, &mut two);
        assert_eq!((rows, one), (wanted.ok(), two));
        planned += usize::from(rows.is_some());
    }
    assert!(planned > 4_000, "only {planned} were planned");
}

#[test]
fn the_same_counts() {
    let mut rng = Rng::new(3);
    let (mut counted, mut refused) = (0, 0);
    for number in 0..20_000 {
        let known = Naming::random(&mut rng, number).known;
        let (tag, shard) = (&known.tag, &known.shard);
        if judge(tag, shard).is_err() {
            continue;
        }
        let wanted = audit(tag, shard);
        assert_eq!(ordinary_audit::audit(shard), wanted);
        assert_eq!(ordinary_audit::audit_by_table(shard), wanted);
        counted += usize::from(wanted.is_ok());
        refused += usize::from(wanted.is_err());
    }
    let least = counted.min(refused);
    assert!(least > 4_000, "{counted} were counted, {refused} refused");
}

#[test]
fn the_same_entries() {
    let mut rng = Rng::new(3);
    let (mut counted, mut refused) = (0, 0);
    for number in 0..20_000 {
        let file = BlobFile::random(&mut rng, number);
        let wanted = blobs::scan(&file.bytes);
        assert_eq!(ordinary_blobs::scan(&file.bytes), wanted);
        for at in file.positions(&mut rng) {
            let at = Position(at);
            let entry = blobs::entry_at(&file.bytes, at);
            assert_eq!(ordinary_blobs::entry_at(&file.bytes, at), entry);
        }
        counted += usize::from(wanted.is_ok());
        refused += usize::from(wanted.is_err());
    }
    let least = counted.min(refused);
    assert!(least > 2_000, "{counted} were counted, {refused} refused");
}

#[test]
fn the_same_bytes() {
    let mut rng = Rng::new(3);
    let mut written = 0;
    for number in 0..20_000 {
        let Put {
            digits,
            data,
            buffer,
            ..
        } = Put::random(&mut rng, number);
        let [mut one, mut two] = [(); 2].map(|()| buffer.clone());
        let size = ordinary_blobs::put_entry(&digits, &data, &mut one);
        let wanted = blobs::put_entry(&digits, &data, &mut two);
        assert_eq!((size, one), (wanted, two));
        written += usize::from(size.is_ok());
    }
    assert!(written > 4_000, "only {written} were written");
}
