//! Pictures there and back, whole and cut, at every side and every number of levels, in both editions.

mod pictures;

use label::{Edition, Refusal, Settled, BLOCK_BYTES, PAYLOAD_BYTES};
use pictures::{arm_block, coding, low_bands, media_block, pictures, record, set, sizes};
use pictures::{Chance, Coding, Low, BY_ARM_2, EDITIONS, LABEL, MEDIA};

/// What decoded numbers and greys are worth against the true ones, with p planes unfinished: of the numbers before the
/// place where the cut fell, one plane less is unread.
fn as_good_as_promised(levels: u32, settled: Settled, numbers: &[i32], truth: &[i32], shown: &[u8], picture: &[u8]) {
    let Settled { unfinished, place, .. } = settled;
    assert!(place < numbers.len() && (unfinished > 0 || place == 0), "no place");
    for (z, (number, truth)) in numbers.iter().zip(truth).enumerate() {
        let unread = unfinished - u32::from(z < place);
        assert!(number.abs() <= truth.abs(), "a number above the true one");
        assert!(truth.abs() - number.abs() < 1 << unread, "a number too short");
        assert!(*number == 0 || (*number < 0) == (*truth < 0), "a wrong sign");
    }
    let limit = label::grey_limit(levels, unfinished);
    for (grey, truth) in shown.iter().zip(picture) {
        assert!(grey.abs_diff(*truth) <= limit, "a grey is off by more than {limit}");
    }
}

/// Every thumbnail of decoded numbers is worth what is promised, with p planes unfinished: at p = 0 it is the low band,
/// before its greys are set too. Gives how many show other greys than the low band's.
fn thumbnails_as_promised(k: u32, unfinished: u32, numbers: &[i32], bands: &[Low]) -> usize {
    let (levels, mut unlike) = (bands.len() as u32, 0);
    for (r, low) in (1..).zip(bands) {
        let few = label::thumbnail_places(k, r);
        let (mut shown, mut room) = (vec![9; few], vec![9; few]);
        label::thumbnail(k, levels, r, numbers, &mut shown, &mut room).expect("r from 1 to L");
        assert_eq!(set(&room), shown, "the room has other greys");
        let limit = label::grey_limit(levels - r, unfinished);
        if unfinished == 0 {
            assert_eq!((limit, &room), (0, &low.before), "the low band of {r} levels");
        }
        let near = |(grey, truth): (&u8, &u8)| grey.abs_diff(*truth) <= limit;
        assert!(
            shown.iter().zip(&low.greys).all(near),
            "r {r}: a grey is off by more than {limit}"
        );
        unlike += usize::from(shown != low.greys);
    }
    unlike
}

/// The numbers as a softer picture shows them, by the rule.
fn moved(settled: Settled, numbers: &[i32]) -> Vec<i32> {
    let shown = |(z, number): (usize, &i32)| match settled.unfinished - u32::from(z < settled.place) {
        0 => *number,
        unread => number + number.signum() * (1 << (unread - 1)),
    };
    numbers.iter().enumerate().map(shown).collect()
}

/// The softer picture of decoded numbers is that of the numbers moved, of which each that isn't zero is as near to the
/// true one as is promised, and so is each grey; with p = 0 it is the plain picture. Gives whether it shows other greys
/// than that.
fn softer_as_promised(
    levels: u32,
    settled: Settled,
    numbers: &[i32],
    coding: &Coding,
    plain: &[u8],
    picture: &[u8],
) -> bool {
    let (k, Settled { unfinished, place, .. }) = (picture.len().ilog2() / 2, settled);
    let near = moved(settled, numbers);
    for (z, (number, truth)) in near.iter().zip(&coding.numbers).enumerate() {
        let half = match unfinished - u32::from(z < place) {
            0 => 0,
            unread => 1 << (unread - 1),
        };
        assert!(*number == 0 || number.abs_diff(*truth) <= half, "a number too far off");
    }
    let [mut shown, mut wanted] = [1, 2].map(|grey| vec![grey; picture.len()]);
    let [mut room, mut before] = [1, 2].map(|number| vec![number; picture.len()]);
    let lent = numbers.to_vec();
    label::display(k, levels, unfinished, place, numbers, &mut shown, &mut room).expect("what was settled");
    assert_eq!(numbers, lent, "the numbers lent are other ones");
    label::inverse(k, levels, &near, &mut wanted, &mut before).expect("within the limit");
    assert_eq!((&shown, &room), (&wanted, &before), "not the numbers that were moved");
    let limit = label::grey_limit(levels, unfinished);
    for (grey, truth) in shown.iter().zip(picture) {
        assert!(grey.abs_diff(*truth) <= limit, "a grey is off by more than {limit}");
    }
    assert!(unfinished > 0 || shown == plain, "all is read, and something was moved");
    shown != plain
}

#[test]
fn there_and_back() {
    for (k, levels) in sizes() {
        for picture in pictures(k) {
            let coding = coding(k, levels, &picture);
            let payloads = EDITIONS.map(|edition| {
                let record = record(k, levels, edition, &coding);
                for block in record.chunks(BLOCK_BYTES) {
                    assert_eq!(label::check(block), Ok(()));
                }
                let mut payload = vec![0x55; record.len() / BLOCK_BYTES * PAYLOAD_BYTES];
                let kept = label::read(&record, LABEL, &mut payload).expect("what was written");
                assert_eq!(
                    (kept.k, kept.levels, kept.n, kept.bits),
                    (k, levels, coding.n, coding.bits)
                );
                assert_eq!((kept.blocks, kept.ended), (record.len() / BLOCK_BYTES, None));
                assert_eq!(kept.edition, edition);
                payload.truncate(coding.bits.div_ceil(8));
                payload
            });
            let [payload, other] = payloads;
            assert_eq!(payload, other, "the editions hold other bits");

            let (mut numbers, mut shown, mut room) = (coding.numbers.clone(), picture.clone(), coding.numbers.clone());
            numbers.fill(-5);
            shown.fill(1);
            let settled = label::decode(k, levels, coding.n, &mut numbers, &payload, coding.bits).expect("its bits");
            assert_eq!((settled.unfinished, settled.read, settled.place), (0, coding.bits, 0));
            assert_eq!(numbers, coding.numbers);
            label::inverse(k, levels, &numbers, &mut shown, &mut room).expect("what was settled");
            assert_eq!(shown, picture, "the very picture, k {k}, {levels} levels");
            let bands = low_bands(k, levels, &picture);
            assert_eq!(thumbnails_as_promised(k, 0, &numbers, &bands), 0);
            let other = softer_as_promised(levels, settled, &numbers, &coding, &shown, &picture);
            assert!(!other, "a softer picture of all bits is another");
        }
    }
}

/// Every first part of the records of an edition, of sides below 2^k.
fn cut_records(edition: Edition, below: u32) {
    let (mut cut, mut unlike, mut thumbnails, mut softer) = (0, 0, 0, 0);
    for (k, levels) in sizes().filter(|(k, _)| *k < below) {
        for picture in pictures(k) {
            let coding = coding(k, levels, &picture);
            let record = record(k, levels, edition, &coding);
            let blocks = record.len() / BLOCK_BYTES;
            let bands = low_bands(k, levels, &picture);
            let mut last = (18, 0);
            // a cut within a block is worth as much as one at its front
            for length in (1..=blocks).map(|count| (count * BLOCK_BYTES + count * 7 % 512).min(record.len())) {
                let count = length / BLOCK_BYTES;
                let mut payload = vec![0x55; count * PAYLOAD_BYTES];
                let kept = label::read(&record[..length], LABEL, &mut payload).expect("whole blocks open");
                assert_eq!(
                    (kept.k, kept.levels, kept.n, kept.edition),
                    (k, levels, coding.n, edition)
                );
                assert_eq!((kept.blocks, kept.ended), (count, None));
                assert_eq!(kept.bits, coding.bits.min(count * label::payload_bits_of(edition)));

                let places = label::places(k);
                let (mut numbers, mut shown, mut room) = (vec![9; places], vec![9; places], vec![9; places]);
                let settled = label::decode(k, levels, kept.n, &mut numbers, &payload, kept.bits).expect("bits");
                label::inverse(k, levels, &numbers, &mut shown, &mut room).expect("numbers");
                as_good_as_promised(levels, settled, &numbers, &coding.numbers, &shown, &picture);
                let (p, place) = last;
                assert!(
                    settled.unfinished < p || settled.unfinished == p && settled.place >= place,
                    "more blocks, and more planes unfinished, or less of the one that is running"
                );
                assert_eq!(settled.unfinished == 0, count == blocks);
                last = (settled.unfinished, settled.place);
                cut += usize::from(count < blocks);
                unlike += usize::from(shown != picture);
                thumbnails += thumbnails_as_promised(k, settled.unfinished, &numbers, &bands);
                let other = softer_as_promised(levels, settled, &numbers, &coding, &shown, &picture);
                softer += usize::from(other);
            }
        }
    }
    assert!(
        cut > 50 && unlike > 50 && thumbnails > 100 && softer > 50,
        "{cut} cut records, of which {unlike} show it, {thumbnails} of their thumbnails, {softer} softer"
    );
}

#[test]
fn a_cut_record_keeps_its_promise() {
    cut_records(Edition::One, 8);
}

#[test]
fn a_cut_record_of_edition_2_keeps_its_promise() {
    cut_records(BY_ARM_2, 7);
}

#[test]
fn a_coding_cut_at_any_bit_keeps_its_promise() {
    let mut chance = Chance::new(417);
    for (k, levels) in sizes().filter(|(k, _)| *k < 6) {
        for picture in pictures(k) {
            let coding = coding(k, levels, &picture);
            let bands = low_bands(k, levels, &picture);
            for _ in 0..20 {
                let limit = chance.below(coding.bits + 1);
                let mut bytes = vec![0xFF; coding.bytes.len()];
                let cut = label::code(k, levels, &coding.numbers, limit, &mut bytes).expect("numbers");
                assert_eq!((cut.bits, cut.n), (limit, coding.n));
                assert!(
                    bytes[limit.div_ceil(8)..].iter().all(|byte| *byte == 0xFF),
                    "a later byte was touched"
                );

                // the room of a coding cuts it as a limit does
                let room = limit / 8;
                let by_room = label::code(k, levels, &coding.numbers, usize::MAX, &mut bytes[..room]).expect("numbers");
                assert_eq!(by_room.bits, coding.bits.min(8 * room));

                let places = label::places(k);
                let (mut numbers, mut shown, mut work) = (vec![9; places], vec![9; places], vec![9; places]);
                let settled = label::decode(k, levels, cut.n, &mut numbers, &bytes, limit).expect("bits");
                label::inverse(k, levels, &numbers, &mut shown, &mut work).expect("numbers");
                as_good_as_promised(levels, settled, &numbers, &coding.numbers, &shown, &picture);
                thumbnails_as_promised(k, settled.unfinished, &numbers, &bands);
                softer_as_promised(levels, settled, &numbers, &coding, &shown, &picture);
            }
        }
    }
}

/// The numbers 5, 0, 0, .. 0, of side 8 and two levels, cut at each of their bits.
#[test]
fn the_places_of_the_format_page() {
    let bytes = [0xC0, 0x08, 0x00];
    let settled = |b| label::decode(3, 2, 3, &mut [9; 64], &bytes, b).expect("17 bits");
    let places: Vec<usize> = (0..=17).map(|b| settled(b).place).collect();
    assert_eq!(places, [0, 0, 0, 1, 2, 3, 4, 0, 1, 2, 3, 4, 0, 1, 2, 3, 4, 0]);
    let unfinished: Vec<u32> = (0..=17).map(|b| settled(b).unfinished).collect();
    assert_eq!(unfinished, [3, 3, 3, 3, 3, 3, 3, 2, 2, 2, 2, 2, 1, 1, 1, 1, 1, 0]);
    // bits beyond the last plane are not read, and no plane is running
    assert_eq!((settled(24).read, settled(24).place), (17, 0));
}

#[test]
fn the_thumbnails_of_the_format_page() {
    let mut numbers = [0; 64];
    numbers[0] = 5;
    let (mut four, mut room) = ([9; 16], [9; 16]);
    assert_eq!(label::thumbnail(3, 2, 1, &numbers, &mut four, &mut room), Ok(()));
    assert_eq!(four[..6], [133, 130, 128, 128, 130, 129]);
    assert_eq!(four[6..], [128; 10]);
    assert_eq!(room[..5], [133, 130, 130, 129, 128]); // in Z order
    let (mut two, mut room) = ([9; 4], [9; 4]);
    assert_eq!(label::thumbnail(3, 2, 2, &numbers, &mut two, &mut room), Ok(()));
    assert_eq!((two, room), ([133, 128, 128, 128], [133, 128, 128, 128]));
    // set into 0 to 255, and the room has what they were
    numbers[1..3].copy_from_slice(&[-200, 200]);
    assert_eq!(label::thumbnail(3, 2, 2, &numbers, &mut two, &mut room), Ok(()));
    assert_eq!((two, room), ([133, 0, 255, 128], [133, -72, 328, 128]));
}

/// Place 0 of the numbers 5, 0, 0, .. 0 and place 15 of 0, .. -3, .. 0, cut at each of their bits.
#[test]
fn the_softer_numbers_of_the_format_page() {
    let shown = |bytes: &[u8], n, b, at: usize| {
        let mut numbers = [9; 64];
        let settled = label::decode(3, 2, n, &mut numbers, bytes, b).expect("its bits");
        let (p, cut) = (settled.unfinished, settled.place);
        let (mut picture, mut room, mut wanted) = ([9; 64], [9; 64], [9; 64]);
        label::display(3, 2, p, cut, &numbers, &mut picture, &mut room).expect("numbers");
        let near = moved(settled, &numbers);
        label::inverse(3, 2, &near, &mut [9; 64], &mut wanted).expect("numbers");
        assert_eq!(room, wanted);
        assert_eq!(set(&room), picture);
        near[at]
    };
    let five: Vec<i32> = (0..=17).map(|b| shown(&[0xC0, 0x08, 0x00], 3, b, 0)).collect();
    assert_eq!(five, [0, 0, 0, 6, 6, 6, 6, 6, 5, 5, 5, 5, 5, 5, 5, 5, 5, 5]);
    let minus_three: Vec<i32> = (0..=19).map(|b| shown(&[0x48, 0xC0, 0x40], 2, b, 15)).collect();
    assert_eq!((&minus_three[..10], &minus_three[10..]), (&[0; 10][..], &[-3; 10][..]));
}

#[test]
fn the_softer_pictures_of_the_format_page() {
    let mut numbers = [0; 64];
    numbers[0] = 4; // of 5, as its first 7 and its first 8 bits leave it
    for (place, row) in [(0, [134, 132, 131, 129]), (1, [133, 131, 130, 129])] {
        let (mut picture, mut room) = ([9; 64], [9; 64]);
        assert_eq!(
            label::display(3, 2, 2, place, &numbers, &mut picture, &mut room),
            Ok(())
        );
        assert_eq!((&picture[..4], &picture[4..8]), (&row[..], &[128; 4][..]));
    }
    let (mut plain, mut room) = ([9; 64], [9; 64]);
    assert_eq!(label::inverse(3, 2, &numbers, &mut plain, &mut room), Ok(()));
    assert_eq!(plain[..8], [132, 131, 130, 129, 128, 128, 128, 128]);
}

/// Numbers at the limit: moved they pass it, and their greys are set into 0 to 255.
#[test]
fn softer_beyond_the_limit() {
    for (number, place, shown, grey) in [
        (label::NUMBER_LIMIT, 0, 393_215, 255),
        (label::NUMBER_LIMIT, 63, 327_679, 255),
        (-label::NUMBER_LIMIT, 0, -393_215, 0),
        (-label::NUMBER_LIMIT, 63, -327_679, 0),
    ] {
        let mut numbers = [0; 64];
        numbers[0] = number;
        let (mut picture, mut room) = ([9; 64], [9; 64]);
        assert_eq!(
            label::display(3, 2, 18, place, &numbers, &mut picture, &mut room),
            Ok(())
        );
        assert_eq!((room[0], picture[0]), (shown + 128, grey));
    }
}

#[test]
fn a_label_with_a_media_type() {
    let mut numbers = [0; 64];
    numbers[0] = 5;
    let mut bytes = [0; label::most_bytes(3, 3)];
    let coded = label::code(3, 2, &numbers, usize::MAX, &mut bytes).expect("numbers");
    assert_eq!((coded.n, coded.bits), (3, 17));
    let mut block = [0xAA; BLOCK_BYTES];
    assert_eq!(
        label::write(3, 2, 3, Edition::One, MEDIA, &bytes, 17, &mut block),
        Ok(1)
    );
    assert_eq!(block, media_block());
    assert_eq!(label::check(&block), Ok(()));

    let mut payload = [0x55; PAYLOAD_BYTES];
    let kept = label::read(&block, MEDIA, &mut payload).expect("what was written");
    assert_eq!((kept.k, kept.levels, kept.n), (3, 2, 3));
    assert_eq!((kept.blocks, kept.bits, kept.ended), (1, 17, None));
    assert_eq!(payload[..3], [0xC0, 0x08, 0x00]);
    let mut settled = [9; 64];
    let whole = Settled {
        unfinished: 0,
        read: 17,
        place: 0,
    };
    assert_eq!(label::decode(3, 2, 3, &mut settled, &payload, 17), Ok(whole));
    assert_eq!(settled, numbers);
    // neither another label, nor the same in small letters
    assert_eq!(label::read(&block, b"0417AAL5", &mut payload), Err(Refusal::Turn));
    assert_eq!(label::read(&block, b"0417aal6", &mut payload), Err(Refusal::Label));
}

#[test]
fn the_block_of_edition_2_of_the_format_page() {
    let bytes = [0xC0, 0x08, 0x00];
    let mut block = [0xAA; BLOCK_BYTES];
    assert_eq!(label::write(3, 2, 3, BY_ARM_2, MEDIA, &bytes, 17, &mut block), Ok(1));
    assert_eq!(block, arm_block());
    assert_eq!(label::check(&block), Ok(()));

    let mut payload = [0x55; PAYLOAD_BYTES];
    let kept = label::read(&block, MEDIA, &mut payload).expect("what was written");
    let wanted = label::Kept {
        k: 3,
        levels: 2,
        n: 3,
        edition: BY_ARM_2,
        blocks: 1,
        bits: 17,
        ended: None,
    };
    assert_eq!(kept, wanted);
    assert_eq!((&payload[..3], &payload[3..]), (&bytes[..], &[0x55; 489][..]));
}

#[test]
fn a_label_that_is_part_of_the_record() {
    let picture = &pictures(4)[2];
    let record = record(4, 3, Edition::One, &coding(4, 3, picture));
    let mut payload = vec![0; record.len()];
    assert!(label::read(&record, &record[4..12], &mut payload).is_ok());
}
