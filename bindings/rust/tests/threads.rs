//! Threads with a seat each, and what they counted.
use std::thread;
use wfe::{AdoptError, CloseError, Field, IndexError, OpenError, PutIfError, Scheme, Seat, Setting, Table};

const SCHEMES: [Scheme; 4] = [Scheme::HazardEras, Scheme::Intervals, Scheme::WaitFreeEras, Scheme::HazardPointers];
const KEY: u64 = 7;
const TURNS: u64 = 3_000;

fn work(seat: &mut Seat) -> (u64, u64) {
    let (mut sent, mut came) = (0, 0);
    for turn in 0..TURNS {
        loop {
            let got = seat.get(KEY);
            match seat.put_if(KEY, got.value.unwrap_or(0) + 1, got.version) {
                Ok(done) => {
                    assert_eq!(done.version, got.version + 1);
                    break;
                }
                Err(PutIfError::Stale { version }) => assert_ne!(version, got.version),
                Err(PutIfError::Full) => {
                    seat.scan();
                }
                Err(why) => panic!("{why}"),
            }
        }
        if seat.enqueue(turn).is_ok() {
            sent += turn;
        }
        came += seat.dequeue().map_or(0, |taken| taken.value);
    }
    (sent, came)
}

#[test]
fn four_threads_count_and_hand_values_on() {
    for scheme in SCHEMES {
        let table = Table::new(Setting::usual(scheme, 4, 10)).unwrap();
        let threads: Vec<_> = table.map(|mut seat| thread::spawn(move || (work(&mut seat), seat))).collect();
        let ends: Vec<_> = threads.into_iter().map(|it| it.join().unwrap()).collect();
        let sent: u64 = ends.iter().map(|it| it.0 .0).sum();
        let mut came: u64 = ends.iter().map(|it| it.0 .1).sum();
        let mut seats: Vec<Seat> = ends.into_iter().map(|it| it.1).collect();
        came += seats[0].drain().map(|taken| taken.value).sum::<u64>();
        assert_eq!(seats[0].get(KEY).value, Some(4 * TURNS));
        assert_eq!(sent, came);
    }
}

/// Closes the table with this seat, once the other ones have left.
fn close(mut seat: Seat) -> wfe::Closed {
    loop {
        match seat.close() {
            Ok(closed) => return closed,
            Err(CloseError::NotLast(back)) => seat = back,
            Err(why) => panic!("{why}"),
        }
        seat.get(KEY);
        thread::yield_now();
    }
}

#[test]
fn the_last_of_four_threads_closes() {
    for scheme in SCHEMES {
        let mut seats: Vec<_> = Table::new(Setting::usual(scheme, 4, 10)).unwrap().collect();
        let mut last = seats.remove(0);
        let threads: Vec<_> = seats
            .into_iter()
            .map(|mut seat| {
                thread::spawn(move || {
                    let ends = work(&mut seat);
                    (ends, seat.leave())
                })
            })
            .collect();
        let (mut sent, mut came) = work(&mut last);
        let closer = thread::spawn(move || (last.listed(), close(last)));
        let mut listed = 0;
        for it in threads {
            let ((its_sent, its_came), its_listed) = it.join().unwrap();
            (sent, came, listed) = (sent + its_sent, came + its_came, listed + its_listed);
        }
        let (last_listed, closed) = closer.join().unwrap();
        assert_eq!(closed.pairs().collect::<Vec<_>>(), [(KEY, 4 * TURNS)]);
        assert_eq!((closed.get(KEY), closed.get(KEY + 1)), (Some(4 * TURNS), None));
        let versions: Vec<u64> = closed.buckets().map(|bucket| bucket.version()).collect();
        assert_eq!((versions.len(), versions.iter().sum::<u64>()), (10, 4 * TURNS));
        assert_eq!(closed.queue().map(|it| it.value).sum::<u64>(), sent - came);
        assert!(closed.queue().zip(closed.queue().skip(1)).all(|(it, next)| next.number == it.number + 1));
        assert_eq!(closed.rows().len() as u64, 1 + closed.queue().len() as u64 + 1 + listed + last_listed);
        assert!(closed.rows().zip(closed.rows().skip(1)).all(|(slot, next)| slot < next));
        assert!(closed.clock() >= 1);
    }
}

#[test]
fn a_table_is_not_closed_while_a_seat_is_there() {
    let mut seats: Vec<_> = Table::new(Setting::usual(Scheme::HazardEras, 3, 10)).unwrap().collect();
    let (mut last, other) = (seats.pop().unwrap(), seats.pop().unwrap());
    last.put(KEY, 70).unwrap();
    drop(other);
    let why = last.close().unwrap_err();
    assert_eq!(why.to_string(), "another seat of the table has not left");
    let mut last = why.into_seat().unwrap();
    assert_eq!((last.get(KEY).value, last.number()), (Some(70), 2));
    drop(seats);
    let closed = last.close().unwrap();
    assert_eq!((closed.get(KEY), closed.pairs().count(), closed.buckets().len()), (Some(70), 1, 10));
}

#[test]
fn gets_are_bounded_under_wait_free_eras() {
    let setting = Setting { every: 1, ..Setting::usual(Scheme::WaitFreeEras, 2, 1) };
    let mut seats: Vec<_> = Table::new(setting).unwrap().collect();
    let mut writer = seats.pop().unwrap();
    let most = thread::scope(|scope| {
        scope.spawn(move || {
            for value in 0..20_000 {
                writer.put(KEY, value).expect("there is room");
            }
        });
        (0..20_000)
            .map(|_| {
                seats[0].get(KEY);
                seats[0].notes().steps
            })
            .max()
    });
    assert!(most <= Some(u64::from(3 * setting.tries + 18 + setting.pairs)));
}

#[test]
fn settings_out_of_range_are_refused() {
    let good = Setting::usual(Scheme::HazardEras, 2, 10);
    let refused = |setting| match Table::new(setting) {
        Err(OpenError::BadSetting(field)) => Some(field),
        _ => None,
    };
    assert_eq!(refused(good), None);
    assert_eq!(refused(Setting { seats: 0, ..good }), Some(Field::Seats));
    assert_eq!(refused(Setting { seats: u32::MAX, ..good }), Some(Field::Seats));
    assert_eq!(refused(Setting { indexes: 2, ..good }), Some(Field::Indexes));
    assert_eq!(refused(Setting { slots: 1, ..good }), Some(Field::Slots));
    assert_eq!(refused(Setting { buckets: 1_025, ..good }), Some(Field::Buckets));
    assert_eq!(refused(Setting { tries: 0, ..good }), Some(Field::Tries));
    assert_eq!(refused(Setting { every: 0, ..good }), Some(Field::Every));
    assert_eq!(refused(Setting { last_era: 0, ..good }), Some(Field::LastEra));
    assert_eq!(refused(Setting { last_version: 0, ..good }), Some(Field::LastVersion));
    assert_eq!(refused(Setting { pairs: 7, ..good }), Some(Field::Pairs));
    assert_eq!(OpenError::BadSetting(Field::Pairs).to_string(), "the setting's pairs must be 6 or 14");
}

#[test]
fn rows_stand_at_indexes() {
    let mut seats: Vec<_> = Table::new(Setting { indexes: 4, ..Setting::usual(Scheme::HazardPointers, 2, 10) }).unwrap().collect();
    let (mut other, mut seat) = (seats.pop().unwrap(), seats.pop().unwrap());
    assert_eq!(seat.hold(3), None);
    other.put(3, 30).unwrap();
    let slot = seat.hold(3);
    other.put(3, 31).unwrap();
    let row = seat.look(2, 3).unwrap().unwrap();
    assert_eq!((Some(row.slot), row.version, row.value), (slot, 1, Some(30)));
    assert_eq!(seat.copy(2, 3), Ok(slot));
    assert_eq!((seat.copy(3, 2), seat.copy(2, 4), seat.copy(1, 3)), (Err(IndexError), Err(IndexError), Err(IndexError)));
    seat.release();
    assert_eq!(seat.look(2, 3), Ok(None));
    assert_eq!(seat.look(3, 13).unwrap().unwrap().value, None);
    assert_eq!((seat.drop_index(3), seat.drop_index(9)), (Ok(()), Err(IndexError)));
    assert_eq!((seat.seen(3), other.seen(3), seat.seen(10)), (Some(0), Some(2), None));
}

#[test]
fn what_goes_back_is_told() {
    let mut seat = Table::new(Setting { every: 4, ..Setting::usual(Scheme::HazardPointers, 1, 1) }).unwrap().next().unwrap();
    let (mut retired, mut back) = (Vec::new(), Vec::new());
    for value in 0..20 {
        seat.put(1, value).unwrap();
        retired.extend(seat.notes().retired);
        let mut room = [0; 3];
        let (told, count) = seat.backs(&mut room);
        assert_eq!(told.len(), count.min(3));
        let mut room = vec![0; count];
        back.extend_from_slice(seat.backs(&mut room).0);
    }
    assert_eq!((retired.len(), back.len() as u64 + seat.listed()), (19, 19));
    assert!(back.iter().all(|slot| retired.contains(slot)));
}

#[test]
fn seats_come_and_go() {
    let mut seats: Vec<_> = Table::new(Setting::usual(Scheme::WaitFreeEras, 3, 1)).unwrap().collect();
    for turn in 0..5 {
        seats[2].put(1, turn).unwrap();
    }
    let (place, listed) = (seats[2].number(), seats[2].listed());
    assert_eq!(seats[0].adopt(place), Err(AdoptError::NotLeft));
    assert_eq!(seats[0].adopt(3), Err(AdoptError::NoSuchSeat));
    drop(seats.pop());
    assert_eq!(seats[0].adopt(place), Ok(listed));
    assert_eq!(seats[1].adopt(place), Err(AdoptError::AdoptedBefore));
    // a seat that is leaked keeps the table, and nothing else
    std::mem::forget(seats.pop());
    seats[0].put(1, 9).unwrap();
}
