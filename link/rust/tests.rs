//! The wrapper as its users see it: `cargo test` in link/rust.

use gateway::{Dispatcher, Fate, Interval, Job, Outcome, Phase, Refusal, View, Work};

fn tasks(entries: &[[u32; 6]]) -> Vec<u8> {
    let mut bytes = Vec::new();
    for &[number, priority, mark, copy_in, execution, copy_out] in entries {
        bytes.extend([1, number as u8, priority as u8, mark as u8]);
        for length in [copy_in, execution, copy_out] {
            bytes.extend(length.to_le_bytes());
        }
    }
    bytes
}

/// Spacings, each of a task.
fn spacings(entries: &[(u8, u32)]) -> Vec<u8> {
    entries.iter().flat_map(|&(task, ticks)| [3, task].into_iter().chain(ticks.to_le_bytes())).collect()
}

/// The tasks of document 01's plans.
fn plan() -> Vec<u8> {
    tasks(&[[1, 1, 1, 2, 3, 1], [2, 2, 0, 2, 4, 1], [3, 3, 0, 2, 5, 2]])
}

/// The jobs and the intervals of a plan with three releases: of 3 at 0, of 2 at 2, and of 1 at a time.
fn run(last: u64) -> (Vec<Job>, Vec<Interval>) {
    run_of(&[(0, 1 << 3), (2, 1 << 2), (last, 1 << 1)])
}

/// The jobs and the intervals of a plan, of which no release is skipped.
fn run_of(releases: &[(u64, u32)]) -> (Vec<Job>, Vec<Interval>) {
    run_over(&plan(), releases)
}

fn run_over(tasks: &[u8], releases: &[(u64, u32)]) -> (Vec<Job>, Vec<Interval>) {
    let mut d = Dispatcher::open(tasks).unwrap();
    let (mut jobs, mut intervals) = (Vec::new(), Vec::new());
    let mut releases = releases.iter().copied().peekable();
    let mut due = None;
    while let Some(now) = [due, releases.peek().map(|release| release.0)].into_iter().flatten().min() {
        let set = releases.next_if(|release| release.0 == now).map_or(0, |release| release.1);
        let answer = d.instant(now, set).unwrap();
        assert_eq!(answer.skipped, 0);
        jobs.extend(answer.done);
        intervals.extend(answer.closed);
        due = answer.due;
    }
    assert_eq!(d.pending(), 0);
    (jobs, intervals)
}

#[test]
fn plan_a_by_instants() {
    let (jobs, intervals) = run(3);
    assert_eq!(
        jobs,
        [
            Job { task: 3, release: 0, start: 2, completion: 9, blocked: 0 },
            Job { task: 1, release: 3, start: 9, completion: 13, blocked: 1 },
            Job { task: 2, release: 2, start: 12, completion: 17, blocked: 1 },
        ]
    );
    let spans: Vec<_> = intervals.iter().map(|i| (i.begin, i.end, i.task, i.fate, i.promoted)).collect();
    assert_eq!(spans[1], (2, 7, Some(3), Fate::Cancelled, Some(1)));
    assert_eq!(spans[4], (16, 17, None, Fate::None, None));
    assert_eq!(intervals[2].work, Work::CopyInAndExecute);
}

#[test]
fn plan_b_by_instants() {
    let ((jobs_a, intervals_a), (jobs, intervals)) = (run(3), run(4));
    assert_eq!(intervals[1], Interval { fate: Fate::ThrownOut, ..intervals_a[1] });
    assert_eq!(intervals[2..], intervals_a[2..]);
    assert_eq!(jobs, [jobs_a[0], Job { release: 4, ..jobs_a[1] }, jobs_a[2]]);
}

#[test]
fn plan_f_by_instants() {
    let ((jobs, intervals), (jobs_at_6, intervals_at_6)) = (run_of(&[(0, 2), (5, 2)]), run_of(&[(0, 2), (6, 2)]));
    assert_eq!(intervals, intervals_at_6);
    assert_eq!(jobs, [jobs_at_6[0], Job { release: 5, ..jobs_at_6[1] }]);
    assert_eq!(jobs[1], Job { task: 1, release: 5, start: 8, completion: 12, blocked: 0 });
}

#[test]
fn tasks_of_one_priority() {
    // 2 comes before 1 and goes before it, and is not thrown out by it, though 1 is latency-sensitive; neither blocks the other
    let desks = tasks(&[[1, 5, 1, 2, 3, 1], [2, 5, 0, 2, 4, 1], [3, 9, 0, 2, 5, 2]]);
    let (jobs, intervals) = run_over(&desks, &[(0, 1 << 3), (2, 1 << 2), (5, 1 << 1)]);
    assert_eq!(intervals[1], Interval { fate: Fate::Done, promoted: None, ..intervals[1] });
    assert_eq!(jobs[1], Job { task: 2, release: 2, start: 7, completion: 12, blocked: 1 });
    assert_eq!(jobs[2], Job { task: 1, release: 5, start: 11, completion: 15, blocked: 1 });
    // at one tick the lower number goes first
    assert_eq!(run_over(&desks, &[(0, 1 << 1 | 1 << 2)]).0.iter().map(|job| job.task).collect::<Vec<_>>(), [1, 2]);
}

#[test]
fn one_release_of_a_task_waits() {
    let mut d = Dispatcher::open(&plan()).unwrap();
    let skipped: Vec<_> = [(0, 2), (2, 2), (4, 2), (5, 0), (6, 2), (7, 2)].map(|(time, set)| d.instant(time, set).unwrap().skipped).into();
    // at 6 the one of 2 is taken, and that of 6 waits in its turn
    assert_eq!(skipped, [0, 0, 2, 0, 0, 2]);
    let refusal = d.mark(1, false).unwrap_err();
    assert_eq!(refusal.to_string(), "a mark change while a job is pending or a release waits (refusal 17)");
    let released: Vec<_> = [8, 11, 12, 14, 17, 18].into_iter().filter_map(|time| d.instant(time, 0).unwrap().done).map(|job| job.release).collect();
    assert_eq!((released, d.pending()), (vec![2, 6], 0));
    d.mark(1, false).unwrap();
}

#[test]
fn a_spacing_at_its_edge() {
    let mut d = Dispatcher::open(&[plan(), spacings(&[(1, 20)])].concat()).unwrap();
    assert_eq!((d.spacing(1), d.spacing(2), d.spacing(32)), (Some(20), None, None));
    let calls = [(0, 2), (2, 0), (5, 0), (6, 0), (19, 2), (20, 2), (21, 2)];
    let skipped: Vec<_> = calls.map(|(time, set)| d.instant(time, set).unwrap().skipped).into();
    // a tick sooner it is skipped, and does not count as the last; exactly one spacing later it is taken
    assert_eq!(skipped, [0, 0, 0, 0, 2, 0, 2]);
    assert_eq!((d.pending(), d.now().waiting), (2, 0));
}

#[test]
fn a_spacing_behind_one_that_waits() {
    let mut d = Dispatcher::open(&[plan(), spacings(&[(1, 5)])].concat()).unwrap();
    let calls = [(0, 2), (2, 0), (4, 2), (5, 2), (6, 2), (8, 0), (10, 2)];
    let skipped: Vec<_> = calls.map(|(time, set)| d.instant(time, set).unwrap().skipped).into();
    // that of 5 waits and is taken at 6; the next one is measured from 5
    assert_eq!(skipped, [0, 0, 2, 0, 2, 0, 0]);
    assert_eq!(d.now().waiting, 2);
}

#[test]
fn spacings_that_are_refused() {
    let refused = |entries: Vec<u8>| Dispatcher::open(&[plan(), entries].concat()).unwrap_err();
    let (one, at) = (spacings(&[(1, 20)]), |number, place| Refusal { number, place: Some(place) });
    assert_eq!(refused(one[..5].to_vec()), at(Refusal::CUT_SHORT, 48));
    assert_eq!(refused([one.clone(), tasks(&[[1, 1, 1, 2, 3, 1]])].concat()), at(Refusal::TASK_AFTER_RELEASE, 54));
    assert_eq!(refused(spacings(&[(1, 20), (9, 0)])), at(Refusal::RELEASE_OF_NO_TASK, 54));
    for bad in [spacings(&[(2, 20), (1, 0)]), spacings(&[(2, 20), (1, 1_000_000_001)]), spacings(&[(2, 20), (2, 20)])] {
        assert_eq!(refused(bad), at(Refusal::BAD_SPACING, 54));
    }
    assert_eq!(refused(spacings(&[(1, 0)])).to_string(), "a spacing outside 1 to 1,000,000,000, or a second one for a task (refusal 19) at byte 48");
    // in a file one after a release is 3
    let behind = [plan(), releases(), one].concat();
    assert_eq!(gateway::record(&behind, &mut [0; 1 << 10]), Outcome::Refused(at(Refusal::TASK_AFTER_RELEASE, 78)));
}

#[test]
fn the_longest_opening() {
    let all = tasks(&std::array::from_fn::<_, 32, _>(|n| [n as u32, 1, 0, 1, 1, 1]));
    let entries = [all, spacings(&std::array::from_fn::<_, 32, _>(|n| (n as u8, 1_000_000_000)))].concat();
    assert_eq!(entries.len(), gateway::LONGEST_OPENING);
    let d = Dispatcher::open(&entries).unwrap();
    assert!((0..32).all(|task| d.spacing(task) == Some(1_000_000_000)));
}

#[test]
fn a_record_with_spacings_is_read_back() {
    let (head, mut record, mut list) = ([plan(), spacings(&[(3, 5)])].concat(), vec![0; 1 << 10], vec![0; 64]);
    let again = [releases(), vec![2, 3, 4, 0, 0, 0, 0, 0, 0, 0]].concat();
    let Outcome::Written(length) = gateway::record(&[&head[..], &again].concat(), &mut record) else {
        panic!("a spacing is refused");
    };
    // the second release of 3 comes four ticks after the first
    assert_eq!(record[..length].windows(10).filter(|entry| *entry == [18, 3, 4, 0, 0, 0, 0, 0, 0, 0]).count(), 1);
    assert_eq!(gateway::read(&head, &record[..length], &mut list), Outcome::Written(40));
    assert_eq!(list[..40], again);
    // without the spacing it waits, so that this is the record of no list
    assert_eq!(gateway::read(&plan(), &record[..length], &mut list), Outcome::Refused(Refusal { number: 18, place: None }));
}

/// The release entries of plan A.
fn releases() -> Vec<u8> {
    [(0u64, 3), (2, 2), (3, 1)].iter().flat_map(|&(time, task)| [2, task].into_iter().chain(time.to_le_bytes())).collect()
}

fn recorded() -> Vec<u8> {
    let mut out = vec![0; 1 << 10];
    let Outcome::Written(length) = gateway::record(&[plan(), releases()].concat(), &mut out) else {
        panic!("plan A is refused");
    };
    out.truncate(length);
    out
}

#[test]
fn a_record_is_read_back() {
    let (record, mut out) = (recorded(), vec![0; 64]);
    assert_eq!(gateway::read(&plan(), &record, &mut out), Outcome::Written(30));
    assert_eq!(out[..30], releases());
    assert_eq!(gateway::read(&plan(), &record, &mut out[..29]), Outcome::TooShort(30));
}

#[test]
fn a_record_that_no_list_makes() {
    let (record, mut out) = (recorded(), vec![7; 64]);
    let no_list = Refusal { number: 18, place: None };
    assert_eq!(gateway::read(&plan(), &record[24..], &mut out), Outcome::Refused(no_list));
    assert_eq!(no_list.to_string(), "no list of releases of these tasks makes this record (refusal 18)");
    let cut = Refusal { number: 1, place: Some(24) };
    assert_eq!(gateway::read(&plan(), &record[..30], &mut out), Outcome::Refused(cut));
    assert_eq!(out, [7; 64]);
}

#[test]
fn the_waveform_of_plan_a() {
    let (input, mut out) = ([plan(), releases()].concat(), vec![7; 1 << 10]);
    let Outcome::Written(length) = gateway::waveform(&input, &mut out) else {
        panic!("plan A is refused");
    };
    assert_eq!(out[length..], vec![7; (1 << 10) - length]);
    let dump = String::from_utf8(out[..length].to_vec()).unwrap();
    assert!(dump.starts_with("$timescale 1 us $end\n$scope module gateway $end\n"));
    // at 3 the copy-in of 2 is broken off for the release of 1, and nothing else changes; at 17 nobody is left
    assert!(dump.contains("\n#3\nb11111111 b\n#7\n") && dump.ends_with("\n#17\nb11111111 c\n"));

    let mut short = vec![7; length - 1];
    assert_eq!(gateway::waveform(&input, &mut short), Outcome::TooShort(length));
    let cut = Refusal { number: 1, place: Some(68) };
    assert_eq!(gateway::waveform(&input[..75], &mut short), Outcome::Refused(cut));
    assert_eq!(short, vec![7; length - 1]);
    assert_eq!(gateway::waveform(&input, &mut out[..length]), Outcome::Written(length));
}

#[test]
fn refusals_in_words() {
    assert_eq!(Dispatcher::open(&[]).unwrap_err(), Refusal { number: 12, place: None });
    let twice = tasks(&[[1, 1, 1, 2, 3, 1], [1, 2, 0, 2, 4, 1]]);
    let refusal = Dispatcher::open(&twice).unwrap_err();
    assert_eq!(refusal.to_string(), "a task number over 31 or given before (refusal 4) at byte 16");
    let error: Box<dyn std::error::Error> = refusal.into();
    assert!(error.to_string().contains("given before"));
}

#[test]
fn a_refused_call_changes_nothing() {
    let mut d = Dispatcher::open(&plan()).unwrap();
    d.instant(5, 1 << 1).unwrap();
    let before = d.clone();
    for (time, set, number) in [(5, 0, 14), (8, 0, 15), (6, 1 << 9, 16), (1_000_000_001, 1 << 1, 10)] {
        assert_eq!(d.instant(time, set).unwrap_err().number, number);
        assert_eq!(format!("{d:?}"), format!("{before:?}"));
    }
    assert_eq!(d.mark(1, false).unwrap_err().number, 17);
    assert_eq!(d.mark(9, true).unwrap_err().number, 16);
    assert_eq!(d.instant(7, 0), before.clone().instant(7, 0));
}

/// Plan A, looked at and committed: each commit does what its enquiry showed, and what an instant would.
#[test]
fn look_first_then_act() {
    let (mut d, mut by_instants) = (Dispatcher::open(&plan()).unwrap(), Dispatcher::open(&plan()).unwrap());
    let calls = [(0, 1 << 3), (2, 1 << 2), (3, 1 << 1), (7, 0), (9, 0), (11, 0), (12, 0), (13, 0), (16, 0), (17, 0)];
    for (count, (time, set)) in (0..).zip(calls) {
        let before = d.clone();
        let shown = d.enquire(time, set).unwrap();
        assert_eq!((shown.ticket, format!("{d:?}")), (count, format!("{before:?}")));
        assert_eq!(d.enquire(time, set), Ok(shown));
        assert_eq!(d.commit(shown.ticket, time, set), Ok(shown.answer));
        assert_eq!((d.now(), d.ticket()), (shown.next, count + 1));
        assert_eq!(by_instants.instant(time, set), Ok(shown.answer));
        assert_eq!(d.commit(shown.ticket, time + 1, 0).unwrap_err().number, Refusal::OLD_TICKET);
    }
    assert_eq!((d.pending(), d.ticket(), by_instants.ticket()), (0, 10, 10));
}

#[test]
fn an_old_ticket() {
    let mut d = Dispatcher::open(&plan()).unwrap();
    let shown = d.enquire(0, 1 << 3).unwrap();
    d.mark(2, true).unwrap();
    let refusal = d.commit(shown.ticket, 0, 1 << 3).unwrap_err();
    assert_eq!(refusal.to_string(), "a ticket that is not the present one (refusal 20)");
    // it comes before all that an instant is refused by
    for (ticket, time, set, number) in [(0, 0, 1 << 9, 20), (u64::MAX, 0, 0, 20), (2, 0, 0, 20), (1, 0, 1 << 9, 16), (1, 1_000_000_001, 2, 10)] {
        assert_eq!(d.commit(ticket, time, set).unwrap_err().number, number);
    }
    assert_eq!(d.enquire(0, 1 << 9).unwrap_err().number, 16);
    assert_eq!(d.ticket(), 1);
    // with another time or set it does what that instant would
    let mut other = d.clone();
    assert_eq!(d.commit(1, 4, 1 << 1), other.instant(4, 1 << 1));
    for (time, number) in [(4, 14), (7, 15)] {
        assert_eq!(d.enquire(time, 0).unwrap_err().number, number);
    }
}

/// Enquiries only read the dispatcher, so that several threads may make them at once.
#[test]
fn enquiries_beside_each_other() {
    let mut d = Dispatcher::open(&plan()).unwrap();
    d.instant(0, 1 << 3).unwrap();
    let alone = [0, 1 << 1, 1 << 2, 1 << 3].map(|set| d.enquire(2, set).unwrap());
    let beside = std::thread::scope(|scope| {
        [0, 1 << 1, 1 << 2, 1 << 3].map(|set| scope.spawn({ let d = &d; move || (0..1000).map(|_| d.enquire(2, set).unwrap()).last() })).map(|made| made.join().unwrap())
    });
    assert_eq!(beside, alone.map(Some));
}

#[test]
fn marks() {
    let mut d = Dispatcher::open(&plan()).unwrap();
    assert_eq!(d.marked(), 1 << 1);
    d.mark(2, true).unwrap();
    d.mark(1, false).unwrap();
    assert_eq!(d.marked(), 1 << 2);
}

#[test]
fn marks_for_a_whole_desk() {
    let mut d = Dispatcher::open(&plan()).unwrap();
    d.mark_all(1 << 2 | 1 << 3, true).unwrap();
    assert_eq!((d.marked(), d.ticket()), (0b1110, 1));
    d.mark_all(1 << 1 | 1 << 3, false).unwrap();
    d.mark_all(0, true).unwrap();
    assert_eq!((d.marked(), d.ticket()), (1 << 2, 3));
    d.instant(0, 1 << 3).unwrap();
    // one that is busy, one that is unknown: then none changes
    let numbers = [0b1110, 1 << 3, 1 << 1 | 1 << 9, 1 << 31].map(|set| d.mark_all(set, true).unwrap_err().number);
    assert_eq!((numbers, d.marked(), d.ticket()), ([17, 17, 16, 16], 1 << 2, 4));
    d.mark_all(0b0110, true).unwrap();
    assert_eq!((d.marked(), d.ticket()), (0b0110, 5));
}

/// M of the plans' tasks is 7, by L and C of task 3. Task 1 is marked.
#[test]
fn a_figure_to_plan_on() {
    let mut d = Dispatcher::open(&plan()).unwrap();
    assert_eq!(d.longest_interval(), 7);
    assert_eq!((d.completes_after(1, 0), d.completes_after(2, 0), d.completes_after(2, 1), d.completes_after(3, 0)), (15, 22, 29, 23));
    d.mark(2, true).unwrap();
    assert_eq!(d.completes_after(2, 1), 22);
}

/// What goes on in plan A, tick by tick: at 3 the copy-in of 2 is broken off, at 7 the processor copies in 1 itself.
#[test]
fn what_goes_on() {
    let mut d = Dispatcher::open(&plan()).unwrap();
    let phase = |task, until| Some(Phase { task, until });
    let idle = d.now();
    let nothing = View {
        begin: None,
        work: Work::Idle,
        processor: None,
        copy_in: None,
        copy_out: None,
        half: 0,
        pending: 0,
        waiting: 0,
        marked: 1 << 1,
    };
    assert_eq!(idle, nothing);
    d.instant(0, 1 << 3).unwrap();
    let first = d.now();
    assert_eq!(first, View { begin: Some(0), copy_in: phase(3, 2), pending: 1 << 3, ..nothing });
    assert!(first.begins_after(&idle) && first.copy_in_begun(&idle) == phase(3, 2));
    d.instant(2, 1 << 2).unwrap();
    let second = d.now();
    let (processor, copy_in) = (phase(3, 7), phase(2, 4));
    assert_eq!(second, View { begin: Some(2), work: Work::Execute, processor, copy_in, half: 1, pending: 0b1100, ..nothing });
    assert_eq!((second.begins_after(&first), second.broken_off(&first, 2), second.copy_in_begun(&first)), (true, None, copy_in));
    d.instant(3, 1 << 1).unwrap();
    let third = d.now();
    assert_eq!(third, View { copy_in: None, pending: 0b1110, ..second });
    assert_eq!((third.begins_after(&second), third.broken_off(&second, 3), third.copy_in_begun(&second)), (false, Some(2), None));
    d.instant(7, 1 << 1).unwrap();
    let fourth = d.now();
    assert_eq!((fourth.work, fourth.processor, fourth.copy_out, fourth.half), (Work::CopyInAndExecute, phase(1, 9), phase(3, 9), 0));
    assert_eq!((fourth.waiting, fourth.broken_off(&third, 7)), (1 << 1, None));
    d.instant(9, 0).unwrap();
    assert_eq!((d.now().processor, d.now().copy_in, d.now().copy_out), (phase(1, 12), phase(2, 11), None));
}
