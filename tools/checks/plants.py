"""Bugs in the loop, the lanes and the operators' connections, each of which the simulation has to notice."""

# Each bug by its name: a file of crates/, what stands in it, and what is planted in place of that.
PLANTS = {
    "front_counts_no_drop": (
        "media_front/src/lane_status.rt",
        "self.dropped = self.dropped.saturating_add(1);",
        "self.pressed = self.pressed || presses;",
    ),
    "front_grants_unpaid_plis": (
        "media_front/src/granting.rt",
        "if is_paid { granted } else { Some(0) }",
        "if is_paid { granted } else { granted }",
    ),
    "front_refills_too_little": (
        "media_front/src/paying.rt",
        "draft.refill(octets);",
        "draft.refill(octets / 2);",
    ),
    "lane_leaves_one_out": (
        "media_workers/src/running.rt",
        "put_all(rt, sink, sent);",
        "let mut sent = sent; let _ = sent.pop(); put_all(rt, sink, sent);",
    ),
    "lane_names_another_version": (
        "media_workers/src/lane.rt",
        ".step(alloc, entered.version(), entered.rows(), item);",
        ".step(alloc, entered.version() / 2, entered.rows(), item);",
    ),
    "loop_asks_again_and_again": (
        "event_loop/src/kept.rt",
        "self.pictures.asked(source, now);",
        "let _ = (source, now);",
    ),
    "loop_asks_for_no_first_picture": (
        "event_loop/src/reading.rt",
        "self.ask_first(&received.from, ended, received.moment)?;",
        "let _ = ended;",
    ),
    "loop_lets_no_time_pass": (
        "event_loop/src/rounds.rt",
        "return self.wait_all(rows, now);",
        "return Ok(());",
    ),
    "loop_makes_no_reports": (
        "event_loop/src/rounds.rt",
        "self.report(rows, now)",
        "Ok(())",
    ),
    "loop_never_catches_up": (
        "event_loop/src/state.rt",
        "catch_up(&mut self.media, &mut self.ticked, moment);",
        "let _ = moment;",
    ),
    "loop_takes_an_old_moment": (
        "event_loop/src/state.rt",
        "let moment = self.watch.now()?;",
        "let moment = self.ticked.max(self.watch.now()?.saturating_sub(30_000_000));",
    ),
    "loop_wakes_no_lane": (
        "event_loop/src/rounds.rt",
        "self.state.signal(rt);",
        "let _ = rt;",
    ),
    "operators_are_always_welcome": (
        "operator_threads/src/operators.rt",
        "let is_empty = seats.is_empty();",
        "let is_empty = false;",
    ),
    "operators_are_told_nothing": (
        "operator_threads/src/steps.rt",
        "caller.refuse_seat();",
        "let _ = number;",
    ),
    "operators_go_on_after_quit": (
        "operator_connection/src/talking.rt",
        "Next::Quit if !self.outgoing.is_over() => LinkState::Ending,",
        "Next::Quit if !self.outgoing.is_over() => LinkState::Open,",
    ),
    "operators_keep_a_seat": (
        "operator_threads/src/seats.rt",
        "self.seats.push_reserved(seat);",
        "drop(seat);",
    ),
    "operators_wake_nobody": (
        "operator_threads/src/noting.rt",
        "            self.front.wake();",
        "            let _ = self.front;",
    ),
    "operators_write_twice": (
        "operator_connection/src/caller.rt",
        "self.talk.note_write(came, now);",
        "let _ = now;",
    ),
}
