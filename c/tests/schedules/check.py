#!/usr/bin/env python3
"""check.py [SUITE..]: explores the C files of c/ under every schedule. It prints a line for each scenario, after the schedule of a
fault, and a last line that counts them. The suites, of which the first three are what it explores if none is named:

small    every schedule of each small scenario, over the model of the library
races    the same, with each access to memory as a step, for all but the largest: looks for data races
true     over the library itself, as assembly for x86-64: the scenarios that are small enough, with the calls that the model lacks, and C++
large    four threads completely, few preemptions of larger scenarios, and schedules at random: seven minutes
mutants  plants errors, one at a time, and looks whether they are found: ten minutes. `mutants NAME..` plants these
gate     what the merge gate runs: small, races, a part of true, and an error of each kind: fourteen minutes

The minutes are of one processor, and it takes up to 2 GB. --seed N makes other schedules at random. It takes gcc, g++ and binutils, on x86-64 Linux.
"""
import pathlib
import re
import subprocess
import sys
import tempfile

import build
import mutants

# These take long with each access as a step.
TOO_LARGE_FOR_RACES = """nests_three crosses_three reserved_timed reserved_crosses reserved_kept reserved_clears three_of_two hider_two mixed_of_two loops_of_two loops_three loops_broken_of_two shallow_pairs
    tasks_of_two hider_tasks timed_out owes shares_of_two shares_stop shared shared_two shared_timed shared_stop
    shared_turns shared_wakes shared_ends shared_swept lists_swept lists_differ lists_kept notes_kept
    queued_sleeps queued_stop queued_resume queued_stop_event queued_timed queued_events queued_calls queued_leaves queued_past_sleeper""".split()
# These take seconds over the library itself, with those that need it.
SMALL_FOR_TRUE = """reserved lists_reserved resized reserved_tells reserved_steps reserved_stop reserved_gives_kept reserved_shared
    sleepers signals heir words calls stop stop_listeners stop_timed stop_joins loop loops hider hider_loop hidden timed resizes closes
    resizes_reported closes_reported hires hires_timed hires_stop hires_two hires_grabbed hires_stop_two reopens drains drains_kept drains_stop lists lists_again
    nests crosses drains_kept_sleeps lists_beside_drain masks_kept masks_kept_while shared_drained shared_listed notes notes_again notes_twice notes_shared notes_resized notes_closed shares_drop shares_stop_drop shared_lock shared_kept shared_calls
    queued queued_order queued_laps queued_past queued_posts queued_relay queued_all queued_or_free queued_kept queued_keeps queued_past_kept queued_closes queued_resized""".split()
# Of those that need it, these have races looked for as well.
RACES_FOR_TRUE = "queued queued_past queued_closes posts masks reserved robin batches resizes hires hires_two reopens drains_stop lists_again notes_posted notes_resized plus_owners plus_joins plus_stop plus_resume plus_waits plus_loop plus_quits".split()
TRUE_IN_GATE = "nests queued queued_past queued_closes stop hidden loops calls posts masks masks_kept_while reserved reserved_stop reserved_shared robin batches resizes resizes_reported hires hires_two reopens drains_stop lists_again notes_twice notes_posted shared_passes plus_owners plus_joins plus_stop".split()
# Large, but complete. The others are too large for that, and one of them for two preemptions.
COMPLETE = "kept_posts kept_three four_sleepers four_loops".split()
ONE_PREEMPTION = ["four_ways"]
# One for each kind of fault that is looked for.
IN_GATE = """clear_looks_first clear_looks_for_no_watchers sleeper_is_not_signalled get_wakes_only_if_it_won turn_is_lost load_is_relaxed
    bed_is_read_without_the_lock sleeper_looks_for_its_token_without_the_lock eventfd_is_written_without_the_lock ring_changes_errno
    join_without_the_handle hands_share_a_place count_rises_after_the_listing wait_for_a_reserved_tag_ends_in_the_other_set closed_eventfd_counts_as_told
    whom_a_round_told_is_forgotten stop_rings_before_it_stops cancelled_sleeper_stays_listed told_sleepers_are_not_counted
    kept_tags_go_back_for_no_drain leave_tells_nobody_at_the_gate clear_tells_no_drain cancelled_wait_stays_at_its_gate
    told_one_that_gives_up_tells_nobody second_hand_tells_the_first_again close_answers_nobody drain_that_ends_tells_no_other
    clear_looks_through_lists_before_the_lock round_looks_through_no_list destroyed_coroutine_leaves_its_hand_listed
    function_outlives_the_wait functions_nest function_waits_for_another dropped_future_leaves_its_hand_told resumed_stop_ends_no_wait lock_is_freed_and_wakes_nobody
    shared_call_wakes_with_the_lock turn_is_given_up_and_nobody_told kept_tags_of_shared_hands_stay note_outlives_its_use
    note_ends_after_the_clear note_is_read_once whom_nobody_told_is_woken reserved_get_wakes_nobody told_sleepers_of_both_sets_are_enough
    hand_waits_in_two_sets hand_keeps_while_it_waits_for_a_reserved_tag submit_frees_its_token_before_the_push
    submit_tells_nobody refused_take_tells_and_wakes_nobody tag_is_unmarked_before_it_is_taken push_waits_for_no_lap stop_stops_no_queue""".split()
# Instructions for ARM by which threads meet: those that are weaker than sequentially consistent, and the others.
WEAKER = re.compile(r"^\s+(ldap\w*|ldx\w*|stx\w*|(cas|swp|ld(add|clr|set|eor|[su]max|[su]min))(?!p?al)\w*|st(add|clr|set|eor)\w*)\s", re.M)
ORDERED = re.compile(r"^\s+(ldar|stlr|ldaxr|stlxr|(cas|swp|ld(add|clr|set|eor|[su]max|[su]min))p?al)\w*\s", re.M)
SUITES = ["small", "races", "true", "large", "mutants", "gate"]
LINE = re.compile(r"(\d+) states +(\d+) steps +(\d+) ends")


class Check:
    """The explorers that were built, and what they came to."""

    def __init__(self, made, seed):
        self.made, self.seed = pathlib.Path(made), seed
        self.counts = {"scenarios": 0, "with races": 0, "with few preemptions": 0, "at random": 0, "states": 0}
        self.planted = self.found = self.failed = 0
        self.fixed = {}

    def explorer(self, kind):
        program = self.made / kind
        if not program.exists():
            build.build(program, kind, fixed=self.common(kind))
        return program

    def common(self, kind):
        if kind not in self.fixed:
            self.fixed[kind] = self.made / f"fixed_{kind}"
            self.fixed[kind].mkdir()
            build.make_fixed(self.fixed[kind], kind)
        return self.fixed[kind]

    def scenarios(self, kind, option="--list"):
        listed = subprocess.run([self.explorer(kind), option], capture_output=True, text=True, check=True).stdout
        return [line.split()[0] for line in listed.splitlines()]

    def explore(self, kind, name, *options):
        """A scenario that is not explored to its end has failed."""
        ran = subprocess.run([self.explorer(kind), *options, name], capture_output=True, text=True, check=False)
        line = LINE.search(ran.stdout)
        is_well = ran.returncode == 0 and line is not None
        self.failed += not is_well
        kinds = {"--random": "at random", "--preempt": "with few preemptions", "--races": "with races"}
        what = next((kinds[it] for it in options if it in kinds), "scenarios")
        self.counts[what] += 1
        self.counts["states"] += int(line[1]) if line else 0
        print(f"{'ok    ' if is_well else 'FAILED'} {kind:5s} {ran.stdout.rstrip()} {ran.stderr.strip()}".rstrip(), flush=True)

    def plant(self, mutant):
        """Whether a planted error is found, or makes the program crash."""
        try:
            program = mutants.make(mutant, self.made, self.common(mutant.kind))
        except (build.Failed, mutants.Stale) as why:
            print(f"FAILED {mutant.name}: {why}", flush=True)
            self.failed += 1
            return
        ran = subprocess.run([program, "--quiet", *mutant.options], capture_output=True, text=True, check=False)
        is_found = ran.returncode == 1 or ran.returncode < 0
        line = LINE.search(ran.stdout)
        told = f"{line[1]} states, {line[3]} schedules: {ran.stdout.split('  ')[-1].strip()}" if line else f"status {ran.returncode}"
        print(f"{'ok    ' if is_found else 'MISSED'} {mutant.name}: {' '.join(mutant.options)}: {told}", flush=True)
        program.unlink()
        self.planted, self.found = self.planted + 1, self.found + is_found
        self.failed += not is_found

    def check_orders(self):
        """No step of the library is weaker than sequentially consistent, for ARM."""
        for name in ("ARM", "ARM-LSE"):
            text = (build.C / "generated" / f"tag_c-{name.lower().replace('arm', 'aarch64')}.s").read_text(encoding="utf-8")
            weaker, ordered = WEAKER.findall(text), ORDERED.findall(text)
            is_well = bool(ordered) and not weaker
            told = f"{len(ordered)} sequentially consistent instructions, {len(weaker)} weaker ones"
            print(f"{'ok    ' if is_well else 'FAILED'} {name}: {told}", flush=True)
            self.failed += not is_well

    def told(self):
        counts = ", ".join(f"{count:,} {what}" for what, count in self.counts.items() if count)
        if self.planted:
            counts += f"{', ' if counts else ''}{self.found} of {self.planted} planted errors found"
        return f"{counts}; {self.failed} failed"


def small(check):
    for name in check.scenarios(build.MODEL):
        check.explore(build.MODEL, name)


def races(check):
    for name in check.scenarios(build.MODEL):
        if name not in TOO_LARGE_FOR_RACES:
            check.explore(build.MODEL, name, "--races")


def true(check, some=None):
    check.check_orders()
    in_model = check.scenarios(build.MODEL)
    lacking = [it for it in check.scenarios(build.TRUE) if it not in in_model]
    for name in some or [*SMALL_FOR_TRUE, *lacking]:
        check.explore(build.TRUE, name)
    for name in some or RACES_FOR_TRUE:
        if name in RACES_FOR_TRUE:
            check.explore(build.TRUE, name, "--races")


def large(check):
    for name in COMPLETE:
        check.explore(build.MODEL, name, "--states", "80000000")
    for name in check.scenarios(build.MODEL, "--list-large"):
        if name not in COMPLETE:
            check.explore(build.MODEL, name, "--preempt", "1" if name in ONE_PREEMPTION else "2", "--rounds", "1")
            check.explore(build.MODEL, name, "--random", "100000", "--seed", check.seed)
            check.explore(build.TRUE, name, "--random", "10000", "--seed", check.seed)


def planted(check, names=()):
    for mutant in mutants.read(names):
        check.plant(mutant)


def gate(check):
    small(check)
    races(check)
    true(check, TRUE_IN_GATE)
    planted(check, IN_GATE)


def read_arguments(words):
    """The suites, the mutants that are named, and the seed."""
    seed = "0"
    if words[:1] == ["--seed"] and len(words) > 1:
        seed, words = words[1], words[2:]
    names = words[1:] if words[:1] == ["mutants"] else []
    suites = words[:1] if names else words or ["small", "races", "true"]
    if not seed.isdigit() or set(suites) - set(SUITES):
        sys.exit(__doc__)
    return suites, names, seed


def main():
    suites, names, seed = read_arguments(sys.argv[1:])
    with tempfile.TemporaryDirectory() as made:
        check = Check(made, seed)
        try:
            for suite in suites:
                if suite == "mutants":
                    planted(check, names)
                else:
                    {"small": small, "races": races, "true": true, "large": large, "gate": gate}[suite](check)
        except (build.Failed, mutants.Stale) as why:
            print(f"FAILED {why}")
            check.failed += 1
        print(f"schedules: {check.told()}")
    return 1 if check.failed else 0


if __name__ == "__main__":
    sys.exit(main())
