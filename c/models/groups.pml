/*
 * Blocking gets in Rattle, step by step: Queue::get_blocking, get and clear of crates/tag_queue, over the wait groups and the
 * charges of crates/wake_book. The scripts and logs of tagplay wait so.
 *
 * The rule: no thread sleeps beside a batch of free tags while nobody is on the way to one; with a batch of 1, beside any. It is
 * looked at whenever no process can go on.
 *
 * Settings (-D):
 *  THREADS               threads that call get_blocking and clear, again and again, or ROUNDS times at most
 *  WORDS, PLACES, TURNS  the words of the tags (search.pml); WHOLE_GET: a get is one step
 *  GROUPS, BATCH         wait groups (eight in the code), and completions for a charge
 *  FOREVER               whoever holds a tag may hold it for ever; otherwise each holder gives it back
 *  HIDERS, BATCHERS      threads that only get: a batch larger than any run, and a batch of 2
 *  MUTANT                a wrong step: README.md says which
 *
 * An event count is one step: a ring ends each sleep that was announced and has not begun, and wakes one that has. Left out: the
 * order in which sleepers wake (any may be the first, so more can happen), and that a charge gives up after 16 lost exchanges
 * and a walk leaves a group after 4.
 */
#ifndef WORDS
#define WORDS 1
#endif
#ifndef PLACES
#define PLACES 1
#endif
#ifndef TURNS
#define TURNS 4
#endif
#ifndef GROUPS
#define GROUPS 1
#endif
#ifndef BATCH
#define BATCH 1
#endif
#ifndef HIDERS
#define HIDERS 0
#endif
#ifndef BATCHERS
#define BATCHERS 0
#endif
#ifndef MUTANT
#define MUTANT 0
#endif
#define WAITING_NOW in_groups
#include "search.pml"

byte in_groups;           /* the active count: those in a group, or entering or leaving one */
byte waiting[GROUPS];     /* a group's word has both counts, which change in one step */
byte granted[GROUPS];
bit changed[THREADS];     /* the group's word has changed since this thread looked at it */
byte looks_at[THREADS];   /* that group, plus 1 */
byte open;                /* completions that are not charged */
bit charged[THREADS];     /* a batch was charged since this thread looked at the charges */
byte index;               /* the group that the next walk visits first */
#define AWAKE 0
#define ANNOUNCED 1
#define RUNG 2            /* before it slept */
#define ASLEEP 3
#define WOKEN 4
byte sleep[THREADS];
byte bell[THREADS];       /* the group whose event count it sleeps on, plus 1 */

/* What each process has of its own: what a search needs, and what nudges need. */
#define OWN byte tag, found, place, at, visits, turns, mask, left, swept, looked, nudges, count, to, i

/* EventCount::notify_one */
inline notify_one(group) {
  atomic {
    for (i : 0 .. THREADS - 1) {
      if :: bell[i] == group + 1 && sleep[i] == ANNOUNCED -> sleep[i] = RUNG :: else fi
    }
    i = 0;
    if
    :: bell[0] == group + 1 && sleep[0] == ASLEEP -> sleep[0] = WOKEN
#if THREADS > 1
    :: bell[1] == group + 1 && sleep[1] == ASLEEP -> sleep[1] = WOKEN
#endif
#if THREADS > 2
    :: bell[2] == group + 1 && sleep[2] == ASLEEP -> sleep[2] = WOKEN
#endif
#if THREADS > 3
    :: bell[3] == group + 1 && sleep[3] == ASLEEP -> sleep[3] = WOKEN
#endif
    :: else
    fi
  }
}

/* rings.rt: nudge, for `nudges` sleepers of each group */
inline nudge() {
  to = 0;
  do
#if MUTANT == 85
  :: to < 1 ->                                                /* mutant 85: rings the first group alone */
#else
  :: to < GROUPS ->
#endif
#if MUTANT == 86
     count = (waiting[to] < nudges -> waiting[to] : nudges);  /* mutant 86: shares the nudges out by the groups' counts */
     nudges = nudges - count;
#else
     count = nudges;
#endif
     do
     :: count > 0 -> notify_one(to); count--
     :: else -> break
     od;
     to++
  :: else -> break
  od;
  skip;
  d_step { to = 0; nudges = 0 }
}

/* Queue::look_after */
inline look_after() {
  if
  :: left == 0
  :: else ->
#if MUTANT != 31
     looked = in_groups;                                      /* groups.sight: the load of the active count */
#endif
     nudges = (looked < left -> looked : left);
     nudge();
     d_step { left = 0; looked = 0 }
  fi
}

/* A load of a group's word. Whoever changes it spoils the exchanges of those who looked before. */
inline look_group(group) {
  d_step { looks_at[me] = group + 1; changed[me] = 0; some = waiting[group]; grants = granted[group] }
}

inline spoil(group) {
  for (i : 0 .. THREADS - 1) {
    if :: looks_at[i] == group + 1 -> changed[i] = 1 :: else fi
  }
  i = 0
}

/* clears.rt: put, complete, charge_and_ring */
inline clear() {
#if MUTANT == 83
  looked = in_groups;
#endif
  d_step { aside[tag / PLACES] = aside[tag / PLACES] | (1 << (tag % PLACES)); tag = 0 }   /* put */
#if MUTANT != 83
  looked = in_groups;                                         /* groups.active; mutant 83: before the put */
#endif
  if
  :: looked == 0
  :: else -> count_one(); if :: won -> walk(); ring() :: else fi
  fi;
  d_step { looked = 0; won = 0 }
}

/* charge.rt: Book::count */
inline count_one() {
  open++;                                                     /* add */
  do
  :: charged[me] = 0;                                         /* look_wakeups */
     if
     :: charged[me] || open >= BATCH                          /* look_completions: at least a batch more */
     :: else -> break
     fi;
     d_step {                                                 /* advance, an exchange */
       if
       :: charged[me]
       :: else -> won = 1; open = open - BATCH; for (i : 0 .. THREADS - 1) { charged[i] = 1 } i = 0
       fi
     };
     if :: won -> break :: else fi
  od;
  charged[me] = 0
}

/* walk.rt: walk, visit, grant */
inline walk() {
  if
  :: in_groups == 0                                           /* active */
  :: else ->
     group = index;
     wanted = BATCH;
     visits = GROUPS;
     do
     :: wanted > 0 && visits > 0 ->
        look_group(group);
        if
        :: some == 0
        :: else ->
           d_step {                                           /* grant, an exchange */
             some = (some < wanted -> some : wanted);
             if
             :: changed[me] -> some = 0
             :: else ->
                waiting[group] = waiting[group] - some;
                granted[group] = granted[group] + some;
                gave[group] = gave[group] + some;
                wanted = wanted - some;
                spoil(group)
             fi
           }
        fi;
        d_step {
          if :: changed[me] && some == 0 && looks_at[me] :: else -> group = (group + 1) % GROUPS; visits-- fi;
          some = 0; grants = 0; looks_at[me] = 0; changed[me] = 0
        }
     :: else -> break
     od;
     index = group;                                           /* store_index */
     d_step { group = 0; wanted = 0; visits = 0 }
  fi
}

/* rings.rt: ring, one sleeper for each grant of a group */
inline ring() {
  do
  :: group < GROUPS && gave[group] > 0 -> notify_one(group); gave[group]--
  :: group < GROUPS && gave[group] == 0 -> group++
  :: else -> break
  od;
  group = 0
}

/* waiting.rt: leave, try_leave. `woken`: it used a grant. */
inline leave() {
  do
  :: look_group(mine);
     d_step {                                                 /* an exchange */
       if
       :: changed[me] -> left_group = 0
       :: else ->
          left_group = 1;
          if :: grants > 0 -> granted[mine]--; woken = 1 :: else -> waiting[mine]--; woken = 0 fi;
          spoil(mine)
       fi;
       some = 0; grants = 0; looks_at[me] = 0; changed[me] = 0
     };
     if :: left_group -> break :: else fi
  od;
  in_groups--;
  d_step { left_group = 0; mine = 0 }
}

proctype Thread(byte me) {
  OWN;
  byte mine, next, group, wanted, some, grants, gave[GROUPS];
  bit won, woken, left_group;
#ifdef ROUNDS
  byte rounds;
#endif

idle:
  if
  :: goto done
#ifdef ROUNDS
  :: rounds < ROUNDS -> rounds++
#else
  :: skip
#endif
  fi;
  /* blocking.rt: get_blocking */
again:
  get();                                                      /* try_get */
  if :: tag != NONE -> goto hold :: else fi;
  /* stay */
  in_groups++;                                                /* groups.enter: two steps */
  d_step { mine = next; waiting[mine]++; spoil(mine); next = (next + 1) % GROUPS };
#if MUTANT != 81
  d_step { bell[me] = mine + 1; sleep[me] = ANNOUNCED };      /* groups.announce */
#endif
#if MUTANT == 82
  tag = NONE;                                                 /* mutant 82: does not try again */
#else
  get();                                                      /* try_get */
#endif
#if MUTANT == 81
  d_step { if :: tag == NONE -> bell[me] = mine + 1; sleep[me] = ANNOUNCED :: else fi };   /* mutant 81: announces after its try */
#endif
  /* sleep_if_none, groups.sleep */
  if
  :: tag != NONE -> d_step { sleep[me] = AWAKE; bell[me] = 0 }     /* the key is dropped */
  :: else ->
#if MUTANT != 84
     look_group(mine);                                        /* look_group; mutant 84: sleeps without a look */
#endif
     d_step { looks_at[me] = 0; changed[me] = 0; some = 0 };
     if
     :: grants > 0
     :: else ->
        d_step { sleep[me] = (sleep[me] == ANNOUNCED -> ASLEEP : WOKEN) };   /* wait */
end_asleep:
        sleep[me] == WOKEN
     fi;
     d_step { sleep[me] = AWAKE; bell[me] = 0; grants = 0 }
  fi;
  leave();
#if MUTANT != 87
  if :: woken && tag != NONE -> nudges = 1; nudge() :: else fi;    /* pass_on; mutant 87: does not */
#endif
  woken = 0;
  if :: tag == NONE -> goto again :: else fi;

hold:
#ifdef FOREVER
  if :: skip :: goto done fi;
#endif
  clear();
  goto idle;

done:
  skip;
  d_step { tag = 0; next = 0 }
}

/* batch.rt: a batch get that sweeps each word and then looks for a run, and looks after what it left */
#if HIDERS + BATCHERS
proctype Other(bit wins) {
  OWN;
  byte held;
  do
  :: break
  :: skip;
     sweep();                                                 /* sweep_and_look */
#if BATCHERS
     if
     :: wins ->
        d_step { found = word[0]; place = FIRST_CLEAR(found, 0) };
        if                                                    /* claim_run, a fetch_or */
        :: place + 2 <= PLACES -> d_step { held = (3 << place) & ~word[0]; word[0] = word[0] | (3 << place) }
        :: else
        fi;
        d_step { found = 0; place = 0 }
     :: else
     fi;
#endif
     count_left(held);
     look_after();
     if :: held -> break :: else fi                           /* it holds them for ever */
  od;
  held = 0
}
#endif

init {
  byte i, free;
  atomic {
    for (i : 0 .. THREADS - 1) { run Thread(i) }
#if HIDERS
    for (i : 1 .. HIDERS) { run Other(0) }
#endif
#if BATCHERS
    for (i : 1 .. BATCHERS) { run Other(1) }
#endif
    i = 0
  };
  timeout ->                                                  /* no process can go on */
  atomic {
    free = FREE;
    free = COUNT(free);
    for (i : 0 .. THREADS - 1) {
      assert(sleep[i] == AWAKE || (sleep[i] == ASLEEP && free < BATCH && granted[bell[i] - 1] == 0))
    }
  }
}
