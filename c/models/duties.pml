/*
 * The duties by which crates/tag_bell says who is on the way to a tag: whoever makes a tag free has to see to it, and whoever was
 * told, to every tag. That ends for a tag that it finds taken, and for all tags once it finds that nobody waits, tells somebody, finds
 * that as many as there are tags were told before, or has tried to tell each that it found listed. Whoever waits has a berth, in
 * which it is listed until it is told, and is among all who wait from before that until it is up. A look at a tag is one step, in any
 * order of the tags: nothing relies on hints.
 *
 * The rule: nobody sleeps beside a free tag while nobody is on the way to it. It is looked at whenever no process can go on.
 *
 * Settings (-D):
 *  THREADS, TAGS   threads, up to 4, that get one of up to 3 tags, sleep where they find none, and hold it for ever or give it back
 *  ONCE            a thread waits for one tag; at first all tags are held, and each may be given back, or never
 *  TIMED           the first TIMED threads have a deadline, which may pass while they sleep
 *  LONGEST         those found listed are told in the order of their turns; otherwise in any order
 *  MUTANT          a wrong step: README.md says which
 */
#ifndef TIMED
#define TIMED 0
#endif
#ifndef MUTANT
#define MUTANT 0
#endif
#define ALL ((1 << TAGS) - 1)
#define NONE 255
#define BIT (1 << me)
#ifdef ONCE
byte free;                /* the words, turned round: 1 is free */
#else
byte free = ALL;
#endif
byte waiters;             /* who waits, told or not */
#define UP 0
#define LISTED 1
#define TOLD 2
byte berth[4];
byte found[THREADS + TAGS]; /* whom each process found listed, and has not tried to tell */
#ifdef LONGEST
byte turn[4];             /* 1 has waited longest; 0 does not wait */
byte waiting;
#define BEFORE(i, j) (!(found[self] & (1 << j)) || turn[i] <= turn[j])
#define IS_NEXT(i) (found[self] & (1 << i)) && BEFORE(i, 0) && BEFORE(i, 1) && BEFORE(i, 2) && BEFORE(i, 3)
#else
#define IS_NEXT(i) found[self] & (1 << i)
#endif

/*
 * A thread takes a turn, and ends its wait. With its new turn its berth is not as anybody found it before, so that no tell of theirs
 * succeeds.
 */
inline begin() {
  for (other : 0 .. THREADS + TAGS - 1) { found[other] = found[other] & ~BIT }
#ifdef LONGEST
  waiting++;
  turn[me] = waiting;
#endif
  other = 0
}

inline end() {
#ifdef LONGEST
  if
  :: turn[me] ->
     for (other : 0 .. THREADS - 1) { if :: turn[other] > turn[me] -> turn[other]-- :: else fi }
     turn[me] = 0;
     waiting--
  :: else
  fi;
  other = 0
#else
  skip
#endif
}

#define WINS(k) d_step { (untried & (1 << k)) && (free & (1 << k)) -> free = free & ~(1 << k); tag = k; untried = 0 }
#define SEES(k) d_step { (untried & (1 << k)) && (free & (1 << k)) -> seen = 1; untried = 0 }
#define MISSES(k) d_step { (untried & (1 << k)) && !(free & (1 << k)) -> untried = untried & ~(1 << k) }

/* Tries the tags in any order, until it wins one or has found each taken. */
inline try() {
  untried = ALL;
  do
  :: WINS(0)
  :: MISSES(0)
#if TAGS > 1
  :: WINS(1)
  :: MISSES(1)
#endif
#if TAGS > 2
  :: WINS(2)
  :: MISSES(2)
#endif
  :: untried == 0 -> break
  od
}

/* Looks for a free tag, in any order. */
inline look() {
  untried = ALL;
  do
  :: SEES(0)
  :: MISSES(0)
#if TAGS > 1
  :: SEES(1)
  :: MISSES(1)
#endif
#if TAGS > 2
  :: SEES(2)
  :: MISSES(2)
#endif
  :: untried == 0 -> break
  od
}

/* A look at the berth of the first one left of those that a load found waiting. If as many come as there are tags, nobody is told. */
#define LOOKS(i) d_step { (left & ((2 << i) - 1)) == (1 << i) -> left = left & ~(1 << i); \
  if :: berth[i] == LISTED -> found[self] = found[self] | (1 << i) :: berth[i] == TOLD -> coming++ :: else fi; \
  if :: left == 0 -> if :: coming >= TAGS -> found[self] = 0 :: else fi; coming = 0 :: else fi }

/* A tell, after which nobody else need be told. It fails if that one is not listed any more, and then the next one is tried. */
#if MUTANT == 94
#define TELLS(i) d_step { IS_NEXT(i) -> if :: berth[i] == LISTED -> berth[i] = TOLD :: else fi; found[self] = 0 }
#else
#define TELLS(i) d_step { IS_NEXT(i) -> \
  if :: berth[i] == LISTED -> berth[i] = TOLD; found[self] = 0 :: else -> found[self] = found[self] & ~(1 << i) fi }
#endif

/* Whoever made a tag free: looks at each that a load finds waiting, and tells one of those listed. */
inline see_to(self) {
  left = waiters;
  do
  :: LOOKS(0)
  :: LOOKS(1)
  :: LOOKS(2)
  :: LOOKS(3)
  :: left == 0 -> break
  od;
  do
  :: TELLS(0)
  :: TELLS(1)
  :: TELLS(2)
  :: TELLS(3)
  :: found[self] == 0 -> break
  od
}

/* Whoever was told, and has a tag or gives up: if somebody waits and a tag is free, tells one. */
inline see_to_all() {
  if
  :: waiters ->
     look();
     if
     :: seen -> seen = 0; see_to(me)
     :: else
     fi
  :: else
  fi;
  told = 0
}

proctype Thread(byte me) {
  byte tag = NONE, untried, left, coming, other;
  bit told, seen, late;

idle:
#ifdef ONCE
  skip;
#else
  if
  :: goto done
  :: skip
  fi;
  try();
  if
  :: tag != NONE -> goto hold
  :: else
  fi;
#endif
  d_step {
    begin();
#if MUTANT != 93
    waiters = waiters | BIT;
#endif
  };

round:
  atomic { told = (berth[me] == TOLD); berth[me] = LISTED };  /* lists itself, one that was told with the turn that it had */
  try();
#if MUTANT == 93
  waiters = waiters | BIT;                                    /* mutant 93: only now, after its try */
#endif
  if
#if MUTANT == 91
  :: tag != NONE -> told = 0; goto rise                       /* mutant 91: does not see to the other tags */
#else
  :: tag != NONE -> goto rise
#endif
  :: else -> told = 0                                         /* it has found each taken */
  fi;
end_asleep:
  if
  :: berth[me] == TOLD -> goto round
#if TIMED
  :: berth[me] == LISTED && me < TIMED -> late = 1
#endif
  fi;

rise:
  atomic { told = told || (berth[me] == TOLD); berth[me] = UP }; /* gets up */
  d_step { waiters = waiters & ~BIT; end() };
#if MUTANT == 92
  if :: late -> told = 0 :: else fi;                          /* mutant 92: does not see to any */
#endif
  if :: told -> see_to_all() :: else fi;
  if
  :: late -> late = 0; goto gone
  :: else
  fi;

hold:
#ifndef ONCE
  if
  :: goto done                                                /* it holds the tag for ever */
  :: skip
  fi;
  d_step { free = free | (1 << tag); tag = NONE };
  see_to(me);
#endif
gone:
#ifndef ONCE
  goto idle;
#endif

done:
  skip
}

#ifdef ONCE
proctype Holder(byte tag) {
  byte left, coming;
  if
  :: free = free | (1 << tag); see_to((THREADS + tag))
  :: skip
  fi
}
#endif

init {
  byte i;
  atomic {
    for (i : 0 .. THREADS - 1) { run Thread(i) }
#ifdef ONCE
    for (i : 0 .. TAGS - 1) { run Holder(i) }
#endif
    i = 0
  };
  timeout ->                                                  /* no process can go on */
    assert(!free || (berth[0] != LISTED && berth[1] != LISTED && berth[2] != LISTED && berth[3] != LISTED))
}
