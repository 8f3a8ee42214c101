/*
 * The words of the tags, and a get: crates/tag_core and crates/tag_search, step by step, for groups.pml.
 *
 * Each atomic operation is one step, and all are sequentially consistent. WORDS words (1 or 2) of PLACES tags (1 to 3).
 * A get is the plain one, which begins with any word, as with any hint. Its first word has TURNS turns, the other one.
 * WHOLE_GET makes a get one step, so that it never falls into another's sweep: for settings that are too large otherwise.
 * Left out: the width of words, round robin, slots, reserved tags, the limits of a caller's life.
 *
 * groups.pml defines look_after(), which looks for those who wait, after a get that left `left` tags free.
 */
#define NONE 100
#define REFUSED 101
#define ALL_PLACES ((1 << PLACES) - 1)
#define ALL_TAGS (WORDS * PLACES)
#define LOWEST(mask) ((mask & 1) -> 0 : ((mask & 2) -> 1 : ((mask & 4) -> 2 : 3)))
#define COUNT(mask) ((mask & 1) + ((mask >> 1) & 1) + ((mask >> 2) & 1) + ((mask >> 3) & 1))
/* The first place from `from` on that is clear in these bits, or PLACES. */
#define FIRST_CLEAR(bits, from) ((from <= 0 && !(bits & 1)) -> 0 : \
  ((from <= 1 && PLACES > 1 && !(bits & 2)) -> 1 : ((from <= 2 && PLACES > 2 && !(bits & 4)) -> 2 : PLACES)))

byte word[WORDS];     /* 1 is taken */
byte aside[WORDS];    /* 1 is set aside: the cleared set */

/* The tags that are free or set aside, as a mask. */
#define FREE_IN(i) ((ALL_PLACES & ~word[i]) | aside[i])
#if WORDS > 1
#define FREE (FREE_IN(0) | (FREE_IN(1) << PLACES))
#else
#define FREE FREE_IN(0)
#endif

/* pass.rt: pass, pass_on */
inline pass() {
  d_step { found = word[at]; place = FIRST_CLEAR(found, 0) };              /* pass: port.look */
  do
  :: d_step { tag == NONE && place < PLACES ->                             /* claim_place: port.claim, a fetch_or */
       found = word[at];
       word[at] = found | (1 << place);
       if
       :: (found >> place) & 1 -> place = FIRST_CLEAR(found, place)        /* pass_on: in the word as the claim found it */
       :: else -> tag = at * PLACES + place
       fi }
  :: else -> break
  od;
  skip
}

/* shared.rt: sweep */
inline sweep() {
  if
  :: aside[at] == 0                                                        /* look_aside found nothing */
  :: else ->
     d_step { mask = aside[at]; aside[at] = 0 };                           /* sweeps.rt: swap */
     if
     :: mask == 0
     :: else ->
#if MUTANT == 31
        looked = WAITING_NOW;                                              /* mutant 31: looks before it spills */
#endif
        /* sweeps.rt: fetch_sub. The port counts what was freed, and knows the latest of it. */
        d_step { word[at] = word[at] & ~mask; left = left + COUNT(mask); swept = mask << (at * PLACES); mask = 0 }
     fi
  fi
}

/* shared.rt: sweep_keeping */
inline sweep_keeping() {
  if
  :: aside[at] == 0                                                        /* look_aside found nothing */
  :: else ->
     d_step {                                                              /* sweeps.rt: keep_least: swap */
       mask = aside[at];
       aside[at] = 0;
       if
       :: mask -> tag = at * PLACES + LOWEST(mask); mask = mask & (mask - 1)
       :: else
       fi
     };
     if
     :: mask == 0
     :: else ->
#if MUTANT == 31
        looked = WAITING_NOW;                                              /* mutant 31: looks before it spills */
#endif
        /* sweeps.rt: keep_least: fetch_sub. The port counts what was freed, and knows the latest of it. */
        d_step { word[at] = word[at] & ~mask; left = left + COUNT(mask); swept = mask << (at * PLACES); mask = 0 }
     fi
  fi
}

#ifdef WHOLE_GET
inline search() {
  d_step {
    tag = NONE;
    at = 0;
#if WORDS > 1
    if :: !FREE_IN(0) -> at = 1 :: else fi;
#endif
    if
    :: !(ALL_PLACES & ~word[at]) ->
       left = COUNT(aside[at]); swept = aside[at] << (at * PLACES);
       word[at] = word[at] & ~aside[at]; aside[at] = 0
    :: else
    fi;
    if
    :: ALL_PLACES & ~word[at] ->
       place = FIRST_CLEAR(word[at], 0);
       word[at] = word[at] | (1 << place);
       tag = at * PLACES + place
    :: else
    fi;
    at = 0; place = 0
  }
}
#else
/* all_places.rt: search_after; pass.rt: visit, retry, retry_keeping */
inline search() {
  d_step { tag = NONE; visits = WORDS };
#if WORDS > 1
  if :: at = 0 :: at = 1 fi;
#endif
  do
  :: visits > 0 ->
     pass();
     turns = (visits == WORDS -> TURNS : 1);
     do
     :: tag == NONE && turns > 0 ->
        if
        :: visits == WORDS -> sweep_keeping()
        :: else -> sweep()
        fi;
        if
        :: tag == NONE -> pass()
        :: else
        fi;
        turns--
     :: else -> break
     od;
     skip;
     d_step { at = (at + 1) % WORDS; visits = (tag == NONE -> visits - 1 : 0) }
  :: else -> break
  od;
  skip;
  d_step { found = 0; place = 0; at = 0; turns = 0 }
}
#endif

/* shared.rt: left. What was won of the latest sweep comes off what all sweeps freed. */
inline count_left(won) {
#if MUTANT == 32
  d_step { if :: won == 0 -> left = 0 :: else fi }                         /* mutant 32: who won nothing does not look */
#endif
#if MUTANT == 33
  left = 0;                                                                /* mutant 33: does not look */
#endif
  d_step { left = (left > COUNT((swept & won)) -> left - COUNT((swept & won)) : 0); swept = 0 }
#if MUTANT == 34
  d_step { if :: left > 1 -> left = 1 :: else fi }                         /* mutant 34: looks for one, whatever is left */
#endif
}

/* A get as a program calls it: on_map.rt: get; then tag_queue: look_after. */
inline get() {
  search();
  count_left((tag == NONE -> 0 : 1 << tag));
  look_after()
}
