/* A drive or a service: W workers report M messages each into lanes of CAP places, a feeder puts FEED segments and an End into a
   feed of PLACES places, and one standby takes from all of them in rotation until its operator requests a promotion.

   Each access to an atomic word is one step here, for each is SeqCst there. What a thread does by itself nobody sees, so it may be
   part of a step. What lies in a lane and in a feed is not here, but counts alone: contracts say who may touch it when. The
   channel of the feed is one of the libraries: a send and a receive are a step each.

   A sleep has no bound here, though each has one in the code. So a state in which all sleep is a lost wake-up. Only while the
   operator holds the log has the standby's sleep its bound, for nobody rings so that the operator is asked again. And LAPSES
   sleeps of any threads may end unrung.

   A comment with a file of crates/, a function of it and twelve digits stands where that function is modelled. The digits begin
   the sha256 of its lines, and `check` compares them. It also says what each word of an #ifdef in the steps stands for. */

#ifndef W
#define W 2 /* workers */
#endif
#ifndef M
#define M 2 /* reports of each, at most */
#endif
#ifndef FEWER
#define FEWER 0 /* 1: a source of reports may end before */
#endif
#ifndef CAP
#define CAP 1 /* places of a lane */
#endif
#ifndef VISIT
#define VISIT 1 /* messages of a visit; 64 in the code */
#endif
#ifndef PER
#define PER W /* workers whose bits are one word; 64 in the code */
#endif
#ifndef FEED
#define FEED 0 /* segments; 0: there is no feed */
#endif
#ifndef TXS
#define TXS 1 /* transactions of a segment */
#endif
#ifndef PLACES
#define PLACES 4 /* nn_feed/src/ends/calls.rt CAPACITY b350c593c1d3 */
#endif
#ifndef AHEAD
#define AHEAD 0 /* steps of the log that a rotation begins with, where this is more than the lanes */
#endif
#ifndef OPERATOR
#define OPERATOR ENDED /* what the operator waits for: */
#endif
#ifndef HOLDS
#define HOLDS 0 /* rotations for which the operator may hold the log */
#endif
#ifndef LAPSES
#define LAPSES 0 /* sleeps that may end by their bound, or for no reason */
#endif
#ifndef FAULT
#define FAULT 0 /* 1: the last answer of the feed is a fault, and no End */
#endif

#define ENDED 0 /* that all workers have ended. It is a drive: who closes then wakes nobody */
#define ANY 1   /* nothing: it may promote at each rotation, and does once all workers have ended */
#define LOG 2   /* that all workers have ended, and all transactions were applied */

#define WORDS ((W + PER - 1) / PER)
#define WORD(i) reported[(i) / PER]
#define BIT(i) (1 << ((i) % PER))
#define STANDBY W /* its bell stands behind those of the workers */

byte front[W];            /* how many messages a lane accepted; with `closed` it is one atomic word */
bool closed[W];
byte taken[W];            /* how many were taken */
byte seen[W];             /* how many were accepted, as far as the standby knows */
byte reported[WORDS];     /* the bits of the lanes that were reported into */
byte ended;               /* workers that have ended */
bool dozing[W + 1];       /* the word of each bell: DOZING or AWAKE */
bool parked[W + 1];       /* whether a thread sleeps in the kernel on that word */
byte lying;               /* answers in the channel of the feed */
byte shown;               /* answers that the feeder shows as put */
bool fed;                 /* the feeder's thread has ended */
byte lapses = LAPSES;     /* sleeps that may still end early */
bool promoted;
bool given_up;

/* nn_feed/src/bell.rt Bell::ring 98e063ad0dcf */
inline ring(b) {
  if
  :: dozing[b] ->                                          /* a load */
#ifdef WAKE_BEFORE_SWAP
     parked[b] = false; dozing[b] = false
#elif defined(STORE_IN_RING)
     dozing[b] = false; parked[b] = false
#else
     if
     :: d_step { dozing[b] -> dozing[b] = false } -> parked[b] = false /* a swap, and then the wake */
     :: else
     fi
#endif
  :: else
  fi
}

/* nn_feed/src/bell.rt Bell::sleep a0c1c6e6a1fa */
inline sleep(b, has_bound) {
  if
  :: d_step { dozing[b] -> parked[b] = true } ->           /* the kernel compares the word, and the thread sleeps */
     if
     :: !parked[b]
     :: d_step {                                           /* it ends by its bound, or for no reason */
          parked[b] && (has_bound || lapses > 0) -> lapses = lapses - (has_bound -> 0 : 1); parked[b] = false
        }
     fi
  :: else
  fi;
  dozing[b] = false
}

/* nn_drive/src/bells.rt Bells::report 52b9435ab7ac */
inline report(i) {
#if defined(SWAP_IN_REPORT)
  if
  :: d_step { (WORD(i) & BIT(i)) == 0 -> WORD(i) = WORD(i) | BIT(i) } -> ring(STANDBY)
  :: else
  fi
#elif defined(ADD_TWICE)
  /* In a word of PER bits, the last one is lost where it is carried. */
  WORD(i) = (WORD(i) + BIT(i)) % (1 << PER); ring(STANDBY)
#else
  if
  :: (WORD(i) & BIT(i)) == 0 ->                            /* a load */
#ifdef RING_BEFORE_BIT
     ring(STANDBY)
#endif
     d_step { assert((WORD(i) & BIT(i)) == 0); WORD(i) = WORD(i) + BIT(i) };
#ifndef RING_BEFORE_BIT
     ring(STANDBY)
#endif
  :: else
  fi
#endif
}

/* nn_drive/src/driving.rt work f96dba7e3f5d */
/* nn_drive/src/reporting.rt report_all_at 84ccc7707a0a */
proctype worker(byte i) {
  byte n = 0;       /* messages accepted */
  byte limit = 0;   /* so many have a place */
  bool dozes = false;
next:
  if
  :: n < M
  :: n == M || FEWER -> goto end
  fi;
try:
  /* nn_drive/src/reporting.rt report_one 65ddf0920811 */
  /* nn_lane/src/ends.rt Reporter::report c42b1f163671 */
  /* nn_lane/src/ends.rt Reporter::prepare 13e822598800 */
  /* nn_lane/src/ends.rt places 2a94ca2eb5ae */
  if
  :: n < limit
  :: d_step { n >= limit && n < taken[i] + CAP -> limit = taken[i] + CAP }
  :: n >= limit && n >= taken[i] + CAP -> goto is_full
  fi;
#ifdef REPORT_BEFORE_SEND
  report(i);
#endif
  /* nn_lane/src/ends.rt Reporter::publish fad8e172dd02 */
  if
  :: d_step { !closed[i] -> front[i]++; n++ }
  :: closed[i] -> goto is_told
  fi;
  /* nn_drive/src/waiting.rt Waiting::end 128906ed2899 */
  if
  :: d_step { dozes -> dozing[i] = false; dozes = false }
  :: else
  fi;
#ifndef REPORT_BEFORE_SEND
  /* nn_drive/src/waiting.rt Place::report 39e56b3443e7 */
  report(i);
#endif
  goto next;
is_full:
  /* nn_lane/src/ends.rt Reporter::is_closed c3377e4d5672 */
  if
  :: closed[i] -> goto is_told
  :: else
  fi;
  /* nn_drive/src/waiting.rt Waiting::wait bb3a8ed882a2 */
#ifdef NO_SECOND_LOOK
  dozing[i] = true; sleep(i, false);
#else
  if
  :: dozes -> sleep(i, false); dozes = false
  :: d_step { !dozes -> dozing[i] = true; dozes = true } /* nn_feed/src/bell.rt Bell::doze a7a3564c162d */
  fi;
#endif
  goto try;
is_told:
  if
  :: d_step { dozes -> dozing[i] = false; dozes = false } /* nn_feed/src/bell.rt Bell::get_up 1107904f9fb5 */
  :: else
  fi;
end:
  /* nn_drive/src/bells.rt Bells::end dd288b688963 */
#ifdef RING_BEFORE_END
  ring(STANDBY); ended++
#else
  ended++; ring(STANDBY)
#endif
}

/* nn_feed/src/running/calls.rt run_feeder 3c5dc919ab88 */
/* nn_feed/src/running/calls.rt run_thread 6275f8f30ddc */
proctype feeder() {
  byte put = 0;
  do
  :: put <= FEED ->
     /* nn_feed/src/ends/calls.rt Feeder::place 396d7fd7119d */
     /* nn_feed/src/send.rt send fbb7ff0f19c0 */
     d_step { lying < PLACES -> lying++; put++ };
#if defined(FEED_RINGS_FIRST)
     ring(STANDBY); shown = put
#elif defined(FEED_IS_SILENT)
     shown = put
#else
     shown = put; ring(STANDBY)
#endif
  :: else -> break
  od;
  fed = true
}

/* nn_feed/src/ends/calls.rt FeedEnd::ask 318655e0db09 */
/* nn_lane_standby/src/standby/log.rt Standby::step_edit 3dd4860b739e */
inline receive() {
  d_step {
    lying > 0 -> lying--; count++;
    if
    :: count <= FEED -> in_hand = TXS
    :: else -> at_end = true
    fi
  }
}

/* nn_drive/src/rotation.rt is_at_hand f7e711e453ea */
/* nn_feed/src/ends/calls.rt FeedEnd::is_ready 4cdf63f07902 */
#define IS_AT_HAND (in_hand > 0 || (!at_end && shown > count))

/* nn_drive/src/rotation.rt take_log 6a1e937dfc66 */
/* nn_drive/src/rotation.rt take_edits 358d2c800fe0 */
inline take_log(most) {
  j = 0;
  do
  :: FEED == 0 || holds || j == most -> break
  :: FEED > 0 && !holds && j < most ->
     if
     :: d_step { in_hand > 0 -> in_hand--; applied++; j++ }
     :: in_hand == 0 && IS_AT_HAND ->
        assert(lying > 0);
        receive();
        if
        :: d_step { !at_end -> in_hand--; applied++; j++ }
        :: at_end && !FAULT -> break
        :: at_end && FAULT -> goto give_up
        fi
     :: else -> break
     fi
  od
}

/* nn_drive/src/bells.rt Bells::clear a89ee7ec30c1 */
inline clear() {
  k = 0;
  do
  :: k < WORDS ->
#if defined(SWAP_IN_CLEAR)
     d_step { reported[k] = 0; k++ }
#elif defined(STORE_WHAT_IT_READ)
     old = reported[k];
     if
     :: old != 0 -> d_step { reported[k] = old; k++ }
     :: old == 0 -> k++
     fi
#else
     if
     :: reported[k] != 0 -> d_step { reported[k] = 0; k++ }
     :: d_step { reported[k] == 0 -> k++ }
     fi
#endif
  :: else -> break
  od
}

/* nn_drive/src/bells.rt Bells::wake_all f5d300128ca1 */
inline wake_all() {
  i = 0;
  do
  :: i < W -> ring(i); i++
  :: else -> break
  od
}

/* nn_lane_standby/src/standby.rt Standby::close_intake c9eb3e36b646 */
/* nn_lane_standby/src/standby/lanes.rt close_all f757c2066539 */
/* nn_lane/src/ends.rt LaneEnd::close 811e4e0947a5 */
inline close_intake() {
  i = 0;
  do
  :: d_step { i < W -> closed[i] = true; seen[i] = front[i]; i++ }
  :: else -> break
  od
}

active proctype standby() {
  byte i, j, k;
  byte running;          /* workers that were not yet seen to have ended */
  byte count;            /* answers got of the feed */
  byte in_hand;          /* transactions of the segment in hand */
  byte applied;
  byte had;              /* messages of this visit */
  byte held;             /* rotations for which the log was held */
  bool holds, at_end;
  bool is_left = true;
#ifdef STORE_WHAT_IT_READ
  byte old;
#endif
  atomic {
    i = 0;
    do
    :: i < W -> run worker(i); i++
    :: else -> break
    od;
    if
    :: FEED > 0 -> run feeder()
    :: else
    fi
  };
  /* nn_drive/src/rotation.rt Rotation::rotate 80459a3cfc9b */
  do
  :: /* nn_drive/src/rotation.rt Rotation::still_running 7c700d5f7ed7 */
     /* nn_drive/src/bells.rt Bells::ended 4f83f209aedd */
     atomic {
       running = W - ended;                                /* a load, and then the operator is asked */
       holds = false;
       if
       :: running == 0 && (OPERATOR != LOG || applied == FEED * TXS) -> break
       :: OPERATOR == ANY && running > 0 -> break
       :: running > 0 || (OPERATOR == LOG && applied < FEED * TXS)
       :: held < HOLDS && (running > 0 || applied < FEED * TXS) -> holds = true; held++
       fi
     };
     /* nn_drive/src/rotation.rt Rotation::rest 63840161ec16 */
     if
     :: !is_left ->
#ifdef LOG_BEFORE_DOZE
        if
        :: FEED > 0 && !holds && IS_AT_HAND -> goto round
        :: else
        fi;
#endif
#ifndef DOZE_LATE
        dozing[STANDBY] = true;                            /* nn_drive/src/bells.rt Bells::doze a737f08c2578 */
#endif
#ifndef LOG_BEFORE_DOZE
        if
        :: FEED > 0 && !holds && IS_AT_HAND -> goto up
        :: else
        fi;
#endif
#ifndef NO_LOOK_AT_ENDS
        if
        :: W - ended != running -> goto up
        :: else
        fi;
#endif
        /* nn_drive/src/bells.rt Bells::rest 984495dbd479 */
        /* nn_drive/src/bells.rt Bells::has_report f6c5445ff40d */
        k = 0;
        do
        :: k < WORDS ->
           if
           :: reported[k] != 0 -> goto up
           :: d_step { reported[k] == 0 -> k++ }
           fi
        :: else -> break
        od;
#ifdef DOZE_LATE
        dozing[STANDBY] = true;
#endif
progress_sleep:
#ifdef HOLD_WITHOUT_BOUND
        sleep(STANDBY, false);
#else
        sleep(STANDBY, holds);
#endif
        goto round;
up:
        dozing[STANDBY] = false
     :: else
     fi;
round:
#ifndef CLEAR_BEHIND_VISITS
     clear();
#endif
     /* nn_drive/src/rotation.rt Rotation::take_round 6e4c5bc1a039 */
     take_log((AHEAD > W -> AHEAD : W));
     /* nn_drive/src/rotation.rt Rotation::take_lanes adda33232ba6 */
     is_left = false; i = 0;
     do
     :: i < W ->
        had = 0;
        /* nn_drive/src/rotation.rt take_messages 5cf6ff2cc9f5 */
        /* nn_drive/src/rotation.rt take_step a22f70dcc2da */
        /* nn_lane_standby/src/standby/lanes.rt Standby::fetch ac5c9c5a7527 */
        /* nn_lane/src/ends.rt LaneEnd::take b984fbd9862e */
        /* nn_lane/src/ends.rt known 3205c0a673dd */
        do
        :: had == VISIT -> break
        :: had < VISIT ->
           if
           :: taken[i] < seen[i]
           :: d_step { taken[i] == seen[i] && taken[i] < front[i] -> seen[i] = front[i] }
           :: taken[i] == seen[i] && taken[i] == front[i] -> break
           fi;
#ifdef WAKE_BEFORE_TAKEN
           if
           :: had == 0 -> ring(i)
           :: else
           fi;
#endif
           taken[i]++; had++
        od;
        /* nn_drive/src/bells.rt Bells::wake a51be7117281 */
#if !defined(WAKE_BEFORE_TAKEN) && !defined(WAKE_NOBODY)
        if
        :: had > 0 -> ring(i)
        :: else
        fi;
#endif
        take_log(had);
        is_left = is_left || had == VISIT; i++
     :: else -> break
     od;
#ifdef CLEAR_BEHIND_VISITS
     clear()
#endif
  od;
  /* nn_drive/src/serving/calls.rt Rotation::serve_over 3420385ef2ed */
  /* nn_drive/src/driving.rt Crew::run 377ad8dd330f */
#if defined(WAKE_ALL_BEFORE_CLOSE)
  wake_all(); close_intake();
#elif defined(CLOSE_WAKES_NOBODY)
  close_intake();
#else
  close_intake();
  if
  :: OPERATOR != ENDED -> wake_all()
  :: else
  fi;
#endif
  /* nn_lane_standby/src/standby/promote.rt Standby::promote c0b23aebf988 */
  /* nn_lane_standby/src/standby/promote.rt Standby::prepare 868e9d43f891 */
  /* nn_lane_standby/src/standby/log.rt Standby::read_log a45fe3add274 */
  do
  :: FEED == 0 || at_end -> break
  :: FEED > 0 && !at_end -> receive()
  od;
  if
  :: FAULT -> goto give_up
  :: else
  fi;
  /* nn_lane_standby/src/standby/lanes.rt Standby::drain_all 0a58619f03f0 */
  /* nn_lane_standby/src/standby/lanes.rt Standby::drain_lane 0968140f4d2f */
  i = 0;
  do
  :: d_step { i < W && taken[i] < seen[i] -> taken[i]++ }
  :: d_step { i < W && taken[i] == seen[i] -> assert(taken[i] == front[i]); i++ }
  :: i == W -> break
  od;
  promoted = true;
  goto join;
give_up:
  /* nn_drive/src/driving.rt Crew::give_up 3ab198b6045d */
  close_intake();
#ifndef GIVES_UP_UNHEARD
  wake_all();
#endif
  /* nn_drive/src/feeding.rt drop_feed 753fb3099ac0 */
  do
  :: at_end -> break
  :: !at_end -> receive()
  od;
  given_up = true;
join:
  /* nn_drive/src/driving.rt join_all 5cfb81228a20 */
  /* nn_drive/src/feeding.rt end_feed c4842849433b */
  ended == W && (FEED == 0 || fed)
}

#ifdef PROMISED
ltl is_promoted { <> promoted }
#endif
