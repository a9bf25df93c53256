/* The parts of rules that a wrong rule changes: the right form of each is its last one. -DWRONG_NAME chooses a wrong form; where
   crates/protocol/wrong has an edit of that name, the edit makes the same change in the definitions. -DOTHER_NAME chooses another
   form, which is not the project's and breaks nothing. In all of it p is the validator that fires. */

/* ---- quorums */

#ifdef WRONG_TWO_OF_FOUR
#define IS_QUORUM(power) ((power) >= 2)
#else
#define IS_QUORUM(power) (3 * (power) > 2 * VALIDATORS)
#endif
#define IS_WEAK(power) (3 * (power) > VALIDATORS)

/* the power of the senders of votes for a content, as validator q keeps them */
#if defined WRONG_TALLY_COUNTS_REPEATS
/* (each vote may have come twice) */
#define POWER_FOR(q, r, step, content) (2 * SIZE(VOTES(q, r, step, content)))
#elif defined WRONG_QUORUM_OVER_SEVERAL_ROUNDS && ROUNDS == 2
#define POWER_FOR(q, r, step, content) SIZE(VOTES(q, 0, step, content) | VOTES(q, 1, step, content))
#elif defined WRONG_QUORUM_OVER_SEVERAL_ROUNDS && ROUNDS == 3
#define POWER_FOR(q, r, step, content) SIZE(VOTES(q, 0, step, content) | VOTES(q, 1, step, content) | VOTES(q, 2, step, content))
#else
#define POWER_FOR(q, r, step, content) SIZE(VOTES(q, r, step, content))
#endif

/* whether a quorum precommitted a value, in one round, among all that was sent */
#if defined WRONG_DECISION_ADDS_ROUNDS
#define AND_A(r) + SIZE(PRECOMMITTED(r, A))
#define AND_B(r) + SIZE(PRECOMMITTED(r, B))
#define A_IS_DECIDABLE IS_QUORUM(0 EACH_ROUND(AND_A))
#define B_IS_DECIDABLE IS_QUORUM(0 EACH_ROUND(AND_B))
#elif defined WRONG_DECISION_UNITES_ROUNDS
#define AND_A(r) | PRECOMMITTED(r, A)
#define AND_B(r) | PRECOMMITTED(r, B)
#define A_IS_DECIDABLE IS_QUORUM(SIZE((0 EACH_ROUND(AND_A))))
#define B_IS_DECIDABLE IS_QUORUM(SIZE((0 EACH_ROUND(AND_B))))
#else
#ifdef WRONG_TALLY_COUNTS_REPEATS
#define OR_A(r) || IS_QUORUM(2 * SIZE(PRECOMMITTED(r, A)))
#define OR_B(r) || IS_QUORUM(2 * SIZE(PRECOMMITTED(r, B)))
#else
#define OR_A(r) || IS_QUORUM(SIZE(PRECOMMITTED(r, A)))
#define OR_B(r) || IS_QUORUM(SIZE(PRECOMMITTED(r, B)))
#endif
#define A_IS_DECIDABLE (false EACH_ROUND(OR_A))
#define B_IS_DECIDABLE (false EACH_ROUND(OR_B))
#endif

/* ---- PrevoteFresh */

/* whether the lock lets it prevote the value */
#ifdef WRONG_FRESH_WITHOUT_LOCK
#define FRESH_IS_ALLOWED(value) (true)
#else
#define FRESH_IS_ALLOWED(value) (lock_round[p] == 0 || lock_value[p] == (value))
#endif

/* what it prevotes where the lock doesn't */
#ifdef OTHER_FRESH_PREVOTES_THE_LOCKED
#define CONTENT_OF_LOCKED lock_value[p]
#else
#define CONTENT_OF_LOCKED NIL
#endif

/* ---- PrevoteAgain; the valid round is that of the proposal */

/* whether the valid round may be this one */
#ifdef OTHER_AGAIN_OF_ANY_ROUND
#define IS_EARLIER(valid) (true)
#else
#define IS_EARLIER(valid) ((valid) < round[p])
#endif

/* whether the value's prevotes of the valid round are enough */
#ifdef WRONG_AGAIN_BY_WEAK_QUORUM
#define IS_BACKED(valid, value) IS_WEAK(POWER_FOR(p, valid, PREVOTE, value))
#else
#define IS_BACKED(valid, value) QUORUM_FOR(p, valid, PREVOTE, value)
#endif

/* whether the lock lets it prevote the value; lock_round is a round and 1 */
#if defined WRONG_AGAIN_WITHOUT_LOCK
#define AGAIN_IS_ALLOWED(valid, value) (true)
#elif defined WRONG_AGAIN_WITHOUT_LOCK_ROUND
#define AGAIN_IS_ALLOWED(valid, value) ((valid) + 1 <= lock_round[p] || lock_round[p] == 0 || lock_value[p] == (value))
#elif defined OTHER_AGAIN_ABOVE_THE_LOCK
#define AGAIN_IS_ALLOWED(valid, value) (lock_round[p] == 0 || lock_round[p] < (valid) + 1 || lock_value[p] == (value))
#else
#define AGAIN_IS_ALLOWED(valid, value) (lock_round[p] <= (valid) + 1 || lock_value[p] == (value))
#endif

/* ---- Lock, PrecommitNil */

/* whether there are the prevotes that it asks for */
#ifdef WRONG_LOCK_WITHOUT_QUORUM
#define IS_LOCKABLE(value) (true)
#else
#define IS_LOCKABLE(value) QUORUM_FOR(p, round[p], PREVOTE, value)
#endif

/* what becomes of the lock as the value is precommitted */
#if defined WRONG_LOCK_WITHOUT_LOCKING
#define LOCKS(value) skip
#elif defined WRONG_OLDER_LOCK_STAYS
#define LOCKS(value) if :: lock_round[p] == 0 -> lock_value[p] = value; lock_round[p] = round[p] + 1 :: else fi
#elif defined WRONG_LOCK_STAYS_AT_ITS_OLDER_ROUND
#define LOCKS(value) lock_value[p] = value; if :: lock_round[p] == 0 -> lock_round[p] = round[p] + 1 :: else fi
#else
#define LOCKS(value) lock_value[p] = value; lock_round[p] = round[p] + 1
#endif

/* what becomes of it as nil is */
#ifdef WRONG_NIL_QUORUM_UNLOCKS
#define UNLOCKS lock_value[p] = NONE; lock_round[p] = 0
#else
#define UNLOCKS skip
#endif

/* ---- restarts */

/* the lock that the journal gives back */
#ifdef WRONG_RESTART_FORGETS_LOCK
#define REOPENED_LOCK_VALUE NONE
#define REOPENED_LOCK_ROUND 0
#else
#define REOPENED_LOCK_VALUE saved_lock_value[p]
#define REOPENED_LOCK_ROUND saved_lock_round[p]
#endif

#ifdef WRONG_RESTART_FORGETS_STEP
#define REOPENED_STEP PROPOSE
#else
#define REOPENED_STEP saved_step[p]
#endif

/* whether a round has begun */
#ifdef WRONG_RESTART_FORGETS_ROUND
#define REOPENED_BEGUN 0
#else
#define REOPENED_BEGUN saved_begun[p]
#endif
